/* "Three forms we write": one command, another form of a frame, two frames joined. The result's length is reckoned from what judging
 * told, so that a refusal has touched nothing and the writing needs no test of its own. */
#include "careful_inside.h"

#include <string.h>

enum {
    LEAD_NULS = 5,  /* "five NUL, SOH" */
    ESCAPE_ADDS = 2 /* characters that an escape has besides the byte's one */
};

static int is_form(uint8_t form)
{
    return form == PAGOZKIN_PLAIN_FORM || form == PAGOZKIN_SUMMED_FORM || form == PAGOZKIN_PRINTABLE_FORM;
}

/* ---- lengths */

/* Bytes that the result stands for: "forms 1 and 2 count their five NULs". */
static size_t translated_length(uint8_t form, size_t header_len, const careful_facts *facts)
{
    size_t nuls = form == PAGOZKIN_PRINTABLE_FORM ? 0 : LEAD_NULS;
    /* STX, command and ETX; the last block's has EOT in the place of ETX, or EOT behind its sum */
    size_t each = form == PAGOZKIN_PLAIN_FORM ? 3 : 3 + SUM_DIGITS;
    size_t eot = form == PAGOZKIN_PLAIN_FORM ? 0 : 1;
    return nuls + 1 + header_len + facts->blocks * each + facts->data + eot;
}

/* "18, 14": 0 and the result's length in the buffer, or the refusal. */
static uint8_t reckon(uint8_t form, size_t header_len, const careful_facts *facts, size_t out_len, size_t *length)
{
    *length = translated_length(form, header_len, facts);
    if (*length > PAGOZKIN_MOST_TRANSLATED || facts->blocks > PAGOZKIN_MOST_BLOCKS)
        return PAGOZKIN_TOO_LONG;
    if (form == PAGOZKIN_PRINTABLE_FORM) /* SOH, STX and ETX of each block, EOT, and the data's own; a header needs none */
        *length += ESCAPE_ADDS * (2 + 2 * facts->blocks + facts->escapes);
    return *length > out_len ? PAGOZKIN_NO_ROOM : PAGOZKIN_DONE;
}

static pagozkin_written written(uint8_t number, size_t length)
{
    pagozkin_written answer;
    answer.number = number;
    answer.length = number == PAGOZKIN_DONE ? length : 0;
    return answer;
}

/* ---- putting: each answers where the next byte goes */

static uint8_t *put_escape(uint8_t *to, uint8_t byte)
{
    to[0] = ESCAPE;
    to[1] = careful_digit_of(byte >> 4);
    to[2] = careful_digit_of(byte);
    return to + 3;
}

static uint8_t *put_lead(uint8_t form, uint8_t *to)
{
    if (form == PAGOZKIN_PRINTABLE_FORM)
        return put_escape(to, SOH);
    memset(to, NUL, LEAD_NULS);
    to[LEAD_NULS] = SOH;
    return to + LEAD_NULS + 1;
}

/* Address characters in capitals, type codes as they are: those stand at every fourth place. */
static uint8_t header_capital(const uint8_t *header, size_t i)
{
    return i % (PAIR + 1) == 0 ? header[i] : careful_capital(header[i]);
}

static uint8_t *put_header(uint8_t *to, const uint8_t *header, size_t length)
{
    for (size_t i = 0; i < length; i++)
        to[i] = header_capital(header, i);
    return to + length;
}

/* "blocks parted by ETX": the block alone */
static uint8_t *put_plain(uint8_t *to, const careful_block *block)
{
    size_t length = (size_t)(block->end - block->data);
    to[0] = STX;
    to[1] = block->command;
    memcpy(to + 2, block->data, length);
    return to + 2 + length;
}

/* "with ETX and checksum on each block" */
static uint8_t *put_summed(uint8_t *to, const careful_block *block)
{
    to = put_plain(to, block);
    *to = ETX;
    careful_put_word(to + 1, block->sum);
    return to + 1 + SUM_DIGITS;
}

static inline uint8_t *put_printed_byte(uint8_t *to, uint8_t byte)
{
    if (careful_needs_escape(byte))
        return put_escape(to, byte);
    *to = byte;
    return to + 1;
}

/* The same in print, in the walk that finds the data's end and sum: careful_walk is not needed before. */
static uint8_t *put_printed(uint8_t *to, const uint8_t *end, careful_block *block)
{
    const uint8_t *p = block->data;
    unsigned sum = STX + ETX + (unsigned)block->command;
    to = put_escape(to, STX);
    to = put_printed_byte(to, block->command);
    for (; p < end && *p >= LOWEST_DATA; p++) {
        sum += *p;
        to = put_printed_byte(to, *p);
    }
    block->end = p;
    block->sum = sum;
    to = put_escape(to, ETX);
    careful_put_word(to, sum);
    return to + SUM_DIGITS;
}

/* The blocks of a frame that was judged. */
static uint8_t *put_blocks(uint8_t form, uint8_t *to, const careful_frame *frame)
{
    const uint8_t *end = frame->bytes + frame->length;
    careful_block block;
    block.next = frame->bytes + frame->body;
    do {
        if (!careful_begin(block.next, end, &block))
            return to;
        if (form == PAGOZKIN_PRINTABLE_FORM) {
            to = put_printed(to, end, &block);
        } else {
            careful_walk(end, &block);
            to = form == PAGOZKIN_PLAIN_FORM ? put_plain(to, &block) : put_summed(to, &block);
        }
        careful_finish(end, &block);
        if (form == PAGOZKIN_PLAIN_FORM && block.kind == PAGOZKIN_MORE)
            *to++ = ETX;
    } while (block.kind == PAGOZKIN_MORE);
    return to;
}

static void put_eot(uint8_t form, uint8_t *to)
{
    if (form == PAGOZKIN_PRINTABLE_FORM)
        put_escape(to, EOT);
    else
        *to = EOT;
}

/* ---- writing: "15, 6, 16, 18, 14" */

/* The one block, whose data end where a byte is too low; 16 there. */
static uint8_t walk_text(uint8_t form, size_t text_len, careful_block *block, careful_facts *facts)
{
    const uint8_t *end = block->data + text_len;
    facts->blocks = 1;
    facts->data = text_len;
    facts->escapes = 0;
    if (block->command < LOWEST_DATA)
        return PAGOZKIN_BYTE_TOO_LOW;
    if (form == PAGOZKIN_PRINTABLE_FORM)
        facts->escapes = careful_walk_counting(end, block);
    else
        careful_walk(end, block);
    return block->end == end ? PAGOZKIN_DONE : PAGOZKIN_BYTE_TOO_LOW;
}

static void put_command(uint8_t form, const uint8_t *header, size_t header_len, careful_block *block, uint8_t *to)
{
    to = put_header(put_lead(form, to), header, header_len);
    if (form == PAGOZKIN_PLAIN_FORM)
        to = put_plain(to, block);
    else if (form == PAGOZKIN_SUMMED_FORM)
        to = put_summed(to, block);
    else
        to = put_printed(to, block->end, block);
    put_eot(form, to);
}

pagozkin_written careful_write(uint8_t form, const uint8_t *header, size_t header_len, uint8_t command, const uint8_t *text,
                               size_t text_len, uint8_t *out, size_t out_len)
{
    careful_facts facts;
    careful_block block;
    size_t length = 0;
    uint8_t number;
    if (!is_form(form))
        return written(PAGOZKIN_WRONG_FORM, 0);
    if (header_len == 0 || careful_pairs(header, header + header_len) != header + header_len)
        return written(PAGOZKIN_BAD_HEADER, 0);
    block.command = command;
    /* a length of 0 asks nothing of its pointer, so none is reckoned from it */
    block.data = text_len == 0 ? &command : text;
    number = walk_text(form, text_len, &block, &facts);
    if (number == PAGOZKIN_DONE)
        number = reckon(form, header_len, &facts, out_len, &length);
    if (number == PAGOZKIN_DONE)
        put_command(form, header, header_len, &block, out);
    return written(number, length);
}

/* ---- re-forming: "15, 3 to 8 in the run's order, 17, 18, 14" */

/* "3 to 8 and 17" of one input. */
static uint8_t take_input(uint8_t form, const uint8_t *raw, size_t raw_len, uint8_t *room, careful_frame *frame, careful_facts *facts)
{
    uint8_t number = careful_open(raw, raw_len, room, frame);
    if (number == PAGOZKIN_DONE)
        number = careful_judge(frame, form == PAGOZKIN_PRINTABLE_FORM, facts);
    if (number == PAGOZKIN_DONE && !facts->sums_right)
        number = PAGOZKIN_WRONG_SUM;
    return number;
}

pagozkin_written careful_reform(uint8_t form, const uint8_t *frame, size_t frame_len, uint8_t *out, size_t out_len)
{
    uint8_t room[PAGOZKIN_ROOM]; /* not cleared: only a printable frame fills it, and only what it filled is read */
    careful_frame input;
    careful_facts facts;
    size_t length = 0;
    uint8_t number;
    if (!is_form(form))
        return written(PAGOZKIN_WRONG_FORM, 0);
    number = take_input(form, frame, frame_len, room, &input, &facts);
    if (number == PAGOZKIN_DONE)
        number = reckon(form, input.body - input.header, &facts, out_len, &length);
    if (number == PAGOZKIN_DONE) {
        uint8_t *to = put_header(put_lead(form, out), input.bytes + input.header, input.body - input.header);
        put_eot(form, put_blocks(form, to, &input));
    }
    return written(number, length);
}

/* ---- joining: "15, the first input's 3 to 8 and 17, the second's, 12, 13, 18, 14", and 19 "straight after 12" */

/* "Headers that differ only in this count as equal": in small letters of their addresses. */
static int headers_differ(const careful_frame *a, const careful_frame *b)
{
    size_t length = a->body - a->header;
    if (b->body - b->header != length)
        return 1;
    for (size_t i = 0; i < length; i++)
        if (header_capital(a->bytes + a->header, i) != header_capital(b->bytes + b->header, i))
            return 1;
    return 0;
}

static void put_joined(uint8_t form, uint8_t *to, const careful_frame *a, const careful_frame *b)
{
    to = put_header(put_lead(form, to), a->bytes + a->header, a->body - a->header);
    to = put_blocks(form, to, a);
    if (form == PAGOZKIN_PLAIN_FORM)
        *to++ = ETX;
    put_eot(form, put_blocks(form, to, b));
}

pagozkin_written careful_join(uint8_t form, const uint8_t *first, size_t first_len, const uint8_t *second, size_t second_len,
                              uint8_t *out, size_t out_len)
{
    uint8_t first_room[PAGOZKIN_ROOM], second_room[PAGOZKIN_ROOM];
    careful_frame a, b;
    careful_facts facts, more;
    size_t length = 0;
    uint8_t number;
    if (!is_form(form))
        return written(PAGOZKIN_WRONG_FORM, 0);
    number = take_input(form, first, first_len, first_room, &a, &facts);
    if (number == PAGOZKIN_DONE)
        number = take_input(form, second, second_len, second_room, &b, &more);
    if (number != PAGOZKIN_DONE)
        return written(number, 0);
    if (headers_differ(&a, &b))
        return written(PAGOZKIN_HEADERS_DIFFER, 0);
    if (careful_starts(&a)) /* and so does b */
        return written(PAGOZKIN_START_JOINED, 0);
    if (facts.has_read)
        return written(PAGOZKIN_FIRST_HAS_READ, 0);
    facts.blocks += more.blocks;
    facts.data += more.data;
    facts.escapes += more.escapes;
    number = reckon(form, a.body - a.header, &facts, out_len, &length);
    if (number == PAGOZKIN_DONE)
        put_joined(form, out, &a, &b);
    return written(number, length);
}
