/* A frame before its body: "First byte", escapes, lead and header; and the reading of a whole one. */
#include "careful_inside.h"

enum {
    LEAST_NULS = 5, /* "five or more NUL" */
    LEAST_SOHS = 6, /* "six or more SOH" */
    ESCAPED = 3,    /* characters of an escape */
    NO_BYTE = 0x100 /* what a bad escape stands for */
};

/* The byte that "_" and two digits stand for. */
static unsigned escaped(const uint8_t *p, const uint8_t *end)
{
    unsigned high, low;
    if (end - p < ESCAPED)
        return NO_BYTE;
    high = careful_frame_digit(p[1]);
    low = careful_frame_digit(p[2]);
    return (high | low) & NO_DIGIT ? NO_BYTE : high << 4 | low;
}

/* Tests printable characters and counts the bytes that they stand for; 5 where one is bad. */
static uint8_t test_printable(const uint8_t *p, const uint8_t *end, size_t *count)
{
    size_t n = 0;
    for (; p < end; n++) {
        if (!careful_needs_escape(*p))
            p++;
        else if (*p == ESCAPE && escaped(p, end) != NO_BYTE)
            p += ESCAPED;
        else
            return PAGOZKIN_BAD_PRINTABLE;
    }
    *count = n;
    return PAGOZKIN_DONE;
}

/* The bytes that a printable frame stands for, tested in the same walk: "5, translated length (3)". */
static uint8_t translate(const uint8_t *p, const uint8_t *end, uint8_t *room, size_t *length)
{
    uint8_t *to = room, *full = room + PAGOZKIN_ROOM;
    while (p < end && to < full) {
        /* characters that stand for themselves, as far as both buffers reach */
        const uint8_t *stop = end - p < full - to ? end : p + (full - to);
        while (p < stop && !careful_needs_escape(*p))
            *to++ = *p++;
        if (p < stop) {
            unsigned byte = *p == ESCAPE ? escaped(p, end) : NO_BYTE;
            if (byte == NO_BYTE)
                return PAGOZKIN_BAD_PRINTABLE;
            *to++ = (uint8_t)byte;
            p += ESCAPED;
        }
    }
    *length = (size_t)(to - room);
    if (p == end)
        return PAGOZKIN_DONE;
    /* too many, unless one of the rest is bad: that comes first */
    return test_printable(p, end, length) == PAGOZKIN_DONE ? PAGOZKIN_WRONG_LENGTH : PAGOZKIN_BAD_PRINTABLE;
}

/* Where the header starts: "five or more NUL and then SOH, or six or more SOH of which the last opens the header. Printable: any number
 * of NUL, none included, then SOH; or one or more SOH." 0 where the lead is wrong. */
static size_t header_start(const uint8_t *bytes, size_t length, int printable)
{
    uint8_t first = bytes[0];
    size_t least = printable ? 1 : first == NUL ? LEAST_NULS : LEAST_SOHS;
    size_t count = 1;
    if (first != NUL && first != SOH)
        return 0;
    while (count < length && bytes[count] == first)
        count++;
    if (count < least)
        return 0;
    if (first == SOH)
        return count;
    return count < length && bytes[count] == SOH ? count + 1 : 0;
}

/* "23H to 26H, 31H, 32H, 43H, 44H, 45H, 55H, 5EH, 61H to 72H, 74H, 75H" */
int careful_is_own_type(uint8_t type)
{
    return (type >= 0x61 && type <= 0x72) || (type >= 0x43 && type <= 0x45) || (type >= 0x23 && type <= 0x26) || type == 0x31 ||
           type == 0x32 || type == 0x55 || type == 0x5E || type == 0x74 || type == 0x75;
}

/* "a type code of Table 4" that may stand beside others: not "z" */
static int is_type(uint8_t type)
{
    return type == 'Z' || type == '!' || type == '?' || type == '0' || type == 0x22 || careful_is_own_type(type);
}

/* "each 0 to 9, A to F or "?"", and a to f */
static int is_address(uint8_t byte)
{
    return careful_frame_digit(byte) != NO_DIGIT || byte == '?';
}

const uint8_t *careful_pairs(const uint8_t *header, const uint8_t *end)
{
    for (int pairs = 1; pairs <= PAGOZKIN_MOST_PAIRS; pairs++) {
        if (end - header < PAIR || !is_address(header[1]) || !is_address(header[2]))
            return NULL;
        if (!is_type(header[0])) /* "works only as a header's sole pair": no caller takes a comma behind it */
            return pairs == 1 && header[0] == START_TYPE ? header + PAIR : NULL;
        header += PAIR;
        if (header == end || *header != ',')
            return header;
        header++;
    }
    return NULL;
}

uint8_t careful_open(const uint8_t *raw, size_t raw_len, uint8_t *room, careful_frame *frame)
{
    const uint8_t *end, *stx;
    if (raw_len == 0)
        return PAGOZKIN_WRONG_LENGTH;
    if (raw[0] != NUL && raw[0] != SOH && raw[0] != ESCAPE)
        return PAGOZKIN_WRONG_LEAD;
    frame->printable = raw[0] == ESCAPE;
    if (raw_len > (frame->printable ? PAGOZKIN_MOST_PRINTABLE : PAGOZKIN_MOST_STANDARD))
        return PAGOZKIN_WRONG_LENGTH;
    frame->bytes = raw;
    frame->length = raw_len;
    if (frame->printable) {
        uint8_t number = translate(raw, raw + raw_len, room, &frame->length);
        if (number != PAGOZKIN_DONE)
            return number;
        frame->bytes = room;
    }
    frame->header = header_start(frame->bytes, frame->length, frame->printable);
    if (frame->header == 0)
        return PAGOZKIN_WRONG_LEAD;
    end = frame->bytes + frame->length;
    /* "up to the first block's STX": pairs hold no STX, so the one behind them is the first */
    stx = careful_pairs(frame->bytes + frame->header, end);
    if (stx == NULL || stx == end || *stx != STX)
        return PAGOZKIN_BAD_HEADER;
    frame->body = (size_t)(stx - frame->bytes);
    return PAGOZKIN_DONE;
}

/* The room of a read stays untouched where a printable frame is refused with 5 or is too long: so that is asked before. */
static uint8_t test_before_room(const uint8_t *raw, size_t raw_len)
{
    size_t length = 0;
    uint8_t number = PAGOZKIN_DONE;
    if (raw_len > 0 && raw_len <= PAGOZKIN_MOST_PRINTABLE && raw[0] == ESCAPE)
        number = test_printable(raw, raw + raw_len, &length);
    return length > PAGOZKIN_MOST_TRANSLATED ? PAGOZKIN_WRONG_LENGTH : number;
}

static uint8_t read_whole(const uint8_t *raw, size_t raw_len, uint8_t *room, careful_frame *frame)
{
    careful_facts facts;
    uint8_t number = test_before_room(raw, raw_len);
    if (number == PAGOZKIN_DONE)
        number = careful_open(raw, raw_len, room, frame);
    return number == PAGOZKIN_DONE ? careful_judge(frame, 0, &facts) : number;
}

pagozkin_places careful_read(const uint8_t *frame, size_t frame_len, uint8_t room[PAGOZKIN_ROOM])
{
    pagozkin_places places = {PAGOZKIN_DONE, 0, 0, 0, 0};
    careful_frame found;
    places.number = read_whole(frame, frame_len, room, &found);
    if (places.number != PAGOZKIN_DONE)
        return places;
    places.printable = found.printable;
    places.length = found.length;
    places.header = found.header;
    places.body = found.body;
    return places;
}
