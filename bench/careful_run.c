/* "running one frame on a board" */
#include "careful_inside.h"

#include <string.h>

/* The commands that a board knows. */
enum { WRITE_TEXT = 'A', READ_TEXT = 'B', SET = 'E', TELL = 'F', WRITE_STRING = 'G', READ_STRING = 'H' };

/* ---- replies */

enum {
    REPLY_NULS = 20,                /* "20 NUL, SOH, "000", STX" */
    REPLY_CODE = REPLY_NULS + 5,    /* where the write code stands, */
    REPLY_DATA = REPLY_CODE + 2,    /* and where the data begin, behind the label */
    REPLY_TAIL = 1 + SUM_DIGITS + 1 /* ETX, checksum, EOT */
};

uint8_t *careful_reply_data(careful_board *board)
{
    return board->reply + REPLY_DATA;
}

void careful_reply(careful_board *board, uint8_t code, uint8_t label, size_t length, unsigned sum)
{
    uint8_t *start = board->reply + REPLY_NULS, *tail = board->reply + REPLY_DATA + length;
    memset(board->reply, NUL, REPLY_NULS);
    start[0] = SOH;
    start[1] = start[2] = start[3] = '0';
    start[4] = STX;
    start[5] = code;
    start[6] = label;
    tail[0] = ETX;
    careful_put_word(tail + 1, sum + STX + code + label + ETX);
    tail[1 + SUM_DIGITS] = EOT;
    board->reply_length = REPLY_DATA + length + REPLY_TAIL;
}

/* ---- files */

/* "for each label 20H to 7EH, where its record begins": the record of the file of that label and type, or NULL. */
static uint8_t *find(const careful_board *board, uint8_t label, uint8_t type)
{
    uint16_t place = PAGOZKIN_NOWHERE;
    if (label >= PAGOZKIN_FIRST_LABEL && label < PAGOZKIN_FIRST_LABEL + PAGOZKIN_PLACES)
        place = board->settings->places[label - PAGOZKIN_FIRST_LABEL];
    if (place == PAGOZKIN_NOWHERE || board->memory[place + RECORD_TYPE] != type)
        return NULL;
    return board->memory + place;
}

/* "A, G: label and message, which may be empty." */
static uint8_t write_file(careful_board *board, uint8_t type, const uint8_t *data, size_t length)
{
    uint8_t *record, *content;
    size_t size;
    if (length == 0)
        return PAGOZKIN_BLOCK_MALFORMED;
    record = find(board, *data, type);
    if (record == NULL)
        return PAGOZKIN_BLOCK_NO_FILE;
    size = careful_size(record);
    length--;
    if (length > size)
        return PAGOZKIN_BLOCK_TOO_LONG;
    content = record + PAGOZKIN_RECORD;
    memcpy(content, data + 1, length);
    memset(content + length, NUL, size - length); /* "zeros after it" */
    return PAGOZKIN_DONE;
}

/* "B, H: label alone. The reply carries the content without its zeros." */
static uint8_t read_file(careful_board *board, uint8_t type, uint8_t code, const uint8_t *data, size_t length)
{
    const uint8_t *record, *content;
    size_t size, n = 0;
    unsigned sum = 0;
    if (length != 1)
        return PAGOZKIN_BLOCK_MALFORMED;
    record = find(board, *data, type);
    if (record == NULL)
        return PAGOZKIN_BLOCK_NO_FILE;
    size = careful_size(record);
    content = record + PAGOZKIN_RECORD;
    while (n < size && content[n] != NUL)
        sum += content[n++];
    memcpy(careful_reply_data(board), content, n);
    careful_reply(board, code, *data, n, sum);
    return PAGOZKIN_DONE;
}

/* ---- blocks */

/* "A block: 20 to 27 ascending": 0, or why it is refused. */
static uint8_t do_block(careful_board *board, const careful_block *block)
{
    const uint8_t *data = block->data;
    size_t length = (size_t)(block->end - data);
    if (!block->right)
        return PAGOZKIN_BLOCK_WRONG_CHECKSUM;
    switch (block->command) {
    case WRITE_TEXT:
        return write_file(board, TEXT_FILE, data, length);
    case READ_TEXT:
        return read_file(board, TEXT_FILE, WRITE_TEXT, data, length);
    case WRITE_STRING:
        return write_file(board, STRING_FILE, data, length);
    case READ_STRING:
        return read_file(board, STRING_FILE, WRITE_STRING, data, length);
    case SET:
        return careful_set(board, data, length);
    case TELL:
        return careful_tell(board, data, length);
    default:
        return PAGOZKIN_BLOCK_UNKNOWN;
    }
}

/* "A block refused with 20 sets the checksum bit; 21 or 23 sets the illegal command or label bit": and it is counted. */
static void note_refusal(pagozkin_answer *answer, uint8_t number)
{
    if (number == PAGOZKIN_BLOCK_WRONG_CHECKSUM)
        answer->settings.errors |= PAGOZKIN_ERROR_CHECKSUM;
    else if (number == PAGOZKIN_BLOCK_UNKNOWN || number == PAGOZKIN_BLOCK_NO_FILE)
        answer->settings.errors |= PAGOZKIN_ERROR_ILLEGAL;
    if (answer->tally.refused++ == 0) {
        answer->tally.place = (uint8_t)(answer->tally.done + 1); /* none before it was refused */
        answer->tally.reason = number;
    }
}

/* The second walk: the first has judged the whole body before any block runs. */
static void run_blocks(pagozkin_answer *answer, careful_board *board, const careful_frame *frame)
{
    const uint8_t *end = frame->bytes + frame->length;
    careful_block block;
    block.next = frame->bytes + frame->body;
    do {
        uint8_t number;
        if (careful_take(block.next, end, &block) == PAGOZKIN_NO_BLOCK)
            return;
        number = do_block(board, &block);
        if (number == PAGOZKIN_DONE)
            answer->tally.done++;
        else
            note_refusal(answer, number);
    } while (block.kind == PAGOZKIN_MORE);
}

/* ---- whom a frame is for */

/* "Types "!", "?", "Z" fit every board; "0" and 22H none; others their own type."; "type "z": every board is fitted" */
static int type_fits(uint8_t type, uint8_t own)
{
    return type == '!' || type == '?' || type == 'Z' || type == own || type == START_TYPE; /* no board is a "0" or 22H */
}

/* ""00" fits every address. Otherwise each character equals the address's digit or is "?", and such a pair never fits address 00" */
static int address_fits(uint8_t high, uint8_t low, uint8_t address)
{
    if (high == '0' && low == '0')
        return 1;
    return address != 0 && (high == '?' || careful_capital(high) == careful_digit_of(address >> 4)) &&
           (low == '?' || careful_capital(low) == careful_digit_of(address));
}

/* "A board is addressed when any pair fits." */
static int is_addressed(const careful_frame *frame, const pagozkin_settings *settings)
{
    for (size_t i = frame->header; i < frame->body; i += PAIR + 1) {
        const uint8_t *pair = frame->bytes + i;
        if (type_fits(pair[0], settings->own) && address_fits(pair[1], pair[2], settings->address))
            return 1;
    }
    return 0;
}

/* ---- a run */

/* "Order of a run: 1, 2, empty (3), first byte (4), raw length (3), 5, translated length (3), lead (4), 6, 7, 8, 9." */
static uint8_t admit(const careful_board *board, size_t reply_len, const uint8_t *raw, size_t raw_len, uint8_t *room,
                     careful_frame *frame)
{
    careful_facts facts;
    uint8_t number;
    if (!careful_sound(board->settings, board->memory, board->memory_len))
        return PAGOZKIN_NOT_SOUND;
    if (reply_len < board->memory_len + PAGOZKIN_REPLY_ROOM)
        return PAGOZKIN_REPLY_TOO_SHORT;
    number = careful_open(raw, raw_len, room, frame);
    if (number == PAGOZKIN_DONE)
        number = careful_judge(frame, 0, &facts);
    if (number == PAGOZKIN_DONE && !is_addressed(frame, board->settings))
        number = PAGOZKIN_NOT_ADDRESSED;
    return number;
}

pagozkin_answer careful_run(pagozkin_settings settings, uint8_t *memory, size_t memory_len, uint8_t *reply, size_t reply_len,
                            const uint8_t *frame, size_t frame_len)
{
    uint8_t room[PAGOZKIN_ROOM]; /* not cleared: only a printable frame fills it, and only what it filled is read */
    static const pagozkin_tally nothing = {0, 0, 0, 0, 0};
    pagozkin_answer answer;
    careful_frame input;
    careful_board board;
    answer.settings = settings; /* the one copy: the board's settings are those that go back */
    answer.tally = nothing;
    board.settings = &answer.settings;
    board.memory = memory;
    board.memory_len = memory_len;
    board.reply = reply;
    board.reply_length = 0;
    answer.number = admit(&board, reply_len, frame, frame_len, room, &input);
    if (answer.number == PAGOZKIN_DONE && careful_starts(&input)) /* "straight after 9" */
        answer.number = careful_start(&board);
    if (answer.number == PAGOZKIN_DONE)
        run_blocks(&answer, &board, &input);
    answer.tally.length = board.reply_length;
    return answer;
}
