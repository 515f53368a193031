/* The special functions: "E" sets them, "F" tells them. */
#include "careful_inside.h"

#include <string.h>

/* Their labels. */
enum {
    TIME = 0x20,
    SPEAKER = '!',
    POOL = '#',
    FILES = '$',
    FORMAT = '\'',
    READ_ERRORS = '*',
    CLEAR_ERRORS = '4',
    ADDRESS = '7',
    DATE = ';',
    OFFSET = 'T'
};

enum { LETTERS = 26 /* "A to Z" */ };

/* ---- E */

static int is_decimal(uint8_t byte)
{
    return byte >= '0' && byte <= '9';
}

/* Takes so many numbers of two decimal digits each, and nothing more; 0 where there is another byte or length. */
static int take_decimals(const uint8_t *data, size_t length, uint8_t *numbers, size_t count)
{
    if (length != 2 * count)
        return 0;
    for (size_t i = 0; i < count; i++, data += 2) {
        if (!is_decimal(data[0]) || !is_decimal(data[1]))
            return 0;
        numbers[i] = (uint8_t)((data[0] - '0') * 10 + (data[1] - '0'));
    }
    return 1;
}

/* "four digits HhMm, 00:00 to 23:59" */
static int set_time(pagozkin_settings *settings, const uint8_t *data, size_t length)
{
    uint8_t time[2];
    if (!take_decimals(data, length, time, 2) || !careful_is_time(time[0], time[1]))
        return 0;
    settings->hour = time[0];
    settings->minute = time[1];
    return 1;
}

/* "six digits MmDdYy": "A date that breaks this is malformed." */
static int set_date(pagozkin_settings *settings, const uint8_t *data, size_t length)
{
    uint8_t date[3];
    if (!take_decimals(data, length, date, 3) || !careful_is_date(date[0], date[1], date[2]))
        return 0;
    settings->month = date[0];
    settings->day = date[1];
    settings->year = date[2];
    return 1;
}

/* ""00" speaker on, "FF" off": these characters, and no small ones */
static int set_speaker(pagozkin_settings *settings, const uint8_t *data, size_t length)
{
    if (length != 2 || data[0] != data[1] || (data[0] != '0' && data[0] != 'F'))
        return 0;
    settings->speaker = data[0] == '0';
    return 1;
}

/* ""S" or "M"" */
static int set_format(pagozkin_settings *settings, const uint8_t *data, size_t length)
{
    if (length != 1 || (data[0] != 'S' && data[0] != 'M'))
        return 0;
    settings->format = data[0];
    return 1;
}

/* "two hex digits, the serial address from the next frame on" */
static int set_address(pagozkin_settings *settings, const uint8_t *data, size_t length)
{
    unsigned high, low;
    if (length != 2)
        return 0;
    high = careful_frame_digit(data[0]);
    low = careful_frame_digit(data[1]);
    if ((high | low) & NO_DIGIT)
        return 0;
    settings->address = (uint8_t)(high << 4 | low);
    return 1;
}

/* "a sign and one digit 0 to 9, so -9 to 9" */
static int set_offset(pagozkin_settings *settings, const uint8_t *data, size_t length)
{
    int degrees;
    if (length != 2 || (data[0] != '+' && data[0] != '-') || !is_decimal(data[1]))
        return 0;
    degrees = data[1] - '0';
    settings->offset = (int8_t)(data[0] == '-' ? -degrees : degrees);
    return 1;
}

/* "used to clear the Serial Error Status Register", without data */
static int clear_errors(pagozkin_settings *settings, size_t length)
{
    if (length != 0)
        return 0;
    settings->errors = PAGOZKIN_NO_ERRORS;
    return 1;
}

/* A record of a list as it is stored: SIZE and QQQQ in capitals, F, T and P as sent. */
static void put_capitals(uint8_t *to, const uint8_t *record)
{
    memcpy(to, record, RECORD_SIZE);
    for (size_t i = RECORD_SIZE; i < PAGOZKIN_RECORD; i++)
        to[i] = careful_capital(record[i]);
}

/* "bad record, count or length; label twice; no room" of a list, in one walk; 0, and what its files leave. A last file of SIZE 0000 is
 * counted with its record alone: it "takes what remains". */
static uint8_t judge_list(const uint8_t *list, size_t length, size_t memory_len, size_t *left)
{
    uint8_t seen[PAGOZKIN_PLACES] = {0}, record[PAGOZKIN_RECORD];
    size_t count = length / PAGOZKIN_RECORD, taken = 0, size = 1;
    int twice = 0;
    if (length % PAGOZKIN_RECORD != 0 || count > PAGOZKIN_MOST_FILES)
        return PAGOZKIN_BLOCK_BAD_RECORD;
    for (size_t i = 0; i < count; i++) {
        put_capitals(record, list + i * PAGOZKIN_RECORD);
        size = careful_size(record);
        /* "SIZE 0000 is allowed only in a last TEXT record" */
        if (size == NO_RECORD || (size == 0 && i + 1 < count))
            return PAGOZKIN_BLOCK_BAD_RECORD;
        twice |= seen[record[0] - PAGOZKIN_FIRST_LABEL];
        seen[record[0] - PAGOZKIN_FIRST_LABEL] = 1;
        taken += PAGOZKIN_RECORD + size;
    }
    if (twice)
        return PAGOZKIN_BLOCK_LABEL_TWICE;
    /* "what remains after its own 11 bytes, at least 1" */
    if (taken > memory_len || (size == 0 && taken == memory_len))
        return PAGOZKIN_BLOCK_NO_ROOM;
    *left = memory_len - taken;
    return PAGOZKIN_DONE;
}

/* "a list of 0 to 64 records replaces all files, contents empty" */
static uint8_t set_files(careful_board *board, const uint8_t *list, size_t length)
{
    pagozkin_settings *settings = board->settings;
    size_t at = 0, left = 0;
    uint8_t number = judge_list(list, length, board->memory_len, &left);
    if (number != PAGOZKIN_DONE)
        return number;
    memset(board->memory, NUL, board->memory_len);
    memset(settings->places, 0xFF, sizeof settings->places); /* PAGOZKIN_NOWHERE in each */
    for (size_t i = 0; i < length; i += PAGOZKIN_RECORD) {
        uint8_t *record = board->memory + at;
        size_t size;
        put_capitals(record, list + i);
        size = careful_size(record);
        if (size == 0) { /* "the record is stored with that size" */
            size = left;
            left = 0;
            careful_put_word(record + RECORD_SIZE, (unsigned)size);
        }
        settings->places[record[0] - PAGOZKIN_FIRST_LABEL] = (uint16_t)at;
        at += PAGOZKIN_RECORD + size;
    }
    settings->files = (uint8_t)(length / PAGOZKIN_RECORD);
    settings->unused = (uint16_t)left;
    return PAGOZKIN_DONE;
}

/* "as by "$", files A to Z of 150 bytes each, TEXT, unlocked, always shown (start FF, stop 00)" */
uint8_t careful_start(careful_board *board)
{
    uint8_t list[LETTERS * PAGOZKIN_RECORD];
    if (board->memory_len < PAGOZKIN_START_MEMORY)
        return PAGOZKIN_MEMORY_TOO_SMALL;
    for (size_t i = 0; i < LETTERS; i++) {
        memcpy(list + i * PAGOZKIN_RECORD, "?AU0096FF00", PAGOZKIN_RECORD);
        list[i * PAGOZKIN_RECORD] = (uint8_t)('A' + i);
    }
    return set_files(board, list, sizeof list);
}

uint8_t careful_set(careful_board *board, const uint8_t *data, size_t length)
{
    pagozkin_settings *settings = board->settings;
    int good;
    if (length == 0)
        return PAGOZKIN_BLOCK_MALFORMED; /* "a known command without its label is 22" */
    length--;
    switch (*data++) {
    case TIME:
        good = set_time(settings, data, length);
        break;
    case SPEAKER:
        good = set_speaker(settings, data, length);
        break;
    case FILES:
        return set_files(board, data, length);
    case FORMAT:
        good = set_format(settings, data, length);
        break;
    case CLEAR_ERRORS:
        good = clear_errors(settings, length);
        break;
    case ADDRESS:
        good = set_address(settings, data, length);
        break;
    case DATE:
        good = set_date(settings, data, length);
        break;
    case OFFSET:
        good = set_offset(settings, data, length);
        break;
    default:
        return PAGOZKIN_BLOCK_UNKNOWN;
    }
    return good ? PAGOZKIN_DONE : PAGOZKIN_BLOCK_MALFORMED;
}

/* ---- F: each puts its data and answers how many they are */

static void put_decimal(uint8_t *to, uint8_t number)
{
    to[0] = (uint8_t)('0' + number / 10 % 10);
    to[1] = (uint8_t)('0' + number % 10);
}

static size_t tell_time(const pagozkin_settings *settings, uint8_t *to)
{
    put_decimal(to, settings->hour);
    put_decimal(to + 2, settings->minute);
    return 4;
}

static size_t tell_date(const pagozkin_settings *settings, uint8_t *to)
{
    put_decimal(to, settings->month);
    put_decimal(to + 2, settings->day);
    put_decimal(to + 4, settings->year);
    return 6;
}

static size_t tell_speaker(const pagozkin_settings *settings, uint8_t *to)
{
    to[0] = to[1] = settings->speaker ? '0' : 'F';
    return 2;
}

/* All records as they stand in memory. */
static size_t tell_files(const careful_board *board, uint8_t *to)
{
    const uint8_t *record = board->memory;
    size_t length = (size_t)board->settings->files * PAGOZKIN_RECORD;
    for (size_t i = 0; i < length; i += PAGOZKIN_RECORD) {
        memcpy(to + i, record, PAGOZKIN_RECORD);
        record += PAGOZKIN_RECORD + careful_size(record);
    }
    return length;
}

/* ""#" gives POOL,pool, total and unused, four hex digits each" */
static size_t tell_pool(const careful_board *board, uint8_t *to)
{
    careful_put_word(to, (unsigned)board->memory_len);
    to[4] = ',';
    careful_put_word(to + 5, board->settings->unused);
    return 9;
}

/* A byte, of the format or of the register. */
static size_t tell_byte(uint8_t byte, uint8_t *to)
{
    *to = byte;
    return 1;
}

/* The data of a label that is known. */
static size_t tell(const careful_board *board, uint8_t label, uint8_t *to)
{
    switch (label) {
    case TIME:
        return tell_time(board->settings, to);
    case SPEAKER:
        return tell_speaker(board->settings, to);
    case POOL:
        return tell_pool(board, to);
    case FILES:
        return tell_files(board, to);
    case FORMAT:
        return tell_byte(board->settings->format, to);
    case READ_ERRORS:
        return tell_byte(board->settings->errors, to);
    default:
        return tell_date(board->settings, to);
    }
}

static int is_told(uint8_t label)
{
    return label == TIME || label == SPEAKER || label == POOL || label == FILES || label == FORMAT || label == READ_ERRORS ||
           label == DATE;
}

uint8_t careful_tell(careful_board *board, const uint8_t *data, size_t length)
{
    uint8_t *to = careful_reply_data(board);
    unsigned sum = 0;
    size_t told;
    if (length == 0)
        return PAGOZKIN_BLOCK_MALFORMED;
    if (!is_told(*data))
        return PAGOZKIN_BLOCK_UNKNOWN;
    if (length != 1)
        return PAGOZKIN_BLOCK_MALFORMED; /* "without data" */
    told = tell(board, *data, to);
    for (size_t i = 0; i < told; i++)
        sum += to[i];
    careful_reply(board, 'E', *data, told, sum);
    if (*data == READ_ERRORS) /* told as it was, and cleared then */
        board->settings->errors = PAGOZKIN_NO_ERRORS;
    return PAGOZKIN_DONE;
}
