/* What a sound board is: "A board is sound when all this holds". */
#include "careful_inside.h"

enum {
    LAST_TIME_CODE = 0x8F,  /* "a start code 00 to 8F, FD, FE or FF and a stop code 00 to 8F" */
    FIRST_NAMED_CODE = 0xFD,
    LONGEST_STRING = 125,   /* "a STRING's is 1 to 125" */
    LAST_YEAR = 99,
    FEBRUARY = 2,
    FIXED_BITS = 0xC0       /* bits 7 and 6 of the register */
};

/* "00:00 to 23:59" */
int careful_is_time(unsigned hour, unsigned minute)
{
    return hour <= 23 && minute <= 59;
}

/* "true month lengths, years being 2000 to 2099, with 29 February in each year divisible by four" */
int careful_is_date(unsigned month, unsigned day, unsigned year)
{
    static const uint8_t lengths[] = {31, 28, 31, 30, 31, 30, 31, 31, 30, 31, 30, 31};
    if (year > LAST_YEAR || month < 1 || month > 12 || day < 1)
        return 0;
    return day <= lengths[month - 1] + (unsigned)(month == FEBRUARY && year % 4 == 0);
}

/* "F: 20H to 7EH except "0" and "?"." */
int careful_is_label(uint8_t byte)
{
    return byte >= PAGOZKIN_FIRST_LABEL && byte < PAGOZKIN_FIRST_LABEL + PAGOZKIN_PLACES && byte != '0' && byte != '?';
}

/* "for TEXT a start code .. and a stop code" */
static int are_codes(const uint8_t *codes)
{
    unsigned a = careful_digit(codes[0]), b = careful_digit(codes[1]), c = careful_digit(codes[2]), d = careful_digit(codes[3]);
    unsigned start = a << 4 | b, stop = c << 4 | d;
    return !((a | b | c | d) & NO_DIGIT) && (start <= LAST_TIME_CODE || start >= FIRST_NAMED_CODE) && stop <= LAST_TIME_CODE;
}

size_t careful_size(const uint8_t *record)
{
    const uint8_t *s = record + RECORD_SIZE, *codes = record + RECORD_CODES;
    unsigned a = careful_digit(s[0]), b = careful_digit(s[1]), c = careful_digit(s[2]), d = careful_digit(s[3]);
    size_t size = (size_t)(a << 12 | b << 8 | c << 4 | d);
    if (!careful_is_label(record[0]) || (record[RECORD_GUARD] != 'U' && record[RECORD_GUARD] != 'L') || (a | b | c | d) & NO_DIGIT)
        return NO_RECORD;
    if (record[RECORD_TYPE] == TEXT_FILE)
        return are_codes(codes) ? size : NO_RECORD;
    if (record[RECORD_TYPE] != STRING_FILE || size < 1 || size > LONGEST_STRING)
        return NO_RECORD;
    return codes[0] == '0' && codes[1] == '0' && codes[2] == '0' && codes[3] == '0' ? size : NO_RECORD;
}

/* No early end: a compiler can then take many bytes at once, and on a sound board all are looked at anyway. */
static int all_zero(const uint8_t *bytes, size_t length)
{
    uint8_t any = 0;
    for (size_t i = 0; i < length; i++)
        any |= bytes[i];
    return any == 0;
}

/* "Content is zero or more bytes 05H to FFH, then 00H up to SIZE." */
static int is_content(const uint8_t *content, size_t size)
{
    size_t i = 0;
    while (i < size && content[i] >= LOWEST_DATA)
        i++;
    return all_zero(content + i, size - i);
}

/* Labels that have a place. As many as there are files means no other label has one, where every file has its own. */
static size_t count_places(const uint16_t *places)
{
    size_t count = 0;
    for (size_t i = 0; i < PAGOZKIN_PLACES; i++)
        count += places[i] != PAGOZKIN_NOWHERE;
    return count;
}

/* "0 to 64 files in order without gaps", "where its record begins" and "Memory after the last file is 00H.", in one walk. */
static int files_are_sound(const pagozkin_settings *settings, const uint8_t *memory, size_t memory_len)
{
    size_t at = 0;
    for (size_t i = 0; i < settings->files; i++) {
        const uint8_t *record = memory + at;
        size_t size;
        if (memory_len - at < PAGOZKIN_RECORD)
            return 0;
        size = careful_size(record);
        /* "not 0000 in memory" */
        if (size == 0 || size > memory_len - at - PAGOZKIN_RECORD || settings->places[record[0] - PAGOZKIN_FIRST_LABEL] != at ||
            !is_content(record + PAGOZKIN_RECORD, size))
            return 0;
        at += PAGOZKIN_RECORD + size;
    }
    return settings->unused == memory_len - at && count_places(settings->places) == settings->files &&
           all_zero(memory + at, memory_len - at);
}

/* "time, date, speaker, format, type are in range", offset and register too */
static int in_range(const pagozkin_settings *s)
{
    return careful_is_time(s->hour, s->minute) && careful_is_date(s->month, s->day, s->year) &&
           (s->format == 'S' || s->format == 'M') && s->speaker <= 1 && careful_is_own_type(s->own) &&
           s->files <= PAGOZKIN_MOST_FILES && s->offset >= -PAGOZKIN_MOST_OFFSET && s->offset <= PAGOZKIN_MOST_OFFSET &&
           (s->errors & FIXED_BITS) == PAGOZKIN_NO_ERRORS;
}

int careful_sound(const pagozkin_settings *settings, const uint8_t *memory, size_t memory_len)
{
    return memory_len >= PAGOZKIN_LEAST_MEMORY && memory_len <= PAGOZKIN_MOST_MEMORY && in_range(settings) &&
           files_are_sound(settings, memory, memory_len);
}

uint8_t careful_is_sound(pagozkin_settings settings, const uint8_t *memory, size_t memory_len)
{
    return (uint8_t)careful_sound(&settings, memory, memory_len);
}
