/* Each limit of pagozkin.h, as the library has it: what it allows is taken, one beyond it is refused. Of the own types each that is
 * listed is taken, and no other. */
#include "digits.h"
#include "expect.h"

#include <pagozkin.h>
#include <string.h>

static uint8_t memory[PAGOZKIN_MOST_MEMORY + 1];
static uint8_t reply[PAGOZKIN_MOST_MEMORY + PAGOZKIN_REPLY_ROOM];
static uint8_t room[PAGOZKIN_ROOM];
static uint8_t text[PAGOZKIN_MOST_TRANSLATED];
static uint8_t frame[PAGOZKIN_MOST_PRINTABLE + 1];
static uint8_t out[PAGOZKIN_MOST_RESULT];

static uint8_t fresh(uint8_t own, size_t length)
{
    return pagozkin_fresh(own, memory, length).number;
}

static uint8_t read(size_t length)
{
    return pagozkin_read(frame, length, room).number;
}

static void own_types(void)
{
    static const uint8_t types[] = PAGOZKIN_OWN_TYPES;
    uint8_t expected[256];
    memset(expected, PAGOZKIN_WRONG_TYPE, sizeof expected);
    for (size_t i = 0; i < sizeof types; i++)
        expected[types[i]] = PAGOZKIN_DONE;
    for (size_t own = 0; own < sizeof expected; own++)
        if (fresh((uint8_t)own, PAGOZKIN_LEAST_MEMORY) != expected[own]) {
            printf("own type %zXH: not %u\n", own, expected[own]);
            faults++;
        }
}

static void memories(void)
{
    is("memory too short", fresh('C', PAGOZKIN_LEAST_MEMORY - 1), PAGOZKIN_WRONG_MEMORY);
    is("the shortest memory", fresh('C', PAGOZKIN_LEAST_MEMORY), PAGOZKIN_DONE);
    is("the longest memory", fresh('C', PAGOZKIN_MOST_MEMORY), PAGOZKIN_DONE);
    is("memory too long", fresh('C', PAGOZKIN_MOST_MEMORY + 1), PAGOZKIN_WRONG_MEMORY);
}

static void replies(size_t length)
{
    pagozkin_settings s = pagozkin_fresh('C', memory, length).settings;
    size_t enough = length + PAGOZKIN_REPLY_ROOM;
    is("a reply buffer", pagozkin_run(s, memory, length, reply, enough, BYTES("_01Z00_02F _04")).number, PAGOZKIN_DONE);
    is("a reply buffer too short", pagozkin_run(s, memory, length, reply, enough - 1, BYTES("_01Z00_02F _04")).number,
       PAGOZKIN_REPLY_TOO_SHORT);
}

/* A good standard frame of so many bytes. */
static size_t standard(size_t length)
{
    memset(frame, 'A', length);
    memcpy(frame, "\0\0\0\0\0\001Z00\002", 10);
    frame[length - 1] = 4;
    return length;
}

/* A good printable frame that stands for so many bytes. */
static size_t printable(size_t bytes)
{
    size_t length = bytes + 6;
    memset(frame, 'A', length);
    memcpy(frame, "_01Z00_02", 9);
    memcpy(frame + length - 3, "_04", 3);
    return length;
}

/* The same, each byte as an escape. */
static size_t escaped(size_t bytes)
{
    for (size_t i = 0; i < bytes; i++) {
        uint8_t byte = i == bytes - 1 ? 4 : i < 5 ? (uint8_t)"\001Z00\002"[i] : 'A';
        frame[3 * i] = '_';
        put_hex(frame + 3 * i + 1, byte, 2);
    }
    return 3 * bytes;
}

static void frames(void)
{
    is("the longest standard frame", read(standard(PAGOZKIN_MOST_STANDARD)), PAGOZKIN_DONE);
    is("a standard frame too long", read(standard(PAGOZKIN_MOST_STANDARD + 1)), PAGOZKIN_WRONG_LENGTH);
    is("a printable frame of the most bytes", read(printable(PAGOZKIN_MOST_TRANSLATED)), PAGOZKIN_DONE);
    is("a printable frame of too many bytes", read(printable(PAGOZKIN_MOST_TRANSLATED + 1)), PAGOZKIN_WRONG_LENGTH);
    is("the longest printable frame", escaped(PAGOZKIN_MOST_TRANSLATED), PAGOZKIN_MOST_PRINTABLE);
    is("a read of it", read(PAGOZKIN_MOST_PRINTABLE), PAGOZKIN_DONE);
    /* a fault is looked for only in a frame that is not too long */
    frame[1] = 'x';
    is("the same with a fault", read(PAGOZKIN_MOST_PRINTABLE), PAGOZKIN_BAD_PRINTABLE);
    is("a printable frame too long", read(PAGOZKIN_MOST_PRINTABLE + 1), PAGOZKIN_WRONG_LENGTH);
}

static uint8_t with_blocks(size_t count)
{
    size_t length = 9;
    memcpy(frame, "\0\0\0\0\0\001Z00", length);
    for (; count > 0; count--, length += 3)
        memcpy(frame + length, "\002A\003", 3);
    frame[length] = 4;
    return read(length + 1);
}

static uint8_t with_pairs(size_t count)
{
    for (size_t i = 0; i < count; i++)
        memcpy(text + 4 * i, "Z00,", 4);
    return pagozkin_write(PAGOZKIN_PLAIN_FORM, text, 4 * count - 1, 'A', NULL, 0, out, sizeof out).number;
}

/* What the board says of a "$" list of so many files, each of one size: 0, or why it refuses. */
static uint8_t with_files(size_t count, size_t size, size_t length)
{
    pagozkin_settings s = pagozkin_fresh('C', memory, length).settings;
    uint8_t label = ' ';
    text[0] = '$';
    for (size_t i = 0; i < count; i++, label++) {
        uint8_t *record = text + 1 + PAGOZKIN_RECORD * i;
        if (label == '0' || label == '?')
            label++;
        memcpy(record, "?AU????FF00", PAGOZKIN_RECORD);
        record[0] = label;
        put_hex(record + 3, size, 4);
    }
    size_t n = pagozkin_write(PAGOZKIN_PLAIN_FORM, BYTES("Z00"), 'E', text, 1 + PAGOZKIN_RECORD * count, out, sizeof out).length;
    return pagozkin_run(s, memory, length, reply, sizeof reply, out, n).tally.reason;
}

static void counts(void)
{
    is("the most blocks", with_blocks(PAGOZKIN_MOST_BLOCKS), PAGOZKIN_DONE);
    is("too many blocks", with_blocks(PAGOZKIN_MOST_BLOCKS + 1), PAGOZKIN_BAD_BODY);
    is("the most pairs", with_pairs(PAGOZKIN_MOST_PAIRS), PAGOZKIN_DONE);
    is("too many pairs", with_pairs(PAGOZKIN_MOST_PAIRS + 1), PAGOZKIN_BAD_HEADER);
    is("the most files", with_files(PAGOZKIN_MOST_FILES, 1, PAGOZKIN_MOST_MEMORY), 0);
    is("too many files", with_files(PAGOZKIN_MOST_FILES + 1, 1, PAGOZKIN_MOST_MEMORY), PAGOZKIN_BLOCK_BAD_RECORD);
    size_t fits = PAGOZKIN_LEAST_MEMORY - PAGOZKIN_RECORD;
    is("a file that fits", with_files(1, fits, PAGOZKIN_LEAST_MEMORY), 0);
    is("a file too long", with_files(1, fits + 1, PAGOZKIN_LEAST_MEMORY), PAGOZKIN_BLOCK_NO_ROOM);
}

/* Type "z" on a board with a STRING: too small by a byte it keeps memory and settings, else it has the files "A" to "Z" and no other. */
static void starts(void)
{
    static const char start[] = "_01z00_02AAHELLO_04", other[] = "_01Z00_02AAHELLO_04";
    static uint8_t kept[PAGOZKIN_START_MEMORY];
    for (size_t length = PAGOZKIN_START_MEMORY - 1; length <= PAGOZKIN_START_MEMORY; length++) {
        const int enough = length == PAGOZKIN_START_MEMORY;
        pagozkin_settings s = pagozkin_fresh('C', memory, length).settings;
        s = pagozkin_run(s, memory, length, reply, sizeof reply, BYTES("_01Z00_02E$SBL00080000_03_02GSFULL_04")).settings;
        memcpy(kept, memory, length);
        pagozkin_answer a = pagozkin_run(s, memory, length, reply, sizeof reply, BYTES(start));
        is("a start", a.number, enough ? PAGOZKIN_DONE : PAGOZKIN_MEMORY_TOO_SMALL);
        is("its blocks done", a.tally.done, enough);
        is("the files after it", a.settings.files, enough ? 26 : 1);
        is("the settings as they were", memcmp(&a.settings, &s, sizeof s) == 0, !enough);
        is("the memory as it was", memcmp(memory, kept, length) == 0, !enough);
        is("a sound board after it", pagozkin_is_sound(a.settings, memory, length), 1);
    }
    is("two starts joined", pagozkin_join(PAGOZKIN_PLAIN_FORM, BYTES(start), BYTES(start), out, sizeof out).number,
       PAGOZKIN_START_JOINED);
    is("two others joined", pagozkin_join(PAGOZKIN_PLAIN_FORM, BYTES(other), BYTES(other), out, sizeof out).number, PAGOZKIN_DONE);
}

/* The longest result: besides 12 bytes it is data, all of which are escaped. */
static void results(void)
{
    size_t most = PAGOZKIN_MOST_TRANSLATED - 12;
    memset(text, 0x1F, sizeof text);
    pagozkin_written w = pagozkin_write(PAGOZKIN_PRINTABLE_FORM, BYTES("Z00"), 0x1F, text, most, out, PAGOZKIN_MOST_RESULT);
    is("the longest result", w.number, PAGOZKIN_DONE);
    /* the header's three characters and the sum's four stand for themselves */
    is("its length", w.length, PAGOZKIN_MOST_RESULT - 2 * (3 + 4));
    w = pagozkin_write(PAGOZKIN_PRINTABLE_FORM, BYTES("Z00"), 0x1F, text, most + 1, out, PAGOZKIN_MOST_RESULT);
    is("a result too long", w.number, PAGOZKIN_TOO_LONG);
}

static uint8_t renewed(uint16_t year, uint8_t month, int16_t months)
{
    pagozkin_date first = {year, month, 1};
    return pagozkin_renewal_date(first, months).number;
}

static void renewals(void)
{
    is("the most months on", renewed(PAGOZKIN_FIRST_YEAR, 1, PAGOZKIN_MOST_MONTHS), PAGOZKIN_DONE);
    is("too many months on", renewed(PAGOZKIN_FIRST_YEAR, 1, PAGOZKIN_MOST_MONTHS + 1), PAGOZKIN_COUNT_OUTSIDE);
    is("the most months back", renewed(PAGOZKIN_LAST_YEAR, 12, -PAGOZKIN_MOST_MONTHS), PAGOZKIN_DONE);
    is("too many months back", renewed(PAGOZKIN_LAST_YEAR, 12, -PAGOZKIN_MOST_MONTHS - 1), PAGOZKIN_COUNT_OUTSIDE);
    is("a first date too early", renewed(PAGOZKIN_FIRST_YEAR - 1, 12, 1), PAGOZKIN_NO_DATE);
    is("a first date too late", renewed(PAGOZKIN_LAST_YEAR + 1, 1, -1), PAGOZKIN_NO_DATE);
    is("a result too early", renewed(PAGOZKIN_FIRST_YEAR, 1, -1), PAGOZKIN_RESULT_OUTSIDE);
    is("a result too late", renewed(PAGOZKIN_LAST_YEAR, 12, 1), PAGOZKIN_RESULT_OUTSIDE);
}

static uint8_t offset(int8_t n, int16_t reading)
{
    return pagozkin_add_offset(n, reading).number;
}

static void temperatures(void)
{
    is("the coldest offset", offset(-PAGOZKIN_MOST_OFFSET, 0), PAGOZKIN_DONE);
    is("an offset too cold", offset(-PAGOZKIN_MOST_OFFSET - 1, 0), PAGOZKIN_OFFSET_OUTSIDE);
    is("the warmest offset", offset(PAGOZKIN_MOST_OFFSET, 0), PAGOZKIN_DONE);
    is("an offset too warm", offset(PAGOZKIN_MOST_OFFSET + 1, 0), PAGOZKIN_OFFSET_OUTSIDE);
    is("the coldest reading", offset(0, PAGOZKIN_LEAST_READING), PAGOZKIN_DONE);
    is("a reading too cold", offset(0, PAGOZKIN_LEAST_READING - 1), PAGOZKIN_READING_OUTSIDE);
    is("the warmest reading", offset(0, PAGOZKIN_MOST_READING), PAGOZKIN_DONE);
    is("a reading too warm", offset(0, PAGOZKIN_MOST_READING + 1), PAGOZKIN_READING_OUTSIDE);
}

int main(void)
{
    own_types();
    memories();
    replies(PAGOZKIN_LEAST_MEMORY);
    replies(PAGOZKIN_MOST_MEMORY);
    frames();
    counts();
    starts();
    results();
    renewals();
    temperatures();
    return faults != 0;
}
