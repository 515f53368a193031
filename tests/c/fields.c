/* Each field of each struct of pagozkin.h, by name, after calls that give every field of a struct another value; unused amounts and
 * indices that are right and that are wrong; dates that exist and dates that do not; renewal dates, weekdays and days between dates;
 * temperature offsets and readings; every serial error status register; hex digits in capitals and in small letters, every byte in each
 * place of one; what a read leaves in its room; and each call with empty slices. */
#include "expect.h"

#include <pagozkin.h>
#include <string.h>

#define MEMORY 512

static uint8_t memory[MEMORY];
static uint8_t reply[MEMORY + PAGOZKIN_REPLY_ROOM];
static uint8_t room[PAGOZKIN_ROOM];

/* Seven settings are set, two blocks of an unknown command refused (the first at place 3), the time is read. */
static const char every_setting[] = "\0\0\0\0\0\001Z00"
                                    "\002E 1234\003"
                                    "\002E;050607\003"
                                    "\002X\003"
                                    "\002X\003"
                                    "\002E'M\003"
                                    "\002E!00\003"
                                    "\002E71F\003"
                                    "\002ET-3\003"
                                    "\002E$AAU0010FF00BAU0010FF00\003"
                                    "\002F \004";

static pagozkin_settings board(void)
{
    pagozkin_made made = pagozkin_fresh('Q', memory, MEMORY);
    IS(made.number, PAGOZKIN_WRONG_TYPE);
    IS(made.settings.month, 0);
    IS(made.settings.unused, 0);
    for (size_t i = 0; i < PAGOZKIN_PLACES; i++)
        IS(made.settings.places[i], 0);
    IS(made.settings.offset, 0);
    IS(made.settings.errors, 0);
    made = pagozkin_fresh('C', memory, MEMORY);
    IS(made.number, PAGOZKIN_DONE);
    IS(made.settings.month, 1);
    IS(made.settings.day, 1);
    IS(made.settings.format, 'S');
    IS(made.settings.own, 'C');
    IS(made.settings.unused, MEMORY);
    for (size_t i = 0; i < PAGOZKIN_PLACES; i++)
        IS(made.settings.places[i], PAGOZKIN_NOWHERE);
    IS(made.settings.offset, 0);
    IS(made.settings.errors, PAGOZKIN_NO_ERRORS);
    return made.settings;
}

static void runs(void)
{
    pagozkin_settings fresh = board();
    pagozkin_answer a = pagozkin_run(fresh, memory, MEMORY, reply, sizeof reply, BYTES(every_setting));
    IS(a.number, PAGOZKIN_DONE);
    IS(a.tally.done, 8);
    IS(a.tally.refused, 2);
    IS(a.tally.place, 3);
    IS(a.tally.reason, PAGOZKIN_BLOCK_UNKNOWN);
    IS(a.tally.length, 37);
    IS(a.settings.hour, 12);
    IS(a.settings.minute, 34);
    IS(a.settings.month, 5);
    IS(a.settings.day, 6);
    IS(a.settings.year, 7);
    IS(a.settings.format, 'M');
    IS(a.settings.speaker, 1);
    IS(a.settings.address, 0x1F);
    IS(a.settings.own, 'C');
    IS(a.settings.files, 2);
    is("an offset below 0", a.settings.offset == -3, 1);
    IS(a.settings.errors, PAGOZKIN_NO_ERRORS | PAGOZKIN_ERROR_ILLEGAL);
    IS(a.settings.unused, MEMORY - 2 * (PAGOZKIN_RECORD + 0x10));
    IS(a.settings.places['A' - PAGOZKIN_FIRST_LABEL], 0);
    IS(a.settings.places['B' - PAGOZKIN_FIRST_LABEL], PAGOZKIN_RECORD + 0x10);
    is("a sound board", pagozkin_is_sound(a.settings, memory, MEMORY), 1);

    pagozkin_settings late = a.settings;
    late.hour = 24;
    is("a board at 24:34", pagozkin_is_sound(late, memory, MEMORY), 0);
    a = pagozkin_run(late, memory, MEMORY, reply, sizeof reply, BYTES(every_setting));
    IS(a.number, PAGOZKIN_NOT_SOUND);
    IS(a.tally.done, 0);
    IS(a.settings.hour, 24);
    IS(a.settings.minute, 34);
}

/* What settings of an older version have to be given: memory's length less, for each file, its record and its SIZE; for each label
 * where its record begins; an offset; and a register. */
static void give(pagozkin_settings *s)
{
    size_t at = 0;
    for (size_t i = 0; i < PAGOZKIN_PLACES; i++)
        s->places[i] = PAGOZKIN_NOWHERE;
    for (uint8_t files = s->files; files > 0; files--) {
        size_t size = 0;
        for (size_t i = 3; i < 7; i++)
            size = size * 16 + (size_t)(memory[at + i] < 'A' ? memory[at + i] - '0' : memory[at + i] - 'A' + 10);
        s->places[memory[at] - PAGOZKIN_FIRST_LABEL] = (uint16_t)at;
        at += PAGOZKIN_RECORD + size;
    }
    s->unused = (uint16_t)(MEMORY - at);
    s->offset = 0;
    s->errors = PAGOZKIN_NO_ERRORS;
}

/* Whether two settings are the same, byte by byte: each byte is a field's. */
static int same(const pagozkin_settings *a, const pagozkin_settings *b)
{
    return memcmp(a, b, sizeof *a) == 0;
}

/* A board that is not sound: 1, and its settings come back as they were. */
static void unsound(const char *what, pagozkin_settings s)
{
    is(what, pagozkin_is_sound(s, memory, MEMORY), 0);
    pagozkin_answer a = pagozkin_run(s, memory, MEMORY, reply, sizeof reply, BYTES("_01Z00_02F#_04"));
    is(what, a.number, PAGOZKIN_NOT_SOUND);
    is("the settings of a refused run are those handed in", (size_t)same(&a.settings, &s), 1);
}

/* No other place of a label is sound, for each label. */
static void misplaced(pagozkin_settings s)
{
    for (size_t k = 0; k < PAGOZKIN_PLACES; k++) {
        const uint16_t right = s.places[k];
        const uint16_t wrong[] = {(uint16_t)(right + 1), (uint16_t)(right - 1), 0, PAGOZKIN_RECORD, 27, MEMORY, PAGOZKIN_NOWHERE};
        for (size_t i = 0; i < sizeof wrong / sizeof wrong[0]; i++) {
            pagozkin_settings other = s;
            other.places[k] = wrong[i];
            if (wrong[i] != right)
                unsound("a board with a wrong place", other);
        }
    }
}

/* The unused amount and the places: after each run those, the amount told by F "#"; and no others are sound. */
static void amounts(void)
{
    static const struct {
        const char *sent;
        uint16_t left;
    } each[] = {
        {"_01Z00_02E$_04", MEMORY},
        {"_01Z00_02E$AAU0010FF00SBL00080000_04", 466},
        {"_01Z00_02E$AAU0010FF00_03_02AAHELLO_04", 485},
        {"_01Z00_02E$AAU01F5FF00SBL00080000_04", 485},
        {"_01Z00_02E$SBL00080000AAU0000FF00_04", 0},
        {"_01Z00_02E$ AU0010FF00~BL00080000_04", 466},
    };
    pagozkin_settings s = board();
    for (size_t i = 0; i < sizeof each / sizeof each[0]; i++) {
        s = pagozkin_run(s, memory, MEMORY, reply, sizeof reply, (const uint8_t *)each[i].sent, strlen(each[i].sent)).settings;
        IS(s.unused, each[i].left);
        pagozkin_settings given = s;
        given.unused = 0;
        memset(given.places, 0, sizeof given.places);
        given.offset = 100;
        given.errors = 0;
        unsound("a board of an older version", given);
        give(&given);
        is("with what it has to be given it is the same", (size_t)same(&given, &s), 1);
        misplaced(s);
        pagozkin_answer a = pagozkin_run(s, memory, MEMORY, reply, sizeof reply, BYTES("_01Z00_02F#_04"));
        IS(a.tally.done, 1);
        IS(a.settings.unused, each[i].left);
        char told[5] = {0};
        for (size_t k = 0, n = each[i].left; k < 4; k++, n /= 16)
            told[3 - k] = "0123456789ABCDEF"[n % 16];
        is("the unused memory that is told", (size_t)memcmp(reply + 32, told, 4), 0);
        static const int wrong[] = {-1, 1, -PAGOZKIN_RECORD, PAGOZKIN_RECORD};
        for (size_t k = 0; k < sizeof wrong / sizeof wrong[0]; k++) {
            pagozkin_settings other = s;
            other.unused = (uint16_t)(s.unused + wrong[k]);
            unsound("a board with a wrong amount", other);
        }
    }
}

/* Month, day, year: on a board handed in, and in the command on a fresh board. */
static void dates(void)
{
    static const struct {
        uint8_t month, day, year, exists;
        const char *sent;
    } each[] = {
        {2, 31, 26, 0, "_01Z00_02E;023126_04"},
        {2, 29, 0, 1, "_01Z00_02E;022900_04"},
        {2, 29, 99, 0, "_01Z00_02E;022999_04"},
        {12, 31, 99, 1, "_01Z00_02E;123199_04"},
    };
    for (size_t i = 0; i < sizeof each / sizeof each[0]; i++) {
        pagozkin_settings s = board();
        pagozkin_answer a = pagozkin_run(s, memory, MEMORY, reply, sizeof reply, (const uint8_t *)each[i].sent, strlen(each[i].sent));
        IS(a.number, PAGOZKIN_DONE);
        IS(a.tally.done, each[i].exists);
        IS(a.tally.reason, each[i].exists ? 0 : PAGOZKIN_BLOCK_MALFORMED);
        IS(a.settings.day, each[i].exists ? each[i].day : s.day);
        s.month = each[i].month;
        s.day = each[i].day;
        s.year = each[i].year;
        is("a board of that date", pagozkin_is_sound(s, memory, MEMORY), each[i].exists);
    }
}

static void writes(void)
{
    uint8_t out[64], again[64];
    pagozkin_written w = pagozkin_write(PAGOZKIN_SUMMED_FORM, BYTES("Z00"), 'A', BYTES("AHELLO"), out, 8);
    IS(w.number, PAGOZKIN_NO_ROOM);
    IS(w.length, 0);
    w = pagozkin_write(PAGOZKIN_SUMMED_FORM, BYTES("Z00"), 'A', BYTES("AHELLO"), out, sizeof out);
    IS(w.number, PAGOZKIN_DONE);
    IS(w.length, 23);
    is("the frame that was written", (size_t)memcmp(out, "\0\0\0\0\0\001Z00\002AAHELLO\00301FB\004", 23), 0);
    w = pagozkin_reform(PAGOZKIN_PRINTABLE_FORM, out, 23, again, sizeof again);
    IS(w.number, PAGOZKIN_DONE);
    IS(w.length, 26);
    is("the printable frame", (size_t)memcmp(again, "_01Z00_02AAHELLO_0301FB_04", 26), 0);
    w = pagozkin_join(PAGOZKIN_PLAIN_FORM, out, 23, again, 26, room, sizeof room);
    IS(w.number, PAGOZKIN_DONE);
    IS(w.length, 27);
    is("the joined frame", (size_t)memcmp(room, "\0\0\0\0\0\001Z00\002AAHELLO\003\002AAHELLO\004", 27), 0);
}

static void reads(void)
{
    pagozkin_places p = pagozkin_read(BYTES("_01_01Z00_02AAHI_030000_02ABYE_04"), room);
    IS(p.number, PAGOZKIN_DONE);
    IS(p.printable, 1);
    IS(p.length, 21);
    IS(p.header, 2);
    IS(p.body, 5);
    pagozkin_block_places b = pagozkin_step(room, p.length, p.body);
    IS(b.kind, PAGOZKIN_MORE);
    IS(b.command, 'A');
    IS(b.right, 0);
    IS(b.from, 7);
    IS(b.to, 10);
    IS(b.next, 15);
    b = pagozkin_step(room, p.length, b.next);
    IS(b.kind, PAGOZKIN_LAST);
    IS(b.command, 'A');
    IS(b.right, 1);
    IS(b.from, 17);
    IS(b.to, 20);
    IS(b.next, 21);
    b = pagozkin_step(room, p.length, 6);
    IS(b.kind, PAGOZKIN_NO_BLOCK);
    IS(b.next, 21);
    p = pagozkin_read(BYTES("_0G"), room);
    IS(p.number, PAGOZKIN_BAD_PRINTABLE);
    IS(p.length, 0);
}

/* A read of the frame answers the number, and leaves these bytes at the start of the room, the rest of it as it was. */
static void leaves(uint8_t number, const uint8_t *frame, size_t length, const uint8_t *left, size_t left_length)
{
    memset(room, 0xA5, sizeof room);
    is("a read", pagozkin_read(frame, length, room).number, number);
    is("what it leaves in the room", (size_t)memcmp(room, left, left_length), 0);
    for (size_t i = left_length; i < sizeof room; i++)
        is("a byte of the room behind that", room[i], 0xA5);
}

static void rooms(void)
{
    static uint8_t longer[PAGOZKIN_MOST_TRANSLATED + 1 + 2];
    memset(longer, 'A', sizeof longer);
    memcpy(longer, "_41", 3);

    leaves(PAGOZKIN_DONE, BYTES("_01Z00_02AA_04"), BYTES("\001Z00\002AA\004"));
    leaves(PAGOZKIN_WRONG_LEAD, BYTES("_41A"), BYTES("AA"));
    leaves(PAGOZKIN_BAD_HEADER, BYTES("_01Q00_02AA_04"), BYTES("\001Q00\002AA\004"));
    leaves(PAGOZKIN_BAD_BODY, BYTES("_01Z00_02AA"), BYTES("\001Z00\002AA"));
    leaves(PAGOZKIN_READ_NOT_LAST, BYTES("_01Z00_02BA_03_02AA_04"), BYTES("\001Z00\002BA\003\002AA\004"));
    leaves(PAGOZKIN_BAD_PRINTABLE, BYTES("_01Z00_02AA_0G"), BYTES(""));
    leaves(PAGOZKIN_WRONG_LENGTH, longer, sizeof longer, BYTES(""));
    leaves(PAGOZKIN_DONE, BYTES("\0\0\0\0\0\001Z00\002AA\004"), BYTES(""));
}

/* "31 January gives 28 February in 2001 and then 31 March"; back over a year's beginning; and each refusal, with zeros. */
static void renewals(void)
{
    static const struct {
        pagozkin_date first;
        int16_t months;
        uint8_t number;
        pagozkin_date date;
    } each[] = {
        {{2001, 1, 31}, 1, PAGOZKIN_DONE, {2001, 2, 28}},
        {{2001, 1, 31}, 2, PAGOZKIN_DONE, {2001, 3, 31}},
        {{2004, 1, 31}, -11, PAGOZKIN_DONE, {2003, 2, 28}},
        {{2099, 12, 31}, -PAGOZKIN_MOST_MONTHS, PAGOZKIN_DONE, {2000, 1, 31}},
        {{2001, 2, 29}, -32768, PAGOZKIN_NO_DATE, {0, 0, 0}},
        {{2001, 2, 28}, -32768, PAGOZKIN_COUNT_OUTSIDE, {0, 0, 0}},
        {{2000, 1, 1}, -1, PAGOZKIN_RESULT_OUTSIDE, {0, 0, 0}},
    };
    for (size_t i = 0; i < sizeof each / sizeof each[0]; i++) {
        pagozkin_renewed r = pagozkin_renewal_date(each[i].first, each[i].months);
        IS(r.number, each[i].number);
        IS(r.date.year, each[i].date.year);
        IS(r.date.month, each[i].date.month);
        IS(r.date.day, each[i].date.day);
    }
}

static void days(void)
{
    static const pagozkin_date first = {2000, 1, 1}, other = {2000, 1, 3}, last = {2099, 12, 31}, none = {2100, 1, 1};
    pagozkin_day_of_week w = pagozkin_weekday(first);
    IS(w.number, PAGOZKIN_DONE);
    IS(w.weekday, 7);
    IS(pagozkin_weekday(other).weekday, 2);
    w = pagozkin_weekday(none);
    IS(w.number, PAGOZKIN_NO_DATE);
    IS(w.weekday, 0);
    pagozkin_days_apart a = pagozkin_days_between(first, last);
    IS(a.number, PAGOZKIN_DONE);
    is("days on", (long)a.days == 36524, 1);
    is("days back", (long)pagozkin_days_between(last, first).days == -36524, 1);
    a = pagozkin_days_between(last, none);
    IS(a.number, PAGOZKIN_NO_DATE);
    IS(a.days, 0);
}

/* Every offset on a board, and with every reading that is near a limit: outside -9 to 9 it is 1, then 33 for a reading outside -128 to
 * 127, else the exact sum. */
static void temperatures(void)
{
    static const int far[] = {-32768, -32767, -256, -255, 255, 256, 32766, 32767};
    pagozkin_settings s = board();
    for (int offset = -128; offset <= 127; offset++) {
        const int good = -PAGOZKIN_MOST_OFFSET <= offset && offset <= PAGOZKIN_MOST_OFFSET;
        s.offset = (int8_t)offset;
        if (good)
            is("a board with that offset", pagozkin_is_sound(s, memory, MEMORY), 1);
        else
            unsound("a board with an offset outside", s);
        for (int i = -200; i < 200 + (int)(sizeof far / sizeof far[0]); i++) {
            const int reading = i < 200 ? i : far[i - 200];
            const int read = PAGOZKIN_LEAST_READING <= reading && reading <= PAGOZKIN_MOST_READING;
            pagozkin_corrected c = pagozkin_add_offset(s.offset, (int16_t)reading);
            IS(c.number, !good ? PAGOZKIN_OFFSET_OUTSIDE : !read ? PAGOZKIN_READING_OUTSIDE : PAGOZKIN_DONE);
            is("the exact sum", c.sum == (good && read ? reading + offset : 0), 1);
        }
    }
    for (char digit = '0'; digit <= '9'; digit++) {
        char sent[] = "_01Z00_02ET+0_04";
        sent[12] = digit;
        s = board();
        s = pagozkin_run(s, memory, MEMORY, reply, sizeof reply, BYTES(sent)).settings;
        is("an offset that was set", s.offset == digit - '0', 1);
        sent[11] = '-';
        s = pagozkin_run(s, memory, MEMORY, reply, sizeof reply, BYTES(sent)).settings;
        is("an offset below 0 that was set", s.offset == '0' - digit, 1);
    }
}

/* The port driver's call on settings with every register, sound or not, and every byte of bits; the hour is looked at by nobody. */
static void port_errors(pagozkin_settings s)
{
    s.hour = 24;
    for (int bits = 0; bits < 256; bits++) {
        const int good = s.errors / 64 == 1;
        const int three = PAGOZKIN_ERROR_PARITY | PAGOZKIN_ERROR_FRAMING | PAGOZKIN_ERROR_TIME_OUT;
        pagozkin_settings next = s;
        if (good)
            next.errors = (uint8_t)(s.errors | (bits & three));
        pagozkin_driven d = pagozkin_port_errors(s, (uint8_t)bits);
        is("the port driver's number", d.number, good ? PAGOZKIN_DONE : PAGOZKIN_NOT_SOUND);
        is("the settings but for the register", (size_t)same(&d.settings, &next), 1);
    }
}

/* Every register on a board: 40H to 7FH is told and cleared, by a read or by E "4"; any other one is not sound. A refused block sets
 * one bit at most, the one of its number. */
static void errors(void)
{
    static const struct {
        const char *sent;
        uint8_t sets;
    } each[] = {
        {"_01Z00_02E'S_0300C5_04", PAGOZKIN_ERROR_CHECKSUM},
        {"_01Z00_02X_04", PAGOZKIN_ERROR_ILLEGAL},
        {"_01Z00_02E 2400_04", 0},
        {"_01Z00_02AAHELLO_04", PAGOZKIN_ERROR_ILLEGAL},
        {"_01Z00_02E$AAU8000FF00_04", 0},
        {"_01Z00_02E40_04", 0},
        {"_01Z00_02F*0_04", 0},
        {"_01Z00_02E'S_04", 0},
    };
    for (int value = 0; value < 256; value++) {
        pagozkin_settings s = board();
        s.errors = (uint8_t)value;
        is("a register without a sign", s.errors, (size_t)value);
        port_errors(s);
        if (value < PAGOZKIN_NO_ERRORS || value >= 2 * PAGOZKIN_NO_ERRORS) {
            unsound("a board with wrong fixed bits", s);
            continue;
        }
        pagozkin_answer a = pagozkin_run(s, memory, MEMORY, reply, sizeof reply, BYTES("_01Z00_02F*_04"));
        IS(a.tally.done, 1);
        IS(a.tally.length, 34);
        IS(reply[25], 'E');
        IS(reply[26], '*');
        is("the register as it was", reply[27], (size_t)value);
        IS(a.settings.errors, PAGOZKIN_NO_ERRORS);
        IS(pagozkin_run(s, memory, MEMORY, reply, sizeof reply, BYTES("_01Z00_02E4_04")).settings.errors, PAGOZKIN_NO_ERRORS);
        IS(pagozkin_run(s, memory, MEMORY, reply, sizeof reply, BYTES("_01Z00_02E4_03_02F*_04")).tally.done, 2);
        is("the register behind E \"4\" in one frame", reply[27], PAGOZKIN_NO_ERRORS);
        for (size_t i = 0; i < sizeof each / sizeof each[0]; i++) {
            a = pagozkin_run(s, memory, MEMORY, reply, sizeof reply, (const uint8_t *)each[i].sent, strlen(each[i].sent));
            is("the register with that bit", a.settings.errors, (size_t)(value | each[i].sets));
        }
    }
}

/* The capital of a hex digit, small letters too; 0 of any other byte. */
static unsigned capital(unsigned c)
{
    return c >= 'a' && c <= 'f' ? c - 'a' + 'A' : (c >= '0' && c <= '9') || (c >= 'A' && c <= 'F') ? c : 0;
}

static unsigned value(unsigned c)
{
    return capital(c) < 'A' ? capital(c) - '0' : capital(c) - 'A' + 10;
}

/* A byte in the place of an address character: written, re-formed, and joined with every digit there. */
static void header_letter(uint8_t c)
{
    uint8_t frame[] = "\0\0\0\0\0\001Z0A,Z00\002E'S\004", other[sizeof frame], out[64];
    const int taken = capital(c) != 0 || c == '?';
    memcpy(other, frame, sizeof frame);
    frame[8] = c;
    other[8] = (uint8_t)(c == '?' ? c : capital(c));
    pagozkin_written w = pagozkin_write(PAGOZKIN_PLAIN_FORM, frame + 6, 7, 'E', BYTES("'S"), out, sizeof out);
    IS(w.number, taken ? PAGOZKIN_DONE : PAGOZKIN_BAD_HEADER);
    is("a header that is written in capitals", !taken || memcmp(out, other, sizeof other - 1) == 0, 1);
    w = pagozkin_reform(PAGOZKIN_PLAIN_FORM, frame, sizeof frame - 1, out, sizeof out);
    IS(w.number, taken ? PAGOZKIN_DONE : PAGOZKIN_BAD_HEADER);
    is("a header that is re-formed in capitals", !taken || memcmp(out, other, sizeof other - 1) == 0, 1);
    if (!taken)
        return;
    for (unsigned d = '0'; d <= 'f'; d++) {
        other[8] = (uint8_t)d;
        w = pagozkin_join(PAGOZKIN_PLAIN_FORM, frame, sizeof frame - 1, other, sizeof other - 1, out, sizeof out);
        if (capital(d) != 0)
            IS(w.number, capital(d) == capital(c) ? PAGOZKIN_DONE : PAGOZKIN_HEADERS_DIFFER);
    }
}

/* "c", "d" and "e" are types, and so are "C", "D" and "E". */
static void type_letters(void)
{
    uint8_t first[] = "_01?00,c0a_02E'S_04", second[] = "_01?00,C0A_02E'S_04", out[64];
    for (uint8_t i = 0; i < 3; i++) {
        first[7] = (uint8_t)('c' + i);
        second[7] = (uint8_t)('C' + i);
        pagozkin_written w = pagozkin_join(PAGOZKIN_PLAIN_FORM, first, sizeof first - 1, second, sizeof second - 1, out, sizeof out);
        is("types that differ as a small letter and its capital", w.number, PAGOZKIN_HEADERS_DIFFER);
        second[7] = first[7];
        w = pagozkin_join(PAGOZKIN_PLAIN_FORM, first, sizeof first - 1, second, sizeof second - 1, out, sizeof out);
        IS(w.number, PAGOZKIN_DONE);
        is("a type that is written as sent", out[10], first[7]);
    }
}

static int among(const char *text, unsigned c)
{
    while (*text != 0 && (unsigned char)*text != c)
        text++;
    return *text != 0;
}

/* What may stand at each place of the record AAU001AFD00, the other ten as they are, on 512 bytes: digits as capitals. */
static const char *const record[PAGOZKIN_RECORD] = {
    "", "A", "UL", "0", "01", "0123456789ABCDEF", "0123456789ABCDEF", "012345678F", "DEF", "012345678", "0123456789ABCDEF",
};

/* A byte in each place of a frame where hex digits are taken, and in those of "!" and of a record's F, T and P: what a run does with it. */
static void frame_letter(pagozkin_settings s, uint8_t c)
{
    uint8_t escape[] = "_01Z00_02E'_4D_04", sum[] = "_01Z00_02E'S_0300C4_04", speaker[] = "\0\0\0\0\0\001Z00\002E!FF\004";
    uint8_t address[] = "\0\0\0\0\0\001Z00\002E70A\004", list[] = "\0\0\0\0\0\001Z00\002E$AAU001AFD00\004";
    const int taken = capital(c) != 0;
    escape[13] = c;
    pagozkin_answer a = pagozkin_run(s, memory, MEMORY, reply, sizeof reply, escape, sizeof escape - 1);
    IS(a.number, taken ? PAGOZKIN_DONE : PAGOZKIN_BAD_PRINTABLE);
    IS(a.settings.format, capital(c) == 'D' ? 'M' : 'S');
    if (c != '_' && c >= ' ' && c <= '~') {
        sum[17] = c;
        a = pagozkin_run(s, memory, MEMORY, reply, sizeof reply, sum, sizeof sum - 1);
        IS(a.number, taken ? PAGOZKIN_DONE : PAGOZKIN_BAD_BODY);
        IS(a.tally.done, capital(c) == 'C');
    }
    if (c < 5)
        return;
    address[13] = c;
    a = pagozkin_run(s, memory, MEMORY, reply, sizeof reply, address, sizeof address - 1);
    IS(a.tally.done, taken);
    IS(a.settings.address, taken ? value(c) : 0);
    speaker[12] = c;
    a = pagozkin_run(s, memory, MEMORY, reply, sizeof reply, speaker, sizeof speaker - 1);
    IS(a.tally.done, c == 'F');
    for (size_t k = 0; k < PAGOZKIN_RECORD; k++) {
        uint8_t sent[sizeof list];
        memcpy(sent, list, sizeof list);
        sent[12 + k] = c;
        const unsigned stored = k < 3 ? c : capital(c);
        const int good = k == 0 ? c >= ' ' && c <= '~' && c != '0' && c != '?' : among(record[k], stored);
        s = board();
        a = pagozkin_run(s, memory, MEMORY, reply, sizeof reply, sent, sizeof sent - 1);
        IS(a.tally.done, good);
        is("a byte of a record as it is stored", good ? memory[k] : stored, stored);
    }
}

static void letters(void)
{
    for (int c = 0; c < 256; c++) {
        header_letter((uint8_t)c);
        frame_letter(board(), (uint8_t)c);
    }
    type_letters();
}

/* A length of 0 asks nothing of its pointer. */
static void empties(void)
{
    uint8_t out[16];
    pagozkin_settings s = board();
    is("fresh of nothing", pagozkin_fresh('C', NULL, 0).number, PAGOZKIN_WRONG_MEMORY);
    is("is_sound of nothing", pagozkin_is_sound(s, NULL, 0), 0);
    is("run on nothing", pagozkin_run(s, NULL, 0, NULL, 0, NULL, 0).number, PAGOZKIN_NOT_SOUND);
    is("run of nothing", pagozkin_run(s, memory, MEMORY, reply, sizeof reply, NULL, 0).number, PAGOZKIN_WRONG_LENGTH);
    is("write of no header", pagozkin_write(1, NULL, 0, 'A', NULL, 0, NULL, 0).number, PAGOZKIN_BAD_HEADER);
    is("write of no data", pagozkin_write(1, BYTES("Z00"), 'A', NULL, 0, out, sizeof out).length, 12);
    is("reform of nothing", pagozkin_reform(1, NULL, 0, NULL, 0).number, PAGOZKIN_WRONG_LENGTH);
    is("join of nothing", pagozkin_join(1, NULL, 0, NULL, 0, NULL, 0).number, PAGOZKIN_WRONG_LENGTH);
    is("read of nothing", pagozkin_read(NULL, 0, room).number, PAGOZKIN_WRONG_LENGTH);
    is("step over nothing", pagozkin_step(NULL, 0, 0).kind, PAGOZKIN_NO_BLOCK);
}

int main(void)
{
    runs();
    amounts();
    dates();
    renewals();
    days();
    temperatures();
    errors();
    letters();
    writes();
    reads();
    rooms();
    empties();
    return faults != 0;
}
