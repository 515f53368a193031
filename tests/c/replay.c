/* Replays a stream of cases from standard input through libport.a, a line of output for each, as the program `replay` does.
 * A case is a call byte and its arguments: a number is one byte, or two with the most significant first (a signed one in two's
 * complement), a string its length in two bytes and its bytes. After each call it looks at the bytes around every buffer and at the
 * stack that the call took; the calls that have no cases of their own are made beside each run, and held to what it answers. A changed
 * byte, more stack than pagozkin.h states, an answer that does not fit or a case that cannot be read ends the program with a line that
 * says so and with 1. */
#include "painted.h"

#include <pagozkin.h>
#include <stdio.h>
#include <string.h>

#define LONGEST 65535
#define GUARD 16
#define GUARD_BYTE 0xC3

/* A string argument, with guards around its bytes. */
typedef struct string {
    uint8_t room[GUARD + LONGEST + GUARD];
    size_t length;
} string;

static string a, b, c, d;
static uint8_t form, own, command;
static pagozkin_settings settings;
static pagozkin_made made;
static pagozkin_answer answer;
static pagozkin_written written;
static pagozkin_date date, second;
static int16_t months;
static pagozkin_renewed renewed;
static pagozkin_day_of_week day;
static pagozkin_days_apart apart;
static int8_t offset;
static int16_t reading;
static pagozkin_corrected corrected;
static uint8_t bits;
static pagozkin_driven driven;

/* what is_sound, read and step answer beside a run */
static uint8_t sound;
static string room;
static pagozkin_places places;
static size_t at;
static pagozkin_block_places block;

static uint8_t *bytes(string *s)
{
    return s->room + GUARD;
}

/* ---- reading */

static int read_number(uint8_t *n)
{
    int byte = getchar();
    *n = (uint8_t)byte;
    return byte != EOF;
}

static int read_wide(uint16_t *n)
{
    uint8_t high, low;
    if (!read_number(&high) || !read_number(&low))
        return 0;
    *n = (uint16_t)(high * 256 + low);
    return 1;
}

/* What eight bits stand for in two's complement. */
static int8_t signed_byte(uint8_t bits)
{
    return (int8_t)(bits < 0x80 ? bits : bits - 0x100);
}

static int read_signed_byte(int8_t *n)
{
    uint8_t bits;
    if (!read_number(&bits))
        return 0;
    *n = signed_byte(bits);
    return 1;
}

static int read_signed(int16_t *n)
{
    uint16_t bits;
    if (!read_wide(&bits))
        return 0;
    *n = (int16_t)(bits < 0x8000 ? bits : bits - 0x10000);
    return 1;
}

static int read_date(pagozkin_date *to)
{
    return read_wide(&to->year) && read_number(&to->month) && read_number(&to->day);
}

/* Gives a string its length, and the guards around so many bytes. */
static void set_length(string *s, size_t length)
{
    s->length = length;
    memset(s->room, GUARD_BYTE, GUARD);
    memset(bytes(s) + length, GUARD_BYTE, GUARD);
}

static int read_string(string *s)
{
    uint16_t length;
    if (!read_wide(&length))
        return 0;
    set_length(s, length);
    return fread(bytes(s), 1, s->length, stdin) == s->length;
}

static int read_settings(void)
{
    const uint8_t *s = bytes(&d);
    if (!read_string(&d) || d.length != 12 + 2 * PAGOZKIN_PLACES + 2)
        return 0;
    settings.hour = s[0];
    settings.minute = s[1];
    settings.month = s[2];
    settings.day = s[3];
    settings.year = s[4];
    settings.format = s[5];
    settings.speaker = s[6];
    settings.address = s[7];
    settings.own = s[8];
    settings.files = s[9];
    settings.unused = (uint16_t)(s[10] * 256 + s[11]);
    for (size_t i = 0; i < PAGOZKIN_PLACES; i++)
        settings.places[i] = (uint16_t)(s[12 + 2 * i] * 256 + s[13 + 2 * i]);
    settings.offset = signed_byte(s[12 + 2 * PAGOZKIN_PLACES]);
    settings.errors = s[13 + 2 * PAGOZKIN_PLACES];
    return 1;
}

/* ---- printing */

static void print_string(string *s)
{
    static const char digits[] = "0123456789ABCDEF";
    const uint8_t *p = bytes(s);
    if (s->length == 0)
        putchar('-');
    for (size_t i = 0; i < s->length; i++) {
        putchar(digits[p[i] / 16]);
        putchar(digits[p[i] % 16]);
    }
}

static void print_settings(pagozkin_settings s)
{
    printf("%u %u %u %u %u %u %u %u %u %u %u ", s.hour, s.minute, s.month, s.day, s.year, s.format, s.speaker, s.address, s.own,
           s.files, s.unused);
    for (size_t i = 0; i < PAGOZKIN_PLACES; i++)
        printf("%04X", s.places[i]);
    printf(" %d %u", s.offset, s.errors);
}

static void print_written(string *out)
{
    printf("%u %zu ", written.number, written.length);
    print_string(out);
}

/* ---- the calls */

static void call_fresh(void)
{
    made = pagozkin_fresh(own, bytes(&a), a.length);
}

static void call_run(void)
{
    answer = pagozkin_run(settings, bytes(&a), a.length, bytes(&b), b.length, bytes(&c), c.length);
}

static void call_write(void)
{
    written = pagozkin_write(form, bytes(&a), a.length, command, bytes(&b), b.length, bytes(&c), c.length);
}

static void call_reform(void)
{
    written = pagozkin_reform(form, bytes(&a), a.length, bytes(&b), b.length);
}

static void call_join(void)
{
    written = pagozkin_join(form, bytes(&a), a.length, bytes(&b), b.length, bytes(&c), c.length);
}

static void call_is_sound(void)
{
    sound = pagozkin_is_sound(settings, bytes(&a), a.length);
}

static void call_read(void)
{
    places = pagozkin_read(bytes(&c), c.length, bytes(&room));
}

static void call_step(void)
{
    block = pagozkin_step(bytes(places.printable ? &room : &c), places.length, at);
}

static void call_renewal_date(void)
{
    renewed = pagozkin_renewal_date(date, months);
}

static void call_weekday(void)
{
    day = pagozkin_weekday(date);
}

static void call_days_between(void)
{
    apart = pagozkin_days_between(date, second);
}

static void call_add_offset(void)
{
    corrected = pagozkin_add_offset(offset, reading);
}

static void call_port_errors(void)
{
    driven = pagozkin_port_errors(settings, bits);
}

static int is_guarded(string *s)
{
    for (size_t i = 0; i < GUARD; i++)
        if (s->room[i] != GUARD_BYTE || bytes(s)[s->length + i] != GUARD_BYTE)
            return 0;
    return 1;
}

/* Whether the call kept to its buffers and to its stack; the buffers that it was not handed are as the last case left them. */
static int called(void (*call)(void), size_t most)
{
    size_t used = stack_of(call);
    if (used > most) {
        printf("stack: %zu bytes\n", used);
        return 0;
    }
    if (!is_guarded(&a) || !is_guarded(&b) || !is_guarded(&c) || !is_guarded(&room)) {
        puts("a byte outside a buffer has changed");
        return 0;
    }
    return 1;
}

/* ---- the cases: 0 goes on, 1 is a fault, 2 a case that cannot be read */

static int case_fresh(void)
{
    if (!read_number(&own) || !read_string(&a))
        return 2;
    if (!called(call_fresh, PAGOZKIN_STACK_FRESH))
        return 1;
    printf("%u ", made.number);
    print_settings(made.settings);
    putchar(' ');
    print_string(&a);
    return 0;
}

/* The blocks of the frame that was read, or 0 with a fault. */
static size_t count_blocks(void)
{
    size_t count = 0;
    at = places.body;
    do {
        if (!called(call_step, PAGOZKIN_STACK_STEP) || block.kind == PAGOZKIN_NO_BLOCK)
            return 0;
        count++;
        at = block.next;
    } while (block.kind == PAGOZKIN_MORE);
    return count;
}

/* Whether is_sound, read and step say what the run says: 1; 3 to 8; so many blocks done and refused. With 9
 * and 28 the frame reads too. */
static int fits_run(void)
{
    if ((answer.number == PAGOZKIN_NOT_SOUND) == sound)
        return 0;
    if (answer.number == PAGOZKIN_DONE)
        return places.number == PAGOZKIN_DONE && count_blocks() == (size_t)answer.tally.done + answer.tally.refused;
    if (answer.number == PAGOZKIN_NOT_ADDRESSED || answer.number == PAGOZKIN_MEMORY_TOO_SMALL)
        return places.number == PAGOZKIN_DONE;
    return answer.number <= PAGOZKIN_REPLY_TOO_SHORT || places.number == answer.number;
}

static int case_run(void)
{
    if (!read_settings() || !read_string(&a) || !read_string(&b) || !read_string(&c))
        return 2;
    if (!called(call_is_sound, PAGOZKIN_STACK_IS_SOUND) || !called(call_read, PAGOZKIN_STACK_READ) ||
        !called(call_run, PAGOZKIN_STACK_RUN))
        return 1;
    if (!fits_run()) {
        puts("is_sound, read or step do not say what the run says");
        return 1;
    }
    printf("%u %u %u %u %u %zu ", answer.number, answer.tally.done, answer.tally.refused, answer.tally.place, answer.tally.reason,
           answer.tally.length);
    print_settings(answer.settings);
    putchar(' ');
    print_string(&a);
    putchar(' ');
    print_string(&b);
    return 0;
}

static int case_write(void)
{
    if (!read_number(&form) || !read_string(&a) || !read_number(&command) || !read_string(&b) || !read_string(&c))
        return 2;
    if (!called(call_write, PAGOZKIN_STACK_WRITE))
        return 1;
    print_written(&c);
    return 0;
}

static int case_reform(void)
{
    if (!read_number(&form) || !read_string(&a) || !read_string(&b))
        return 2;
    if (!called(call_reform, PAGOZKIN_STACK_REFORM))
        return 1;
    print_written(&b);
    return 0;
}

static int case_join(void)
{
    if (!read_number(&form) || !read_string(&a) || !read_string(&b) || !read_string(&c))
        return 2;
    if (!called(call_join, PAGOZKIN_STACK_JOIN))
        return 1;
    print_written(&c);
    return 0;
}

static int case_renewal_date(void)
{
    if (!read_date(&date) || !read_signed(&months))
        return 2;
    if (!called(call_renewal_date, PAGOZKIN_STACK_RENEWAL_DATE))
        return 1;
    printf("%u %u %u %u", renewed.number, renewed.date.year, renewed.date.month, renewed.date.day);
    return 0;
}

static int case_weekday(void)
{
    if (!read_date(&date))
        return 2;
    if (!called(call_weekday, PAGOZKIN_STACK_WEEKDAY))
        return 1;
    printf("%u %u", day.number, day.weekday);
    return 0;
}

static int case_days_between(void)
{
    if (!read_date(&date) || !read_date(&second))
        return 2;
    if (!called(call_days_between, PAGOZKIN_STACK_DAYS_BETWEEN))
        return 1;
    printf("%u %d", apart.number, (int)apart.days);
    return 0;
}

static int case_add_offset(void)
{
    if (!read_signed_byte(&offset) || !read_signed(&reading))
        return 2;
    if (!called(call_add_offset, PAGOZKIN_STACK_ADD_OFFSET))
        return 1;
    printf("%u %d", corrected.number, corrected.sum);
    return 0;
}

static int case_port_errors(void)
{
    if (!read_settings() || !read_number(&bits))
        return 2;
    if (!called(call_port_errors, PAGOZKIN_STACK_PORT_ERRORS))
        return 1;
    printf("%u ", driven.number);
    print_settings(driven.settings);
    return 0;
}

static int one_case(int call)
{
    switch (call) {
    case 'N':
        return case_fresh();
    case 'R':
        return case_run();
    case 'W':
        return case_write();
    case 'F':
        return case_reform();
    case 'J':
        return case_join();
    case 'D':
        return case_renewal_date();
    case 'Y':
        return case_weekday();
    case 'B':
        return case_days_between();
    case 'T':
        return case_add_offset();
    case 'P':
        return case_port_errors();
    default:
        return 2;
    }
}

int main(void)
{
    /* the guards that are looked at before a string was ever read, and those of the room */
    set_length(&a, 0);
    set_length(&b, 0);
    set_length(&c, 0);
    set_length(&room, PAGOZKIN_ROOM);
    for (int call = getchar(); call != EOF; call = getchar()) {
        int fault = one_case(call);
        if (fault == 2)
            puts("bad case");
        if (fault != 0)
            return 1;
        putchar('\n');
    }
    return 0;
}
