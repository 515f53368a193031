/* How often each call looks at a byte of a block's data, counted as it runs and held to the table of docs/COST.md.
 * It is linked with the library of tools/counted, which calls one of the functions __sanitizer_cov_load.. before each load. */
#include "digits.h"
#include "expect.h"

#include <pagozkin.h>
#include <string.h>

enum { BLOCKS = 30, STRIDE = 16, MEMORY = 32768 };

static uint8_t memory[MEMORY];
static uint8_t reply[MEMORY + PAGOZKIN_REPLY_ROOM];
static uint8_t room[PAGOZKIN_ROOM];
static uint8_t out[PAGOZKIN_MOST_RESULT];

/* The bytes that are watched, and how often each one was looked at; the first of them counts as byte `first`. */
static const uint8_t *watched;
static size_t first;
static size_t looks[PAGOZKIN_MOST_PRINTABLE];

static void watch(const uint8_t *bytes, size_t place)
{
    watched = bytes;
    first = place;
    memset(looks, 0, sizeof looks);
}

static void look(const uint8_t *at, size_t width)
{
    size_t place = (size_t)at - (size_t)watched;
    for (size_t i = first + place; i < first + place + width; i++)
        if (first <= i && i < PAGOZKIN_MOST_PRINTABLE)
            looks[i]++;
}

void __sanitizer_cov_load1(const uint8_t *at)
{
    look(at, 1);
}

void __sanitizer_cov_load2(const uint8_t *at)
{
    look(at, 2);
}

void __sanitizer_cov_load4(const uint8_t *at)
{
    look(at, 4);
}

void __sanitizer_cov_load8(const uint8_t *at)
{
    look(at, 8);
}

void __sanitizer_cov_load16(const uint8_t *at)
{
    look(at, 16);
}

/* A frame of writes to the TEXT file "A": of each block where its data start, which are the label and a message, and where they end.
 * And how often a walk over all blocks looks at each byte. */
typedef struct frame {
    uint8_t bytes[PAGOZKIN_MOST_TRANSLATED];
    size_t length;
    size_t from[BLOCKS];
    size_t to[BLOCKS];
    size_t walk[PAGOZKIN_MOST_TRANSLATED];
} frame;

static frame plain;
static frame summed;

static void put(frame *f, const char *bytes, size_t n)
{
    memcpy(f->bytes + f->length, bytes, n);
    f->length += n;
}

static void put_sum(frame *f, size_t stx)
{
    size_t sum = 0;
    for (size_t i = stx; i < f->length; i++)
        sum += f->bytes[i];
    put_hex(f->bytes + f->length, sum, 4);
    f->length += 4;
}

/* How often bytes, so many in all, are looked at when the end of a run of them is searched: sixteen at a time up to those in which it ends, if
 * there are sixteen, and from these on one by one up to the byte that ends it. So these are 17 looks more than it has bytes, or one more. */
static void count_run(size_t *counts, size_t length, size_t from, size_t to)
{
    size_t at = from;
    while (length - at >= STRIDE) {
        for (size_t k = 0; k < STRIDE; k++)
            counts[at + k]++;
        if (to - at < STRIDE)
            break;
        at += STRIDE;
    }
    for (; at <= to; at++)
        counts[at]++;
}

/* By a walk over all blocks. */
static void count_walk(frame *f)
{
    for (size_t i = 0; i < BLOCKS; i++)
        count_run(f->walk, f->length, f->from[i], f->to[i]);
}

/* In form 1, or in form 2, which has sums. The first message is empty, each other four bytes longer than the one before. */
static void build(frame *f, unsigned form)
{
    put(f, "\0\0\0\0\0\001Z00", 9);
    for (size_t i = 0; i < BLOCKS; i++) {
        size_t stx = f->length;
        put(f, "\002A", 2);
        f->from[i] = f->length;
        put(f, "A", 1);
        for (size_t k = 0; k < 4 * i; k++)
            put(f, &"NOTICE "[k % 7], 1);
        f->to[i] = f->length;
        put(f, "\003", 1);
        if (form == 2)
            put_sum(f, stx);
    }
    put(f, "\004", 1);
    count_walk(f);
}

/* Every byte of every block's data was looked at in so many walks, and so often besides. */
static void each(const char *call, const frame *f, size_t walks, size_t besides)
{
    for (size_t i = 0; i < BLOCKS; i++)
        for (size_t at = f->from[i]; at < f->to[i]; at++)
            if (looks[at] != walks * f->walk[at] + besides) {
                printf("%s, %s: byte %zu is looked at %zu times and not %zu\n", call, f == &plain ? "plain" : "summed", at, looks[at],
                       walks * f->walk[at] + besides);
                faults++;
                return;
            }
}

static void read_and_step(const frame *f)
{
    watch(f->bytes, 0);
    pagozkin_places places = pagozkin_read(f->bytes, f->length, room);
    IS(places.number, PAGOZKIN_DONE);
    each("read", f, 1, 0);
    watch(f->bytes, 0);
    size_t blocks = 0;
    for (size_t at = places.body; at < f->length; blocks++)
        at = pagozkin_step(f->bytes, f->length, at).next;
    IS(blocks, BLOCKS);
    each("the steps", f, 1, 0);
}

/* The summed frame in form 3. Each character is tested with the two behind it, so three times, and counted; then the next "_" is searched,
 * and the characters up to it are copied. What they stand for is walked in the room. */
static void read_printable(void)
{
    size_t length = pagozkin_reform(3, summed.bytes, summed.length, out, sizeof out).length;
    size_t lead = summed.length - pagozkin_read(out, length, room).length;
    static size_t places[PAGOZKIN_MOST_TRANSLATED], searched[PAGOZKIN_MOST_RESULT];
    for (size_t at = 0, byte = lead; at < length; at += out[at] == '_' ? 3 : 1)
        places[byte++] = at;
    for (size_t at = 0; at < length; at += 3) {
        size_t mark = at;
        while (mark < length && out[mark] != '_')
            mark++;
        count_run(searched, length, at, mark);
        at = mark;
    }
    watch(out, 0);
    IS(pagozkin_read(out, length, room).printable, 1);
    for (size_t i = 0; i < BLOCKS; i++)
        for (size_t at = summed.from[i]; at < summed.to[i]; at++)
            is("looks at a character", looks[places[at]], 5 + searched[places[at]]);
    watch(room, lead);
    IS(pagozkin_read(out, length, room).number, PAGOZKIN_DONE);
    each("read, printable", &summed, 1, 0);
}

/* Judged, run, and once by the command itself. */
static void run(const frame *f)
{
    pagozkin_settings s = pagozkin_fresh('C', memory, MEMORY).settings;
    s = pagozkin_run(s, memory, MEMORY, reply, sizeof reply, BYTES("\0\0\0\0\0\001Z00\002E$AAL0400FF00\004")).settings;
    watch(f->bytes, 0);
    IS(pagozkin_run(s, memory, MEMORY, reply, sizeof reply, f->bytes, f->length).tally.done, BLOCKS);
    each("run", f, 2, 1);
}

/* Tested and added up at one look, and put; in form 3 what needs an escape is counted between. */
static void write(uint8_t form, size_t besides)
{
    const uint8_t *text = plain.bytes + plain.from[BLOCKS - 1];
    size_t length = plain.to[BLOCKS - 1] - plain.from[BLOCKS - 1];
    watch(text, 0);
    IS(pagozkin_write(form, BYTES("Z00"), 'A', text, length, out, sizeof out).number, PAGOZKIN_DONE);
    for (size_t k = 0; k < length; k++)
        is("looks of write", looks[k], besides);
}

static void reform(const frame *f, uint8_t form, size_t besides)
{
    watch(f->bytes, 0);
    IS(pagozkin_reform(form, f->bytes, f->length, out, sizeof out).number, PAGOZKIN_DONE);
    each("reform", f, 2, besides);
}

static void join(const frame *one, const frame *other, uint8_t form, size_t besides)
{
    watch(one->bytes, 0);
    IS(pagozkin_join(form, one->bytes, one->length, other->bytes, other->length, out, sizeof out).number, PAGOZKIN_DONE);
    each("join, the first", one, 2, besides);
    watch(other->bytes, 0);
    IS(pagozkin_join(form, one->bytes, one->length, other->bytes, other->length, out, sizeof out).number, PAGOZKIN_DONE);
    each("join, the second", other, 2, besides);
}

int main(void)
{
    build(&plain, 1);
    build(&summed, 2);
    read_and_step(&plain);
    read_and_step(&summed);
    read_printable();
    run(&plain);
    run(&summed);
    for (uint8_t form = 1; form <= 3; form++) {
        size_t besides = form == 3 ? 3 : 2; /* added up and put, and in form 3 counted */
        write(form, besides);
        reform(&plain, form, besides);
        reform(&summed, form, besides);
        join(&plain, &summed, form, besides);
        join(&summed, &plain, form, besides);
    }
    if (faults == 0)
        printf("looks: each call looks at a block's data as often as docs/COST.md says\n");
    return faults != 0;
}
