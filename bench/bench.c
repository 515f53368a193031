/* The library beside the careful reference, job by job: first both must answer the same and leave the same bytes in every buffer, then
 * both are timed in this one process, on the same buffers. A difference, or a job that is refused, ends the program with 1.
 * Usage: bench [ROUNDS], the samples of which the least counts. A line for each job: its name, the bytes of its frames (of
 * writing, those that the result stands for; of soundness, memory's), nanoseconds of a call of the library and of the reference, and
 * the library's time over the reference's. */
#define _POSIX_C_SOURCE 199309L /* for clock_gettime, where C99 alone hides it */
#include "../tests/c/digits.h"
#include "careful.h"

#include <pagozkin.h>
#include <stdio.h>
#include <string.h>
#include <time.h>

enum { NUL, SOH, STX, ETX, EOT, ESCAPE = '_', COLOUR = 0x1C };
enum { LEAD_NULS = 5, SUM_DIGITS = 4, PAINT = 0xA5, DEFAULT_ROUNDS = 10, SAMPLE_NS = 500000, MOST_TURNS = 1000000 };

#define HEADER "Z00"
#define HEADER_LENGTH 3

/* ---- the two sides */

typedef struct calls {
    const char *name;
    pagozkin_places (*read)(const uint8_t *, size_t, uint8_t *);
    pagozkin_block_places (*step)(const uint8_t *, size_t, size_t);
    uint8_t (*is_sound)(pagozkin_settings, const uint8_t *, size_t);
    pagozkin_answer (*run)(pagozkin_settings, uint8_t *, size_t, uint8_t *, size_t, const uint8_t *, size_t);
    pagozkin_written (*write)(uint8_t, const uint8_t *, size_t, uint8_t, const uint8_t *, size_t, uint8_t *, size_t);
    pagozkin_written (*reform)(uint8_t, const uint8_t *, size_t, uint8_t *, size_t);
    pagozkin_written (*join)(uint8_t, const uint8_t *, size_t, const uint8_t *, size_t, uint8_t *, size_t);
} calls;

static const calls library = {"library",     pagozkin_read,  pagozkin_step,   pagozkin_is_sound,
                              pagozkin_run, pagozkin_write, pagozkin_reform, pagozkin_join};
static const calls reference = {"reference", careful_read,  careful_step,   careful_is_sound,
                                careful_run, careful_write, careful_reform, careful_join};

/* All that a job leaves: what was answered, and every buffer whole. */
typedef struct outcome {
    uint8_t room[PAGOZKIN_ROOM];
    uint8_t memory[PAGOZKIN_MOST_MEMORY];
    uint8_t reply[PAGOZKIN_MOST_MEMORY + PAGOZKIN_REPLY_ROOM];
    uint8_t out[PAGOZKIN_MOST_RESULT + PAGOZKIN_REPLY_ROOM];
    pagozkin_places places;
    pagozkin_block_places blocks[PAGOZKIN_MOST_BLOCKS];
    size_t count;
    uint8_t sound;
    pagozkin_answer answer;
    pagozkin_written written;
} outcome;

static outcome ours, theirs;

/* ---- what the jobs are given */

static uint8_t first[PAGOZKIN_MOST_PRINTABLE], second[PAGOZKIN_MOST_PRINTABLE], text[PAGOZKIN_MOST_TRANSLATED];
static size_t first_length, second_length, text_length;
static uint8_t form;
static uint8_t memory[PAGOZKIN_MOST_MEMORY];
static size_t memory_length;
static pagozkin_settings settings;

/* Readable text with a colour code, which needs an escape, in one byte of twenty. */
static uint8_t text_byte(size_t i)
{
    static const char words[] = "LEVEL 2 HAS 41 FREE BAYS, please drive on. ";
    return i % 20 == 7 ? COLOUR : (uint8_t)words[i % (sizeof words - 1)];
}

/* The labels that files may have, in order: "20H to 7EH except "0" and "?"". */
static uint8_t label_at(size_t i)
{
    size_t label = PAGOZKIN_FIRST_LABEL + i;
    label += label >= '0';
    label += label >= '?';
    return (uint8_t)label;
}

/* Bytes of data, labels counted, with which a frame of so many blocks has so many translated bytes. */
static size_t data_for(uint8_t frame_form, size_t blocks, size_t length)
{
    size_t around = 1 + HEADER_LENGTH + (frame_form == PAGOZKIN_PRINTABLE_FORM ? 0 : LEAD_NULS);
    size_t plain = 3 * blocks; /* STX and command of each, and ETX or EOT */
    return length - around - (frame_form == PAGOZKIN_PLAIN_FORM ? plain : plain + SUM_DIGITS * blocks + 1);
}

static size_t put(uint8_t frame_form, uint8_t *to, size_t at, uint8_t byte)
{
    if (frame_form != PAGOZKIN_PRINTABLE_FORM || (byte >= 0x20 && byte <= 0x7E && byte != ESCAPE)) {
        to[at] = byte;
        return at + 1;
    }
    to[at] = ESCAPE;
    put_hex(to + at + 1, byte, 2);
    return at + 3;
}

/* Puts a block of A with a label and text, and what ends it; the last of a plain frame ends at EOT. */
static size_t put_block(uint8_t frame_form, uint8_t *to, size_t at, size_t block, size_t length, int last)
{
    uint8_t digits[SUM_DIGITS];
    size_t sum = STX + 'A' + ETX;
    at = put(frame_form, to, at, STX);
    at = put(frame_form, to, at, 'A');
    for (size_t i = 0; i < length; i++) {
        uint8_t byte = i == 0 ? label_at(block) : text_byte(i);
        sum += byte;
        at = put(frame_form, to, at, byte);
    }
    if (frame_form == PAGOZKIN_PLAIN_FORM)
        return last ? at : put(frame_form, to, at, ETX);
    at = put(frame_form, to, at, ETX);
    put_hex(digits, sum, SUM_DIGITS);
    for (size_t i = 0; i < SUM_DIGITS; i++)
        at = put(frame_form, to, at, digits[i]);
    return at;
}

/* A frame in a form: so many bytes of data in so many blocks, as even as can be. */
static size_t make_frame(uint8_t frame_form, uint8_t *to, size_t blocks, size_t data)
{
    size_t at = 0;
    for (int i = 0; i < LEAD_NULS && frame_form != PAGOZKIN_PRINTABLE_FORM; i++)
        at = put(frame_form, to, at, NUL);
    at = put(frame_form, to, at, SOH);
    for (size_t i = 0; i < HEADER_LENGTH; i++)
        at = put(frame_form, to, at, (uint8_t)HEADER[i]);
    for (size_t i = 0; i < blocks; i++) {
        size_t share = data / (blocks - i);
        at = put_block(frame_form, to, at, i, share, i + 1 == blocks);
        data -= share;
    }
    return put(frame_form, to, at, EOT);
}

/* A board with so many TEXT files of one size, each with so much text. */
static void make_board(size_t length, size_t files, size_t filled)
{
    size_t size = length / files - PAGOZKIN_RECORD, at = 0;
    pagozkin_settings made = {9, 30, 11, 16, 26, 'S', 0, 0x1F, 'C', 0, 0, {0}, 0, PAGOZKIN_NO_ERRORS};
    memset(made.places, 0xFF, sizeof made.places);
    memset(memory, 0, sizeof memory);
    for (size_t i = 0; i < files; i++) {
        memcpy(memory + at, "?AL????FF00", PAGOZKIN_RECORD);
        memory[at] = label_at(i);
        put_hex(memory + at + 3, size, 4);
        for (size_t j = 0; j < filled; j++)
            memory[at + PAGOZKIN_RECORD + j] = text_byte(j);
        made.places[memory[at] - PAGOZKIN_FIRST_LABEL] = (uint16_t)at;
        at += PAGOZKIN_RECORD + size;
    }
    made.files = (uint8_t)files;
    made.unused = (uint16_t)(length - at);
    settings = made;
    memory_length = length;
}

/* "files about half filled" */
static void make_half_filled(size_t length, size_t files)
{
    make_board(length, files, (length / files - PAGOZKIN_RECORD) / 2);
}

/* ---- what a job does, once */

static void do_read(const calls *side, outcome *to)
{
    const uint8_t *bytes = first;
    size_t at;
    to->count = 0;
    to->places = side->read(first, first_length, to->room);
    if (to->places.number != PAGOZKIN_DONE)
        return;
    if (to->places.printable)
        bytes = to->room;
    at = to->places.body;
    do {
        to->blocks[to->count] = side->step(bytes, to->places.length, at);
        at = to->blocks[to->count].next;
    } while (to->blocks[to->count++].kind == PAGOZKIN_MORE && to->count < PAGOZKIN_MOST_BLOCKS);
}

static void do_write(const calls *side, outcome *to)
{
    to->written = side->write(form, (const uint8_t *)HEADER, HEADER_LENGTH, 'A', text, text_length, to->out, sizeof to->out);
}

static void do_reform(const calls *side, outcome *to)
{
    to->written = side->reform(form, first, first_length, to->out, sizeof to->out);
}

static void do_join(const calls *side, outcome *to)
{
    to->written = side->join(form, first, first_length, second, second_length, to->out, sizeof to->out);
}

static void do_is_sound(const calls *side, outcome *to)
{
    to->sound = side->is_sound(settings, to->memory, memory_length);
}

/* The settings handed in are the board's own each time, and a write that is repeated leaves the same memory. */
static void do_run(const calls *side, outcome *to)
{
    to->answer =
        side->run(settings, to->memory, memory_length, to->reply, memory_length + PAGOZKIN_REPLY_ROOM, first, first_length);
}

/* ---- comparing */

static int same_block(const pagozkin_block_places *a, const pagozkin_block_places *b)
{
    return a->kind == b->kind && a->command == b->command && a->right == b->right && a->from == b->from && a->to == b->to &&
           a->next == b->next;
}

static int same_read(const outcome *a, const outcome *b)
{
    const pagozkin_places *p = &a->places, *q = &b->places;
    if (p->number != q->number || p->printable != q->printable || p->length != q->length || p->header != q->header ||
        p->body != q->body || a->count != b->count)
        return 0;
    for (size_t i = 0; i < a->count; i++)
        if (!same_block(&a->blocks[i], &b->blocks[i]))
            return 0;
    return 1;
}

/* The settings hold no byte that is not a field's, so they are compared as bytes. */
static int same_answer(const pagozkin_answer *a, const pagozkin_answer *b)
{
    return a->number == b->number && a->tally.done == b->tally.done && a->tally.refused == b->tally.refused &&
           a->tally.place == b->tally.place && a->tally.reason == b->tally.reason && a->tally.length == b->tally.length &&
           memcmp(&a->settings, &b->settings, sizeof a->settings) == 0;
}

static int same_buffers(const outcome *a, const outcome *b)
{
    return memcmp(a->room, b->room, sizeof a->room) == 0 && memcmp(a->memory, b->memory, sizeof a->memory) == 0 &&
           memcmp(a->reply, b->reply, sizeof a->reply) == 0 && memcmp(a->out, b->out, sizeof a->out) == 0;
}

/* Answers that the job does not ask for are zeros on both sides. */
static int same(const outcome *a, const outcome *b)
{
    return same_read(a, b) && a->sound == b->sound && same_answer(&a->answer, &b->answer) &&
           a->written.number == b->written.number && a->written.length == b->written.length && same_buffers(a, b);
}

/* ---- timing */

static size_t now(void)
{
    struct timespec time;
    if (clock_gettime(CLOCK_MONOTONIC, &time) != 0)
        return 0;
    return (size_t)time.tv_sec * 1000000000 + (size_t)time.tv_nsec;
}

static void start(outcome *to)
{
    memset(to, 0, sizeof *to);
    memset(to->room, PAINT, sizeof to->room);
    memset(to->reply, PAINT, sizeof to->reply);
    memset(to->out, PAINT, sizeof to->out);
    memcpy(to->memory, memory, sizeof memory);
}

/* Nanoseconds of so many calls, from the board as it was made. */
static size_t sample(void (*job)(const calls *, outcome *), const calls *side, size_t turns)
{
    size_t began;
    memcpy(ours.memory, memory, sizeof memory);
    began = now();
    for (size_t i = 0; i < turns; i++)
        job(side, &ours);
    return now() - began;
}

/* As many calls as take the reference SAMPLE_NS or up to twice that. */
static size_t calibrate(void (*job)(const calls *, outcome *))
{
    size_t turns = 1;
    while (turns < MOST_TURNS && sample(job, &reference, turns) < SAMPLE_NS)
        turns *= 2;
    return turns;
}

static void print_line(const char *name, size_t size, size_t one, size_t other, size_t turns)
{
    size_t hundredths = other == 0 ? 0 : (one * 100 + other / 2) / other;
    printf("%-58s %6zu %9zu %9zu %4zu.%02zu\n", name, size, (one + turns / 2) / turns, (other + turns / 2) / turns, hundredths / 100,
           hundredths % 100);
    fflush(stdout);
}

static size_t least(size_t a, size_t b)
{
    return a < b ? a : b;
}

/* Which of the two goes first changes from round to round: else a busy machine's time slices may always cut into the same one. */
static void time_both(const char *name, size_t size, void (*job)(const calls *, outcome *), size_t rounds)
{
    size_t turns = calibrate(job);
    size_t one = sample(job, &library, turns), other = sample(job, &reference, turns);
    for (size_t i = 1; i < rounds; i++) {
        if (i % 2 == 0)
            one = least(one, sample(job, &library, turns));
        other = least(other, sample(job, &reference, turns));
        if (i % 2 == 1)
            one = least(one, sample(job, &library, turns));
    }
    print_line(name, size, one, other, turns);
}

/* ---- the jobs */

static size_t rounds = DEFAULT_ROUNDS;
static int faults;

static void try(const char *name, size_t size, void (*job)(const calls *, outcome *), int (*is_done)(const outcome *))
{
    if (faults)
        return;
    start(&ours);
    start(&theirs);
    job(&library, &ours);
    job(&reference, &theirs);
    if (!same(&ours, &theirs)) {
        printf("%s: library and reference differ\n", name);
        faults = 1;
    } else if (!is_done(&ours)) {
        printf("%s: refused\n", name);
        faults = 1;
    } else {
        time_both(name, size, job, rounds);
    }
}

/* Sizes of frames in translated bytes, and blocks. */
typedef struct shape {
    const char *name;
    size_t length;
    size_t blocks;
} shape;

static const shape shapes[] = {{"1 block", 100, 1},
                               {"10 blocks", 1024, 10},
                               {"60 blocks", PAGOZKIN_MOST_TRANSLATED, 60},
                               {"1 block", PAGOZKIN_MOST_TRANSLATED, 1}};
static const shape halves[] = {{"1 block", 50, 1}, {"5 blocks", 512, 5}, {"30 blocks", 4096, 30}, {"1 block", 4096, 1}};
enum { SHAPES = sizeof shapes / sizeof shapes[0], HALVES = sizeof halves / sizeof halves[0] };

static const char *const form_names[] = {"", "plain", "summed", "printable"};
static char name[128];

static size_t add_word(const char *word, size_t length)
{
    size_t n = strlen(word);
    if (length + n >= sizeof name)
        return length;
    memcpy(name + length, word, n);
    return length + n;
}

/* Makes a job's name: what, one form, or one and another, and a shape. */
static const char *name_of(const char *what, uint8_t from, uint8_t to, const char *joint, const char *last)
{
    const char *words[5];
    size_t length = 0;
    words[0] = what;
    words[1] = form_names[from];
    words[2] = to == 0 ? "" : " to ";
    words[3] = form_names[to];
    words[4] = joint;
    for (size_t i = 0; i < 5; i++)
        length = add_word(words[i], length);
    name[add_word(last, length)] = 0;
    return name;
}

static int is_read_whole(const outcome *o)
{
    return o->places.number == PAGOZKIN_DONE && o->blocks[o->count - 1].kind == PAGOZKIN_LAST;
}

static int is_written(const outcome *o)
{
    return o->written.number == PAGOZKIN_DONE;
}

static int is_sound(const outcome *o)
{
    return o->sound == 1;
}

static int is_run(const outcome *o)
{
    return o->answer.number == PAGOZKIN_DONE && o->answer.tally.refused == 0;
}

static void read_jobs(void)
{
    for (uint8_t f = PAGOZKIN_PLAIN_FORM; f <= PAGOZKIN_PRINTABLE_FORM; f++)
        for (size_t i = 0; i < SHAPES; i++) {
            first_length = make_frame(f, first, shapes[i].blocks, data_for(f, shapes[i].blocks, shapes[i].length));
            try(name_of("read with all steps, ", f, 0, ", ", shapes[i].name), first_length, do_read, is_read_whole);
        }
}

static void write_jobs(void)
{
    static const size_t lengths[] = {100, 1024, PAGOZKIN_MOST_TRANSLATED};
    for (uint8_t f = PAGOZKIN_PLAIN_FORM; f <= PAGOZKIN_PRINTABLE_FORM; f++)
        for (size_t i = 0; i < 3; i++) {
            form = f;
            text_length = data_for(f, 1, lengths[i]);
            for (size_t j = 0; j < text_length; j++)
                text[j] = text_byte(j);
            try(name_of("write, ", f, 0, "", ""), lengths[i], do_write, is_written);
        }
}

/* A frame of each shape whose summed form has the shape's length: no other form of it stands for more. */
static void reform_jobs(void)
{
    static const uint8_t ways[][2] = {{1, 2}, {2, 1}, {2, 3}, {3, 2}};
    for (size_t w = 0; w < 4; w++)
        for (size_t i = 0; i < SHAPES; i++) {
            size_t data = data_for(PAGOZKIN_SUMMED_FORM, shapes[i].blocks, shapes[i].length);
            first_length = make_frame(ways[w][0], first, shapes[i].blocks, data);
            form = ways[w][1];
            try(name_of("re-form, ", ways[w][0], form, ", ", shapes[i].name), first_length, do_reform, is_written);
        }
}

static void join_job(uint8_t from, uint8_t to, const shape *half)
{
    size_t data = data_for(PAGOZKIN_SUMMED_FORM, half->blocks, half->length);
    first_length = make_frame(from, first, half->blocks, data);
    second_length = make_frame(from, second, half->blocks, data);
    form = to;
    try(name_of("join two ", from, to, ", each ", half->name), first_length + second_length, do_join, is_written);
}

static void join_jobs(void)
{
    for (uint8_t f = PAGOZKIN_PLAIN_FORM; f <= PAGOZKIN_PRINTABLE_FORM; f++)
        for (size_t i = 0; i < HALVES; i++)
            join_job(PAGOZKIN_SUMMED_FORM, f, &halves[i]);
    join_job(PAGOZKIN_PRINTABLE_FORM, PAGOZKIN_PRINTABLE_FORM, &halves[2]);
}

static void sound_job(const char *job, size_t length, size_t files)
{
    make_half_filled(length, files);
    try(job, length, do_is_sound, is_sound);
}

static void sound_jobs(void)
{
    sound_job("is sound, 2 files", 512, 2);
    sound_job("is sound, 10 files", 4096, 10);
    sound_job("is sound, 60 files", PAGOZKIN_MOST_MEMORY, 60);
    sound_job("is sound, 1 file that fills it", PAGOZKIN_MOST_MEMORY, 1);
}

/* A run of writes on the board that was made: so many blocks, in a frame of so many translated bytes. */
static void run_writes(const char *job, uint8_t frame_form, size_t blocks, size_t length)
{
    first_length = make_frame(frame_form, first, blocks, data_for(frame_form, blocks, length));
    try(job, first_length, do_run, is_run);
}

/* A run of one read. */
static void run_read(const char *job, uint8_t command, uint8_t label)
{
    static const uint8_t start_of[] = {NUL, NUL, NUL, NUL, NUL, SOH, 'Z', '0', '0', STX};
    memcpy(first, start_of, sizeof start_of);
    first_length = sizeof start_of;
    first[first_length++] = command;
    first[first_length++] = label;
    first[first_length++] = EOT;
    try(job, first_length, do_run, is_run);
}

static void run_jobs(void)
{
    make_half_filled(512, 2);
    /* 80 bytes of message, its label and the 17 around a summed block */
    run_writes("run, 1 write of 80 bytes, 512 bytes with 2 files", PAGOZKIN_SUMMED_FORM, 1, 80 + 1 + 17);
    make_half_filled(4096, 10);
    run_writes("run, 10 writes, 4 KB with 10 files", PAGOZKIN_SUMMED_FORM, 10, 1024);
    make_half_filled(PAGOZKIN_MOST_MEMORY, 60);
    run_writes("run, 60 writes, 32 KB with 60 files", PAGOZKIN_SUMMED_FORM, 60, PAGOZKIN_MOST_TRANSLATED);
    run_writes("run, 60 writes in print, 32 KB with 60 files", PAGOZKIN_PRINTABLE_FORM, 60, PAGOZKIN_MOST_TRANSLATED);
    run_read("run, poll of unused memory, 32 KB with 60 files", 'F', '#');
    make_half_filled(PAGOZKIN_MOST_MEMORY, 1);
    run_writes("run, 1 write of 8 KB, 32 KB with 1 file", PAGOZKIN_SUMMED_FORM, 1, PAGOZKIN_MOST_TRANSLATED);
    make_board(PAGOZKIN_MOST_MEMORY, 1, 8192);
    run_read("run, 1 read of 8 KB, 32 KB with 1 file", 'B', label_at(0));
}

/* The rounds asked for, in decimal digits; the usual ones where they are none. */
static size_t rounds_of(const char *argument)
{
    size_t count = 0;
    for (; *argument >= '0' && *argument <= '9' && count < 100000; argument++)
        count = count * 10 + (size_t)(*argument - '0');
    return count == 0 || *argument != 0 ? DEFAULT_ROUNDS : count;
}

int main(int count, char **arguments)
{
    if (count > 1)
        rounds = rounds_of(arguments[1]);
    printf("%-58s %6s %9s %9s %7s\n", "job", "bytes", "library", "reference", "ratio");
    read_jobs();
    write_jobs();
    reform_jobs();
    join_jobs();
    sound_jobs();
    run_jobs();
    return faults;
}
