/* How often a run copies the settings, or nearly all of them: counted as the library runs, by a memcpy of our own, and held to docs/COST.md. */
#include "expect.h"

#include <pagozkin.h>
#include <string.h>

enum { MEMORY = 512, FEW = 16 };

static uint8_t memory[MEMORY];
static uint8_t reply[MEMORY + PAGOZKIN_REPLY_ROOM];
static uint8_t frame[PAGOZKIN_MOST_TRANSLATED];

static size_t copies;

void *memcpy(void *to, const void *from, size_t n)
{
    /* volatile: else the compiler would make a call of memcpy of this loop */
    volatile uint8_t *a = to;
    const uint8_t *b = from;
    copies += sizeof(pagozkin_settings) - FEW <= n && n <= sizeof(pagozkin_settings) + FEW;
    for (size_t i = 0; i < n; i++)
        a[i] = b[i];
    return to;
}

/* A frame of so many blocks, all alike. */
static size_t build(const char *block, size_t blocks)
{
    size_t n = 0;
    for (const char *c = "_01Z00"; *c; c++)
        frame[n++] = (uint8_t)*c;
    for (size_t i = 0; i < blocks; i++) {
        for (const char *c = i == 0 ? "_02" : "_03_02"; *c; c++)
            frame[n++] = (uint8_t)*c;
        for (const char *c = block; *c; c++)
            frame[n++] = (uint8_t)*c;
    }
    for (const char *c = "_04"; *c; c++)
        frame[n++] = (uint8_t)*c;
    return n;
}

/* The copies of a run that does, or refuses, each of so many blocks on a board with the files "A" and "S". */
static size_t counted(const char *block, size_t blocks)
{
    pagozkin_made made = pagozkin_fresh('C', memory, MEMORY);
    size_t n = build("E$AAU0040FF00SBL00080000", 1);
    pagozkin_answer ready = pagozkin_run(made.settings, memory, MEMORY, reply, sizeof reply, frame, n);
    n = build(block, blocks);
    copies = 0;
    pagozkin_answer ran = pagozkin_run(ready.settings, memory, MEMORY, reply, sizeof reply, frame, n);
    size_t run = copies;
    IS(ran.number, 0);
    IS((size_t)ran.tally.done + ran.tally.refused, blocks);
    return run;
}

static void at_most(const char *name, size_t value, size_t most)
{
    if (value > most)
        is(name, value, most);
}

int main(void)
{
    /* around the blocks */
    size_t one = counted("AAHELLO", 1);
    at_most("a run of one write", one, 9);
    /* for a block that changes no setting: none */
    IS(counted("AAHELLO", 2), one);
    IS(counted("AAHELLO", 60), one);
    IS(counted("GSHELLO", 60), one);
    IS(counted("AZHELLO", 60), one);
    IS(counted("XHELLO", 60), one);
    IS(counted("E'S_030000", 1), one);
    IS(counted("BA", 1), one);
    IS(counted("HS", 1), one);
    /* E and F */
    static const char *const sets[] = {"E 1234", "E!00", "E'S", "E;022804", "E700", "ET+2", "E4", "E 9999"};
    for (size_t i = 0; i < sizeof sets / sizeof sets[0]; i++)
        at_most(sets[i], counted(sets[i], 61) - counted(sets[i], 1), 60 * 4);
    static const char list[] = "E$AAU0040FF00SBL00080000";
    at_most(list, counted(list, 61) - counted(list, 1), 60 * 5);
    static const char *const tells[] = {"F ", "F!", "F'", "F;", "F$", "F#", "F*"};
    for (size_t i = 0; i < sizeof tells / sizeof tells[0]; i++)
        at_most(tells[i], counted(tells[i], 1), one + 3);
    return faults != 0;
}
