/* What the tests of pagozkin.h share: is() prints a value that is not as expected, and counts it. */
#ifndef EXPECT_H
#define EXPECT_H

#include <stddef.h>
#include <stdio.h>

#define IS(field, expected) is(#field, field, expected)
#define BYTES(text) (const uint8_t *)(text), sizeof(text) - 1

static int faults;

static void is(const char *name, size_t value, size_t expected)
{
    if (value != expected) {
        printf("%s is %zu and not %zu\n", name, value, expected);
        faults++;
    }
}

#endif
