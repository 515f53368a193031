/* A number as a frame has it. */
#ifndef DIGITS_H
#define DIGITS_H

#include <stddef.h>
#include <stdint.h>

/* Its last digits, upper-case hex. */
static void put_hex(uint8_t *to, size_t n, size_t digits)
{
    for (; digits > 0; n /= 16)
        to[--digits] = (uint8_t)"0123456789ABCDEF"[n % 16];
}

#endif
