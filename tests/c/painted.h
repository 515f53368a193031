/* How much stack a call takes: it runs on a stack of its own, painted before, and the lowest byte that has lost its paint tells. */
#ifndef PAINTED_H
#define PAINTED_H

#include <stddef.h>

size_t stack_of(void (*call)(void));

#endif
