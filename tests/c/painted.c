#include "painted.h"

#include <stdint.h>
#include <string.h>

#define SIZE 65536
#define PAINT 0xA5

static uint8_t stack[SIZE] __attribute__((aligned(16)));

/* Calls on another stack, x86-64 as the library is; rbx keeps the old one, since a callee gives it back. */
static void call_on(uint8_t *top, void (*call)(void))
{
    __asm__ volatile("movq %%rsp, %%rbx\n\t"
                     "movq %0, %%rsp\n\t"
                     "callq *%1\n\t"
                     "movq %%rbx, %%rsp"
                     :
                     : "r"(top), "r"(call)
                     : "rbx", "rax", "rcx", "rdx", "rsi", "rdi", "r8", "r9", "r10", "r11", "xmm0", "xmm1", "xmm2", "xmm3", "xmm4",
                       "xmm5", "xmm6", "xmm7", "xmm8", "xmm9", "xmm10", "xmm11", "xmm12", "xmm13", "xmm14", "xmm15", "memory", "cc");
}

size_t stack_of(void (*call)(void))
{
    size_t clean = 0;
    memset(stack, PAINT, SIZE);
    call_on(stack + SIZE, call);
    while (clean < SIZE && stack[clean] == PAINT)
        clean++;
    return SIZE - clean;
}
