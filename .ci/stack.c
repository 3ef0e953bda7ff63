/* How much stack the C interface needs, measured: each call is made in a thread whose stack was filled with a pattern. It fails
 * if a call needs more than include/distelhut.h says. A measurement over these calls, and no proof. */
#define _XOPEN_SOURCE 600
#include <pthread.h>
#include <stdio.h>
#include <stdlib.h>
#include <string.h>

#include "distelhut.h"

#define STACK_SIZE (1u << 18)
#define PATTERN 0xA5

/* A call, where the stack was when it was made, and what it answered. */
struct call {
    enum { WRITE, READ } kind;
    uint32_t scheme;
    const uint8_t *input;
    size_t length;
    uint8_t output[DISTELHUT_SIZE_TEXT];
    uint32_t answer;
    uintptr_t before;
};

static void *make(void *argument)
{
    struct call *call = argument;
    __asm__ volatile("mov %%rsp, %0" : "=r"(call->before));
    if (call->kind == WRITE) {
        call->answer = distelhut_write(call->scheme, call->input, call->length, call->output, sizeof call->output);
    } else {
        call->answer = distelhut_read(call->scheme, call->input, call->length, call->output, sizeof call->output);
    }
    return NULL;
}

/* How many bytes below the stack pointer before it the call changed. */
static size_t used(struct call *call, uint8_t *stack)
{
    pthread_attr_t attributes;
    pthread_t thread;
    size_t untouched = 0;
    memset(stack, PATTERN, STACK_SIZE);
    if (pthread_attr_init(&attributes) != 0 || pthread_attr_setstack(&attributes, stack, STACK_SIZE) != 0
        || pthread_create(&thread, &attributes, make, call) != 0 || pthread_join(thread, NULL) != 0) {
        fprintf(stderr, "stack: no thread\n");
        exit(1);
    }
    pthread_attr_destroy(&attributes);
    while (untouched < STACK_SIZE && stack[untouched] == PATTERN) {
        untouched++;
    }
    return call->before - (uintptr_t)(stack + untouched);
}

int main(void)
{
    uint8_t *stack = aligned_alloc(4096, STACK_SIZE);
    size_t most[2] = {0, 0};
    if (stack == NULL) {
        return 1;
    }
    /* texts of 1 to 126 units: one letter, one high octet, or changing ones; and the label of each that has one */
    for (size_t units = 1; units <= 126; units++) {
        for (int shape = 0; shape < 3; shape++) {
            uint8_t text[DISTELHUT_SIZE_TEXT];
            for (size_t i = 0; i < units; i++) {
                text[2 * i] = shape == 0 ? 0x00 : shape == 1 ? 0x04 : (uint8_t)(4 + i % 2);
                text[2 * i + 1] = shape == 0 ? 0x61 : 0x31;
            }
            for (uint32_t scheme = 1; scheme <= 3; scheme++) {
                struct call written = {.kind = WRITE, .scheme = scheme, .input = text, .length = 2 * units};
                size_t need = used(&written, stack);
                most[WRITE] = need > most[WRITE] ? need : most[WRITE];
                if (written.answer < DISTELHUT_ERR_BASE) {
                    struct call back = {.kind = READ, .scheme = scheme, .input = written.output, .length = written.answer};
                    need = used(&back, stack);
                    most[READ] = need > most[READ] ? need : most[READ];
                }
            }
        }
    }
    if (most[WRITE] > 1328 || most[READ] > 4152) {
        fprintf(stderr, "stack: %zu bytes to write, %zu to read\n", most[WRITE], most[READ]);
        return 1;
    }
    free(stack);
    return 0;
}
