/* What the programs share that call the archives for the tests: room that ends where readable memory ends, a painted stack, noise, and numbers of the input. Each is one file, so that all is here;
 * a program may leave some of it unused. */
#ifndef CALLS_H
#define CALLS_H

#ifndef _GNU_SOURCE
#error "_GNU_SOURCE comes before all else"
#endif
#include <stddef.h>
#include <stdint.h>
#include <stdio.h>
#include <stdlib.h>
#include <string.h>
#include <sys/mman.h>
#include <ucontext.h>

#define ROOM (1 << 20) /* for a table, an order, and a case */
#define STACK (1 << 18)
#define PAGE 4096
#define PAINT 0xa5
#define FENCE UINT64_C(0x0123456789abcdef)
#define FENCES 64

static uint8_t *stack;
static size_t touched = STACK; /* of the stack, from its upper end */
static ucontext_t here, there;

static inline void fail(const char *what)
{
    fprintf(stderr, "calls: %s\n", what);
    exit(1);
}

/* Makes a call on the painted stack; how much of it was touched, in whole words: a single byte may be written with the paint's own number. */
static inline size_t on_stack(void (*f)(void))
{
    static uint8_t painted[PAGE];
    size_t low;

    memset(painted, PAINT, PAGE);
    memset(stack + STACK - touched, PAINT, touched);
    if (getcontext(&there) != 0)
        fail("no context");
    there.uc_stack.ss_sp = stack;
    there.uc_stack.ss_size = STACK;
    there.uc_link = &here;
    makecontext(&there, f, 0);
    if (swapcontext(&here, &there) != 0)
        fail("no context");
    for (low = 0; low < STACK && memcmp(stack + low, painted, PAGE) == 0; low += PAGE)
        ;
    for (; low < STACK && memcmp(stack + low, painted, 8) == 0; low += 8)
        ;
    if (low == 0)
        fail("the stack is too small");
    return STACK - low;
}

/* Noise in working memory: any numbers, small ones, or the largest. */
static inline void noise(void *into, size_t size)
{
    static const uint64_t masks[] = {UINT64_MAX, UINT64_C(0x0003000300030003), UINT64_C(0x03ff03ff03ff03ff)};
    static uint64_t x = FENCE;
    uint64_t word, manner;
    size_t i;

    x = x * UINT64_C(6364136223846793005) + 1;
    manner = x >> 62;
    for (i = 0; i < size; i += sizeof word) {
        x = x * UINT64_C(6364136223846793005) + 1;
        word = manner == 3 ? UINT64_MAX : (x ^ x >> 32) & masks[manner];
        memcpy((uint8_t *)into + i, &word, sizeof word);
    }
}

/* What a call has left of such bytes: 0, zeros; 1, those from before; 2, neither. */
static inline uint8_t left(const void *of, const void *was, size_t size)
{
    const uint8_t *bytes = of;

    if (bytes[0] == 0 && memcmp(bytes, bytes + 1, size - 1) == 0)
        return 0;
    return memcmp(of, was, size) == 0 ? 1 : 2;
}

static inline uint64_t little(const uint8_t *s, int bytes)
{
    return bytes == 0 ? 0 : s[0] + 256 * little(s + 1, bytes - 1);
}

/* Whole, or nothing at the input's end. */
static inline int got(uint8_t *into, size_t bytes)
{
    size_t count = fread(into, 1, bytes, stdin);

    if (count != 0 && count != bytes)
        fail("a case is cut off");
    return count == bytes;
}

/* The next number of the input, which must be there. */
static inline uint32_t number(void)
{
    uint8_t bytes[4];

    if (!got(bytes, 4))
        fail("a case is cut off");
    return (uint32_t)little(bytes, 4);
}

/* Makes the stack to be painted. */
static inline void make_stack(void)
{
    stack = malloc(STACK);
    if (stack == NULL)
        fail("no memory");
}

static inline void put(const void *bytes, size_t size)
{
    if (fwrite(bytes, 1, size, stdout) != size)
        fail("no output");
}

/* Opens the room for so many bytes at its end: where they are to be put, before it is closed again. */
static inline uint8_t *place(uint8_t *room, uint32_t length)
{
    if (length > ROOM)
        fail("a table or an order above the room for it");
    if (mprotect(room, ROOM, PROT_READ | PROT_WRITE) != 0)
        fail("no memory");
    return room + ROOM - length;
}

static inline void close_room(uint8_t *room)
{
    if (mprotect(room, ROOM, PROT_READ) != 0)
        fail("no memory");
}

/* Room behind which nothing may be read. */
static inline uint8_t *room(void)
{
    uint8_t *made = mmap(NULL, ROOM + PAGE, PROT_READ | PROT_WRITE, MAP_PRIVATE | MAP_ANONYMOUS, -1, 0);

    if (made == MAP_FAILED || mprotect(made + ROOM, PAGE, PROT_NONE) != 0)
        fail("no memory");
    return made;
}

#endif
