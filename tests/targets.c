/* The driver of tests/targets.py: carries out calls on one stretch of memory, and says of each what it returned and a digest of all that it was lent to write. It needs no C library, so that the
 * kit's compiler alone builds it for either processor. `dispatch.h` is made from the headers' prototypes.
 *
 * Input, little-endian: 1, a call: its number, the count of arguments, the count of stretches (a byte each), the arguments (8 bytes each, a pointer as its place in the memory), the stretches
 * (place and bytes, 4 bytes each); 2, bytes to put: place, count, the bytes; 0, the end. Output of each call: 4 bytes returned, 8 bytes of digest. */
#include "wivakkol.h"
#include "wivakkol_deques.h"
#include "wivakkol_desk.h"
#include "wivakkol_marks.h"
#include "wivakkol_pace.h"
#include "wivakkol_tables.h"

#define MEMORY (4 << 20)
#define MOST_ARGUMENTS 64
#define MOST_STRETCHES 16
#define BUFFER (1 << 16)

typedef uint32_t __attribute__((may_alias)) word;

static uint8_t memory[MEMORY] __attribute__((aligned(64)));
static uint8_t in[BUFFER], out[BUFFER];
static size_t in_at, in_end, out_end;

#if defined(__x86_64__)
enum { READ = 0, WRITE = 1, EXIT = 60 };

static long system_call(long number, long a, const void *b, long c)
{
    long result;

    __asm__ volatile("syscall" : "=a"(result) : "a"(number), "D"(a), "S"(b), "d"(c) : "rcx", "r11", "memory");
    return result;
}

__asm__(".globl _start\n_start: xor %ebp, %ebp\n call drive\n");
#elif defined(__aarch64__)
enum { READ = 63, WRITE = 64, EXIT = 93 };

static long system_call(long number, long a, const void *b, long c)
{
    register long x8 __asm__("x8") = number;
    register long x0 __asm__("x0") = a;
    register const void *x1 __asm__("x1") = b;
    register long x2 __asm__("x2") = c;

    __asm__ volatile("svc 0" : "+r"(x0) : "r"(x8), "r"(x1), "r"(x2) : "memory");
    return x0;
}

__asm__(".globl _start\n_start: bl drive\n");
#else
#error "a processor without its calls of the system here"
#endif

void *memcpy(void *to, const void *from, size_t count)
{
    for (size_t i = 0; i < count; i++)
        ((volatile uint8_t *)to)[i] = ((const uint8_t *)from)[i];
    return to;
}

void *memmove(void *to, const void *from, size_t count)
{
    if ((uintptr_t)to <= (uintptr_t)from)
        return memcpy(to, from, count);
    for (size_t i = count; i > 0; i--)
        ((volatile uint8_t *)to)[i - 1] = ((const uint8_t *)from)[i - 1];
    return to;
}

void *memset(void *to, int value, size_t count)
{
    for (size_t i = 0; i < count; i++)
        ((volatile uint8_t *)to)[i] = (uint8_t)value;
    return to;
}

static void leave(int status)
{
    for (size_t at = 0; at < out_end;) {
        long done = system_call(WRITE, 1, out + at, (long)(out_end - at));

        if (done <= 0)
            system_call(EXIT, 3, 0, 0);
        at += (size_t)done;
    }
    out_end = 0;
    if (status >= 0)
        system_call(EXIT, status, 0, 0);
}

static uint8_t next(void)
{
    if (in_at == in_end) {
        long got = system_call(READ, 0, in, BUFFER);

        if (got <= 0)
            leave(2);
        in_at = 0;
        in_end = (size_t)got;
    }
    return in[in_at++];
}

static uint64_t number(int bytes)
{
    uint64_t found = 0;

    for (int i = 0; i < bytes; i++)
        found |= (uint64_t)next() << 8 * i;
    return found;
}

static void say(uint64_t value, int bytes)
{
    for (int i = 0; i < bytes; i++)
        out[out_end++] = (uint8_t)(value >> 8 * i);
    if (out_end > BUFFER - 64)
        leave(-1);
}

#include "dispatch.h"

static void call(void)
{
    uint64_t values[MOST_ARGUMENTS];
    uint32_t which = (uint32_t)next(), arguments = next(), stretches = next(), result, first = 2166136261u, second = 1;
    uint32_t places[MOST_STRETCHES], sizes[MOST_STRETCHES];

    if (arguments > MOST_ARGUMENTS || stretches > MOST_STRETCHES)
        leave(2);
    for (uint32_t i = 0; i < arguments; i++)
        values[i] = number(8);
    for (uint32_t i = 0; i < stretches; i++) {
        places[i] = (uint32_t)number(4);
        sizes[i] = (uint32_t)number(4);
    }
    result = dispatch(which, values);
    for (uint32_t i = 0; i < stretches; i++) {
        const word *words = (const word *)(memory + places[i]);

        for (uint32_t k = 0; k < sizes[i] / 4; k++) {
            first = (first ^ words[k]) * 16777619u;
            second = ((second << 5 | second >> 27) + words[k]) * 2654435769u;
        }
    }
    say(result, 4);
    say(first, 4);
    say(second, 4);
}

static void put(void)
{
    uint32_t place = (uint32_t)number(4), count = (uint32_t)number(4);

    if (place > MEMORY || count > MEMORY - place)
        leave(2);
    for (uint32_t i = 0; i < count; i++)
        memory[place + i] = next();
}

void drive(void)
{
    for (;;) {
        uint8_t what = next();

        if (what == 1)
            call();
        else if (what == 2)
            put();
        else
            leave(what == 0 ? 0 : 2);
    }
}
