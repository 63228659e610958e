/*
 * bare: a pump with no C library and no operating system's start-up code, linked with -nostdlib. What stands here
 * is all that libhouse.a needs from outside.
 *
 * Exit status: 0 the pump did what the rules say, 1 it did not.
 */
#include "trimthuel.h"

/* What a compiler may call by itself, also in freestanding code. */
void *memmove(void *to, const void *from, size_t n)
{
    unsigned char *t = to;
    const unsigned char *f = from;

    if (t < f)
        for (size_t i = 0; i < n; i++)
            t[i] = f[i];
    else
        while (n-- > 0)
            t[n] = f[n];
    return to;
}

void *memcpy(void *to, const void *from, size_t n)
{
    return memmove(to, from, n);
}

void *memset(void *to, int byte, size_t n)
{
    unsigned char *t = to;

    while (n-- > 0)
        t[n] = (unsigned char)byte;
    return to;
}

int memcmp(const void *one, const void *other, size_t n)
{
    const unsigned char *a = one, *b = other;

    for (size_t i = 0; i < n; i++)
        if (a[i] != b[i])
            return a[i] < b[i] ? -1 : 1;
    return 0;
}

/* R17, R63; R103: no call here is refused with 10. */
static int is(struct trimthuel_result result, uint64_t number, uint64_t place, uint64_t value)
{
    return result.number == number && result.place == place && result.value == value && result.tick == 0 &&
           result.excess == 0;
}

static uint8_t pump[TRIMTHUEL_TABLE_SIZE];
static uint64_t counts[TRIMTHUEL_COUNTS];

/* The stretched periods where no line runs, and where one of period 2 keeps it in slot 0. */
static const uint16_t none[TRIMTHUEL_SLOTS] = {0}, kept[TRIMTHUEL_SLOTS] = {2};

/* A line with 1 tick in every 2 runs at once; one that wants the whole pump beside it is refused (R28). Both ticks are counted (R97). */
static int pump_is_right(void)
{
    return trimthuel_version() == TRIMTHUEL_VERSION && is(trimthuel_step(pump, sizeof pump), 11, 0, 0) &&
           is(trimthuel_empty(pump, sizeof pump), 0, 0, TRIMTHUEL_TABLE_SIZE) &&
           is(trimthuel_admit(pump, sizeof pump, 1, 2, none), 0, 0, 0) &&
           is(trimthuel_ask(pump, sizeof pump, 2, 2, kept), 8, 0, 0) &&
           is(trimthuel_ready(pump, sizeof pump), 0, 0, 1) &&
           is(trimthuel_step(pump, sizeof pump), 0, 0, 0) &&
           is(trimthuel_step(pump, sizeof pump), 0, 0, TRIMTHUEL_NO_SLOT) &&
           is(trimthuel_counts(pump, sizeof pump, counts), 0, 0, 2) && counts[0] == 1 && counts[TRIMTHUEL_SLOTS] == 1;
}

/* The line is let go at the beginning of a period, which it still has (R100); what it has had goes with it (R101). */
static int line_goes(void)
{
    return is(trimthuel_leave(pump, sizeof pump, UINT64_MAX), 16, UINT64_MAX, 0) &&
           is(trimthuel_leave(pump, sizeof pump, 0), 0, 0, 2) && is(trimthuel_leave(pump, sizeof pump, 0), 16, 0, 0) &&
           is(trimthuel_step(pump, sizeof pump), 0, 0, 0) &&
           is(trimthuel_step(pump, sizeof pump), 0, 0, TRIMTHUEL_NO_SLOT) &&
           is(trimthuel_leave(pump, sizeof pump, 0), 16, 0, 0) &&
           is(trimthuel_counts(pump, sizeof pump, counts), 0, 0, 4) && counts[0] == 0 && counts[TRIMTHUEL_SLOTS] == 2 &&
           counts[TRIMTHUEL_SLOTS + 1] == 2;
}

/* When slot 1 has had its first tick both lines' periods end two ticks later: it goes on, and slot 0 is last (R44, R105). */
static int valve_stays_open(void)
{
    return is(trimthuel_admit(pump, sizeof pump, 1, 2, none), 0, 0, 4) &&
           is(trimthuel_admit(pump, sizeof pump, 2, 4, kept), 0, 1, 4) &&
           pump[TRIMTHUEL_TABLE_SIZE - 1] == TRIMTHUEL_NO_SLOT && is(trimthuel_step(pump, sizeof pump), 0, 0, 0) &&
           is(trimthuel_step(pump, sizeof pump), 0, 0, 1) && is(trimthuel_step(pump, sizeof pump), 0, 0, 1) &&
           is(trimthuel_step(pump, sizeof pump), 0, 0, 0) && pump[TRIMTHUEL_TABLE_SIZE - 1] == 0;
}

/* Linux enters here with the stack as no caller leaves it, and is left by its call 60. */
__attribute__((force_align_arg_pointer, noreturn)) void _start(void)
{
    long status = pump_is_right() && line_goes() && valve_stays_open() ? 0 : 1;

    for (;;)
        __asm__ volatile("syscall" : : "a"(60L), "D"(status) : "rcx", "r11", "memory");
}
