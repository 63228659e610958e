/*
 * controller: the main loop of a pump controller, without the pump.
 *
 * Two lines are admitted, and eight ticks later a bench, for which the first line's period is doubled (case A,
 * R67). Then it prints what the pump does in each of 56 ticks: the slot that it serves, or a dot for none; and
 * what each line has had since it was admitted. At last the second line is let go, and the same is printed of
 * the ticks up to its end.
 */
#include <inttypes.h>
#include <stdio.h>
#include <stdlib.h>

#include "trimthuel.h"

/* The pump: the image of its table. */
static uint8_t pump[TRIMTHUEL_TABLE_SIZE];

/* Stand for the ports of the valve board: bit k belongs to slot k. */
static volatile uint16_t ready_lines, open_valves;

/* R49, R1: the board takes the ready word, and opens the valve of one slot or none. */
static void valve_board(uint64_t ready, uint64_t slot)
{
    ready_lines = (uint16_t)ready;
    open_valves = slot < TRIMTHUEL_SLOTS ? (uint16_t)(1u << slot) : 0;
}

/* Stands for the front lamp. */
static void blink(unsigned times)
{
    while (times-- > 0)
        fputs("* ", stderr);
}

/* R50: a refusal blinks, and says why; R103: 10 also says when the lines are short first, and by how much. */
static void report(const char *what, struct trimthuel_result refusal)
{
    blink(trimthuel_lamp(refusal.number));
    fprintf(stderr, "%s: refusal %" PRIu64 " at %" PRIu64 ": %s", what, refusal.number, refusal.place,
            trimthuel_why(refusal.number));
    if (refusal.excess != 0)
        fprintf(stderr, ": %" PRIu64 " %s short at tick %" PRIu64, refusal.excess,
                refusal.excess == 1 ? "tick" : "ticks", refusal.tick);
    fputc('\n', stderr);
}

/* The value of a call without which the pump cannot go on: a refusal closes the valves and stops. */
static uint64_t granted(const char *what, struct trimthuel_result result)
{
    if (result.number == 0)
        return result.value;
    valve_board(0, TRIMTHUEL_NO_SLOT);
    report(what, result);
    exit(EXIT_FAILURE);
}

/*
 * R87: `stretched` has a period for each line that runs, none of them shorter than before. A refusal changes
 * nothing (R17): the pump goes on with the lines that it has.
 */
static void admit(uint16_t need, uint16_t period, const uint16_t stretched[TRIMTHUEL_SLOTS])
{
    struct trimthuel_result line = trimthuel_admit(pump, sizeof pump, need, period, stretched);

    if (line.number != 0)
        report("admit", line);
    else
        fprintf(stderr, "slot %" PRIu64 " starts at tick %" PRIu64 "\n", line.place, line.value);
}

/*
 * R102: a running line stays up to the end of its period, with what that still owes it. Answers in how many ticks
 * its slot is free; a refusal changes nothing, and then these are none.
 */
static uint64_t leave(uint64_t slot)
{
    struct trimthuel_result line = trimthuel_leave(pump, sizeof pump, slot);

    if (line.number != 0)
        report("leave", line);
    else
        fprintf(stderr, "slot %" PRIu64 " is free in %" PRIu64 " ticks\n", slot, line.value);
    return line.value;
}

/* R88, R89: one tick of the pump; answers the slot that got it. */
static uint64_t tick(void)
{
    uint64_t slot = granted("step", trimthuel_step(pump, sizeof pump));

    valve_board(granted("ready", trimthuel_ready(pump, sizeof pump)), slot);
    return slot;
}

/* Lets the pump run, and shows who got each tick. */
static void show_ticks(uint64_t ticks)
{
    while (ticks-- > 0) {
        uint64_t slot = tick();

        putchar(slot == TRIMTHUEL_NO_SLOT ? '.' : "0123456789abcdef"[slot]);
    }
    putchar('\n');
}

/*
 * R98: shows what each line has had, the ticks in which none ran, and those of lines that are gone; answers whether
 * they add up to the clock.
 */
static int show_counts(void)
{
    uint64_t counts[TRIMTHUEL_COUNTS];
    uint64_t clock = granted("counts", trimthuel_counts(pump, sizeof pump, counts));
    uint64_t idle = counts[TRIMTHUEL_SLOTS], departed = counts[TRIMTHUEL_SLOTS + 1], left = clock;

    printf("clock %" PRIu64, clock);
    for (int slot = 0; slot < TRIMTHUEL_SLOTS; slot++) {
        if (counts[slot] != 0)
            printf(", slot %d had %" PRIu64, slot, counts[slot]);
        left -= counts[slot];
    }
    printf(", idle %" PRIu64, idle);
    if (departed != 0)
        printf(", departed %" PRIu64, departed);
    putchar('\n');
    /* No step was refused with 4, so that they are not above the clock (R96), and nothing wraps here. */
    return left == idle + departed;
}

/* Lets the pump run and shows what it did; 0 if the counts do not add up, as they do on every table that came from the empty one (R79). */
static int show(uint64_t ticks)
{
    show_ticks(ticks);
    if (show_counts())
        return 1;
    fputs("the counts do not add up to the clock\n", stderr);
    return 0;
}

int main(void)
{
    static const uint16_t none[TRIMTHUEL_SLOTS] = {0};
    static const uint16_t kept[TRIMTHUEL_SLOTS] = {16};
    static const uint16_t doubled[TRIMTHUEL_SLOTS] = {32, 16};

    if (trimthuel_version() != TRIMTHUEL_VERSION) {
        fputs("the library has another version than its header\n", stderr);
        return EXIT_FAILURE;
    }
    granted("empty", trimthuel_empty(pump, sizeof pump));
    admit(8, 16, none);
    admit(8, 16, kept);
    for (int t = 0; t < 8; t++)
        tick();
    admit(1, 4, doubled);
    if (!show(56) || !show(leave(1)))
        return EXIT_FAILURE;
    return fclose(stdout) == 0 ? EXIT_SUCCESS : EXIT_FAILURE;
}
