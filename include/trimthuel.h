/*
 * The pump's boundary for C and C++: numbers and byte buffers only. The rules, R1 to R107, are those of
 * docs/RULES.md.
 *
 * A table stands in 298 bytes that the caller keeps, its image (R81): the lines, counts of what each has
 * had (R95), and the slot that got the last tick (R105). A card is a table and a request as bytes (R52 to
 * R55); it carries no count and no last slot. A request is the need and the period of a new line, and a
 * stretched period for each slot: not below the present one, and equal to it where the line leaves (R25);
 * the entry of a slot that holds no running line is never looked at (R6).
 *
 * Any bytes of any length may be handed in as an image or a card: what is broken is refused. Every call
 * answers a result, or a plain number where nothing can be refused. A refusal leaves every lent byte as
 * it was (R17), and bytes after what is written stay as they were.
 *
 * What a caller owes: each pointer is good for its length and not null, a length of 0 included; the
 * pointers to numbers of 16 and of 64 bits are aligned for them; no buffer that is written overlaps
 * another.
 *
 * The library is libhouse.a (`scripts/library`), for x86-64. It has no state of its own, allocates
 * nothing, and calls nothing but memcpy and its like: any thread and any interrupt handler may call it
 * at any time, each with buffers of its own. As the ABI of x86-64 allows, it uses the SSE registers and
 * the 128 bytes below the stack pointer: an interrupt on the same stack has to spare both.
 * docs/BENCHMARKS.md has the stack that each function was seen to use.
 */
#ifndef TRIMTHUEL_H
#define TRIMTHUEL_H

#include <stddef.h>
#include <stdint.h>

#ifdef __cplusplus
extern "C" {
#endif

/* R93: of the boundary that this header declares. The library's own is trimthuel_version(). */
#define TRIMTHUEL_VERSION 6

/*
 * R81: of the layout of an image, its first byte. An image of version 1, which had no counts, of version 2, which
 * had no line that leaves, or of version 3, which had no last slot, is refused with 11 at 0.
 */
#define TRIMTHUEL_IMAGE_VERSION 4

/* R2: slots of a table. */
#define TRIMTHUEL_SLOTS 16

/* R81: bytes of an image. */
#define TRIMTHUEL_TABLE_SIZE 298

/* R95: counts of a table: one for each slot, then the idle count, then the departed count. */
#define TRIMTHUEL_COUNTS 18

/* R6: numbers of a request: sixteen stretched periods, then need and period. */
#define TRIMTHUEL_REQUEST_SIZE 18

/* R55: bytes of the longest card. */
#define TRIMTHUEL_CARD_MAX 208

/* R61: every answer line fits so many bytes, its newline included. */
#define TRIMTHUEL_LINE_MAX 72

/* R63, R105: the slot that is none, in a result and as an image's last byte. */
#define TRIMTHUEL_NO_SLOT 255

/*
 * R63: what a call answers. Where the number is 0 it is granted, and the value is what was asked for;
 * the place is 0 unless the function says otherwise. Else the number is a refusal's, the place is the
 * slot, the number or the byte offset that it speaks of or 0 (R21 to R36), and the value is 0. Tick and
 * excess are what 10 says beside that (R103), and 0 wherever the number is not 10.
 */
struct trimthuel_result {
    uint64_t number;
    uint64_t place;
    uint64_t value;
    uint64_t tick;
    uint64_t excess;
};

/* R21 to R36: why, in words. Refusal n is rule R(20 + n). 12 is no longer given; its number stays taken (R32). */
static inline const char *trimthuel_why(uint64_t number)
{
    static const char *const why[] = {
        /*  0 */ "no refusal has this number",
        /*  1 */ "the clock is too late to ask",
        /*  2 */ "no slot is empty",
        /*  3 */ "a line still waits",
        /*  4 */ "a line's numbers are unsound, or more ticks are counted than have gone by",
        /*  5 */ "a period would be shortened, or a leaving line's changed",
        /*  6 */ "the new line does not fit its period",
        /*  7 */ "the frame is above 1,000,000",
        /*  8 */ "more than all of the pump is asked for",
        /*  9 */ "the lines are behind their shares",
        /* 10 */ "the running lines alone come too late",
        /* 11 */ "a broken card or image",
        /* 12 */ "an old-order mark, which is no longer refused",
        /* 13 */ "the buffer is too short",
        /* 14 */ "a period ended short",
        /* 15 */ "the clock's last tick",
        /* 16 */ "no line is there that could be let go",
    };

    return why[number < sizeof why / sizeof *why ? number : 0];
}

/* R93: the version of the library's boundary. One that is not TRIMTHUEL_VERSION does not fit this header. */
uint32_t trimthuel_version(void);

/* R50, R90: how often the front lamp blinks for the refusals 1 to 15, 1 to 5 times; 0 for any other number, 16 too. */
uint8_t trimthuel_lamp(uint64_t number);

/* The pump. `table` is an image, and refusal 11 comes before any other (R83). */

/* R85: writes the image of the empty table, with which a pump begins. The value is 298. Refuses with 13. */
struct trimthuel_result trimthuel_empty(uint8_t *table, size_t table_len);

/*
 * R86: whether and when a new line could start. The value is the tick of its start, the place the slot
 * that it would have. Refuses with 11, then with the first of 1 to 10 that holds (R18). With 10 the tick
 * is the first, by the table's clock, at which the running lines alone, at their stretched periods, want
 * more than there is time for, and the excess, of 32 bits, is by how many ticks (R103).
 */
struct trimthuel_result trimthuel_ask(const uint8_t *table, size_t table_len, uint16_t need, uint16_t period,
                                      const uint16_t stretched[TRIMTHUEL_SLOTS]);

/*
 * R87: answers as trimthuel_ask does, with 10 its tick and excess too. Where it grants, the running lines
 * have their stretched periods and the new line its slot, where it runs or waits for its start, and has had
 * nothing yet.
 */
struct trimthuel_result trimthuel_admit(uint8_t *table, size_t table_len, uint16_t need, uint16_t period,
                                        const uint16_t stretched[TRIMTHUEL_SLOTS]);

/*
 * R88: one tick. The value is the slot that got it, or TRIMTHUEL_NO_SLOT. Of the lines that are owed ticks it goes
 * to one whose period ends first: where several end so, to the one that got the last tick, whose valve stays open,
 * else to the lowest slot (R44). Refuses with 11, 15, 4 or 14; on a table that came from the empty one by these
 * calls alone, with 15 only (R74).
 */
struct trimthuel_result trimthuel_step(uint8_t *table, size_t table_len);

/*
 * R102: lets the line of a slot go. A running line stays up to the end of its period, with the ticks that it is
 * still owed, and then its slot holds nothing (R46); a waiting one is removed at once. What it has had goes over
 * to the departed count when it is gone (R101). The value is in how many ticks the slot holds nothing, 0 for a
 * waiting line. Refuses with 11, then 4, then 16 where the number is no slot's, or the slot holds nothing or a
 * line that leaves already; the place of 16 is the number as it was named.
 */
struct trimthuel_result trimthuel_leave(uint8_t *table, size_t table_len, uint64_t number);

/* R89: the ready word (R49): bit k of the value is 1 where slot k is still owed ticks. Refuses with 11. */
struct trimthuel_result trimthuel_ready(const uint8_t *table, size_t table_len);

/*
 * R98: what each line has had. counts[k] is the ticks that the line of slot k has had since it was admitted,
 * counts[TRIMTHUEL_SLOTS] those in which no line ran, and counts[TRIMTHUEL_SLOTS + 1] those of lines that are
 * gone. The value is the clock: on a table that came from the empty one by these calls alone all counts add up
 * to it (R79); on one that was read from a card they begin at 0. Refuses with 11 alone, and then writes none;
 * what 4 would refuse is shown too.
 */
struct trimthuel_result trimthuel_counts(const uint8_t *table, size_t table_len, uint64_t counts[TRIMTHUEL_COUNTS]);

/* Cards. `out` and `card` may be longer than what is written to their start. */

/*
 * R91: writes the card of a table and a request. The value is its length. Refuses with 11, then with 3
 * where a line waits, then with 13.
 */
struct trimthuel_result trimthuel_write_card(const uint8_t *table, size_t table_len, uint16_t need, uint16_t period,
                                             const uint16_t stretched[TRIMTHUEL_SLOTS], uint8_t *card, size_t card_len);

/*
 * R92: reads a card into an image and a request: the sixteen stretched periods, then need and period. The
 * value is 298. Refuses with 11 at a byte offset of the card, then with 13 where `table` is too short.
 */
struct trimthuel_result trimthuel_read_card(const uint8_t *card, size_t card_len, uint8_t *table, size_t table_len,
                                            uint16_t request[TRIMTHUEL_REQUEST_SIZE]);

/*
 * R64: writes the answer line of a card (R61), `release 13`, `refused 4 2`, or with 10 its tick and excess
 * too, `refused 10 0 3 2`, and its newline; no zero byte follows. The value is its length. Refuses with 13
 * alone: any other refusal is a line.
 */
struct trimthuel_result trimthuel_answer(const uint8_t *card, size_t card_len, uint8_t *out, size_t out_len);

/*
 * R65: reads a card and writes its twin (R72): the card itself, but each TA record made a TB record. The value
 * is its length, and bit k of the place is 1 where slot k's record was TA. Refuses with 11, then with 13.
 */
struct trimthuel_result trimthuel_rewrite(const uint8_t *card, size_t card_len, uint8_t *out, size_t out_len);

/*
 * R66: admits a card's request and steps the pump `ticks` times. The value is in how many of them a line
 * ran. Refuses as the reader does, or ask, or the first refused step.
 */
struct trimthuel_result trimthuel_run(const uint8_t *card, size_t card_len, uint16_t ticks);

#ifdef __cplusplus
}
#endif

#endif
