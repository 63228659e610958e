/*
 * answer FILE: the answer line of a card, and what else the boundary says of it.
 *
 * Exit status: 0 the bench is released, 1 it is refused, 2 trouble: the card could not be read or the
 * answer not be written. A card that cannot be read is not a broken card: it gets a message and no answer.
 */
#include <inttypes.h>
#include <signal.h>
#include <stdio.h>
#include <string.h>

#include "trimthuel.h"

/* R55: one byte more than the longest card, so that a longer file is seen to be too long. */
#define ROOM (TRIMTHUEL_CARD_MAX + 1)

/* The ticks that the pump is run. */
#define TICKS 56

enum { RELEASED = 0, REFUSED = 1, TROUBLE = 2 };

/* Reads the card of a file; 0 if that failed. */
static int read_card(const char *path, uint8_t card[ROOM], size_t *len)
{
    FILE *file = fopen(path, "rb");
    int fine;

    if (file == NULL)
        return 0;
    *len = fread(card, 1, ROOM, file);
    fine = !ferror(file);
    fclose(file);
    return fine;
}

/*
 * R63: a name, and what a call answered: its value, or `refused` with number and place, and with 10 its tick
 * and its excess (R103).
 */
static void show(const char *name, struct trimthuel_result result)
{
    if (result.number == 0)
        printf("%s %" PRIu64, name, result.value);
    else
        printf("%s refused %" PRIu64 " %" PRIu64, name, result.number, result.place);
    if (result.tick != 0 || result.excess != 0)
        printf(" %" PRIu64 " %" PRIu64, result.tick, result.excess);
}

/* R64: the line of the card, which always fits, and the exit status that it means. */
static int show_line(const uint8_t *card, size_t len)
{
    uint8_t line[TRIMTHUEL_LINE_MAX];
    struct trimthuel_result answer = trimthuel_answer(card, len, line, sizeof line);

    fwrite(line, 1, (size_t)answer.value, stdout);
    return answer.number == 0 && memcmp(line, "release ", 8) == 0 ? RELEASED : REFUSED;
}

/* R33: a buffer that is one byte too short for the line gets refusal 13, and every byte stays (R17). */
static void show_short(const uint8_t *card, size_t len)
{
    uint8_t line[TRIMTHUEL_LINE_MAX], kept[TRIMTHUEL_LINE_MAX];
    struct trimthuel_result answer = trimthuel_answer(card, len, line, sizeof line);

    memset(line, '.', sizeof line);
    memset(kept, '.', sizeof kept);
    show("short", trimthuel_answer(card, len, line, (size_t)answer.value - 1));
    puts(memcmp(line, kept, sizeof line) == 0 ? "" : " and changed");
}

/* R65: the slots whose record was TA, lowest first, if there are any. */
static void show_reordered(uint64_t word)
{
    if (word != 0)
        printf(" reordered");
    for (int slot = 0; slot < TRIMTHUEL_SLOTS; slot++)
        if (word >> slot & 1)
            printf(" %d", slot);
}

/* R65, R72: a card that reads comes back the same, or as its twin. */
static void show_rewritten(const uint8_t *card, size_t len)
{
    uint8_t anew[TRIMTHUEL_CARD_MAX];
    struct trimthuel_result written = trimthuel_rewrite(card, len, anew, sizeof anew);
    int same = written.number == 0 && written.value == len && memcmp(anew, card, len) == 0;

    show("rewritten", written);
    if (same)
        printf(" the same");
    if (written.number == 0)
        show_reordered(written.place);
    puts("");
}

/* R66 */
static void show_ran(const uint8_t *card, size_t len)
{
    show("ran", trimthuel_run(card, len, TICKS));
    printf(" of %d\n", TICKS);
}

int main(int argc, char **argv)
{
    uint8_t card[ROOM];
    size_t len;
    int status;

    if (argc != 2) {
        fprintf(stderr, "usage: answer FILE\n");
        return TROUBLE;
    }
    if (!read_card(argv[1], card, &len)) {
        perror(argv[1]);
        return TROUBLE;
    }
#ifdef SIGPIPE
    /* A reader that has gone away is then a write that fails. */
    signal(SIGPIPE, SIG_IGN);
#endif
    status = show_line(card, len);
    show_short(card, len);
    show_rewritten(card, len);
    show_ran(card, len);
    if (fclose(stdout) != 0) {
        perror("the answer could not be written");
        return TROUBLE;
    }
    return status;
}
