/*
 * stack CARD...: the bytes of stack that each function of the boundary uses, the greatest over the cards: with the
 * table of each, with the one that its request leaves, and with those of the ticks after that while the new line waits.
 *
 * Each call is made on a stack of its own that was painted before. An empty function is called with the same arguments
 * and its use taken off, so that what is left is the function's own and that of what it calls.
 */
#include <stdio.h>
#include <stdlib.h>
#include <string.h>
#include <ucontext.h>

#include "trimthuel.h"

#define STACK_SIZE 65536
#define TICKS 1000

/* What the functions are called with. */
struct scene {
    uint8_t card[TRIMTHUEL_CARD_MAX + 1];
    size_t card_len;
    uint8_t table[TRIMTHUEL_TABLE_SIZE];
    uint16_t request[TRIMTHUEL_REQUEST_SIZE];
};

typedef void any_fn(void);

static uint8_t stack[STACK_SIZE];
static uint8_t out[TRIMTHUEL_CARD_MAX];
static uint64_t counted[TRIMTHUEL_COUNTS];
static struct scene now;
static any_fn *volatile called;
static any_fn *make_call;
static volatile size_t untouched;
static volatile uint8_t paint;

/* The empty functions. On x86-64 the caller clears its arguments, so that they may be called with any. */
static struct trimthuel_result no_result(void)
{
    struct trimthuel_result nothing = {0, 0, 0, 0, 0};

    return nothing;
}

static uint32_t no_number(void)
{
    return 0;
}

#define TABLE now.table, sizeof now.table
#define CARD now.card, now.card_len
#define OUT out, sizeof out
#define REQUEST now.request[TRIMTHUEL_SLOTS], now.request[TRIMTHUEL_SLOTS + 1], now.request

/* Each function of the boundary, the empty one that answers likewise, and the arguments. */
#define FUNCTIONS(F)                                  \
    F(version, no_number)                             \
    F(lamp, no_number, 15)                            \
    F(empty, no_result, TABLE)                        \
    F(ask, no_result, TABLE, REQUEST)                 \
    F(admit, no_result, TABLE, REQUEST)               \
    F(step, no_result, TABLE)                         \
    F(leave, no_result, TABLE, 0)                     \
    F(ready, no_result, TABLE)                        \
    F(counts, no_result, TABLE, counted)              \
    F(write_card, no_result, TABLE, REQUEST, OUT)     \
    F(read_card, no_result, CARD, TABLE, now.request) \
    F(answer, no_result, CARD, OUT)                   \
    F(rewrite, no_result, CARD, OUT)                  \
    F(run, no_result, CARD, TICKS)

/* Calls what is to be called now, the function or the empty one, as the function is called. */
#define CALL(name, twin, ...)                                       \
    static void call_##name(void)                                   \
    {                                                               \
        (void)((__typeof__(&trimthuel_##name))called)(__VA_ARGS__); \
    }
#define ROW(name, twin, ...) {"trimthuel_" #name, call_##name, (any_fn *)trimthuel_##name, (any_fn *)twin, 0},

FUNCTIONS(CALL)

static struct function {
    const char *name;
    any_fn *call, *own, *twin;
    size_t most;
} functions[] = {FUNCTIONS(ROW)};

#define FUNCTION_COUNT (sizeof functions / sizeof *functions)

/* Runs on the painted stack. It scans there itself: the way back to the caller uses that stack too. */
static void call_and_scan(void)
{
    const volatile uint8_t *painted = stack;
    size_t k = 0;

    make_call();
    while (k < STACK_SIZE && painted[k] == paint)
        k++;
    untouched = k;
}

/* The bytes of stack that a call touches, from the top of the stack on. The scene is then as it was. */
static size_t touched(any_fn *fn)
{
    static ucontext_t here, there;
    struct scene before = now;

    called = fn;
    memset(stack, paint, sizeof stack);
    if (getcontext(&there) != 0)
        exit(EXIT_FAILURE);
    there.uc_stack.ss_sp = stack;
    there.uc_stack.ss_size = sizeof stack;
    there.uc_link = &here;
    makecontext(&there, call_and_scan, 0);
    if (swapcontext(&here, &there) != 0)
        exit(EXIT_FAILURE);
    now = before;
    return STACK_SIZE - untouched;
}

/* What the call uses more than an empty one, with two paints: a byte may be written in the colour of one of them. */
static void measure(struct function *function)
{
    static const uint8_t paints[] = {0xA5, 0x5A};

    make_call = function->call;
    /* Not measured: the first call of memcpy may stop to link it. */
    (void)touched(function->own);
    for (size_t i = 0; i < sizeof paints; i++) {
        size_t whole, bare;

        paint = paints[i];
        whole = touched(function->own);
        bare = touched(function->twin);
        if (whole > bare && whole - bare > function->most)
            function->most = whole - bare;
    }
}

static void measure_all(void)
{
    for (size_t i = 0; i < FUNCTION_COUNT; i++)
        measure(&functions[i]);
}

/* R59: the writer refuses a waiting line before anything else. */
static int line_waits(void)
{
    return trimthuel_write_card(TABLE, REQUEST, OUT).number == 3;
}

/* A card that does not read leaves the empty table and a request of zeros. */
static void measure_card(void)
{
    (void)trimthuel_empty(TABLE);
    memset(now.request, 0, sizeof now.request);
    (void)trimthuel_read_card(CARD, TABLE, now.request);
    measure_all();
    if (trimthuel_admit(TABLE, REQUEST).number != 0)
        return;
    do
        measure_all();
    while (trimthuel_step(TABLE).number == 0 && line_waits());
}

int main(int argc, char **argv)
{
    for (int i = 1; i < argc; i++) {
        FILE *file = fopen(argv[i], "rb");

        if (file == NULL) {
            perror(argv[i]);
            return EXIT_FAILURE;
        }
        now.card_len = fread(now.card, 1, sizeof now.card, file);
        fclose(file);
        measure_card();
    }
    for (size_t i = 0; i < FUNCTION_COUNT; i++)
        printf("%s %zu\n", functions[i].name, functions[i].most);
    return EXIT_SUCCESS;
}
