/*
 * Asks all eight questions about texts made of the sheets of a file, each time
 * with the stack below painted, and prints how many bytes below the caller's
 * stack pointer each question wrote at the most: its return address, arguments
 * that go over the stack, all frames, and what is used of the red zone. A ninth
 * line is of a function that writes 3,000 bytes down, to show that it is seen.
 */
#include "guarded.h"

#include <stdio.h>

/* The 64-bit words that are painted. */
#define PAINTED 1024
#define PAINT 0x5A5A5A5A5A5A5A5Au

#define STACK_POINTER(place) __asm__ volatile("mov %%rsp, %0" : "=r"(place))

/* The caller's stack pointer at the call. */
static uint8_t *caller;

static uint8_t text[LONGEST];
static size_t length;
static uint16_t work[LEXONDAR_WORK];
static uint16_t result[LEXONDAR_REPORT];
static const uint16_t list[] = {LEXONDAR_MAIN, 0, 1, 2, 3, 4, 5, 6};
static volatile uint32_t refusal;

/* A function that asks one question; all are alike but for the call. */
#define ASKS(name, ...)                                                                            \
    static void name(void) {                                                                       \
        STACK_POINTER(caller);                                                                     \
        refusal = lexondar_##name(text, length, __VA_ARGS__).refusal;                              \
    }

ASKS(fit, 1, 0, work, LEXONDAR_WORK)
ASKS(form, 1, work, LEXONDAR_WORK)
ASKS(verdict, work, LEXONDAR_WORK)
ASKS(bound, work, LEXONDAR_WORK)
ASKS(run, 300, work, LEXONDAR_WORK)
ASKS(report, 300, work, LEXONDAR_WORK, result, LEXONDAR_REPORT)
ASKS(authority, 300, LEXONDAR_MAIN, work, LEXONDAR_WORK, result, LEXONDAR_AUTHORITY)
ASKS(group, 300, list, length % 9, work, LEXONDAR_WORK, result, LEXONDAR_AUTHORITY)

static __attribute__((noinline)) void dig(void) {
    volatile uint8_t bytes[3000];
    bytes[0] = 0;
    refusal = bytes[0];
}

static void deep(void) {
    STACK_POINTER(caller);
    dig();
}

static const struct {
    const char *name;
    void (*ask)(void);
} questions[] = {{"fit", fit},     {"form", form},           {"verdict", verdict},
                 {"bound", bound}, {"run", run},             {"report", report},
                 {"group", group}, {"authority", authority}, {"deep", deep}};

#define ASKED (sizeof questions / sizeof *questions)

/* Paints what lies below, asks, and finds the lowest word with other content. */
static __attribute__((noinline)) size_t depth(void (*ask)(void)) {
    volatile uint64_t *lowest;
    STACK_POINTER(lowest);
    lowest -= PAINTED;
    for (size_t i = 0; i < PAINTED; i++)
        lowest[i] = PAINT;
    ask();
    while (*lowest == PAINT)
        lowest++;
    return (size_t)(caller - (uint8_t *)lowest);
}

int main(int count, char **words) {
    size_t sheets = count == 2 ? load_sheets(words[1]) : 0;
    size_t most[ASKED] = {0};
    if (sheets == 0)
        return UNABLE;
    for (size_t number = 0; number < 2 * sheets; number++) {
        length = make_text(number, text);
        for (size_t i = 0; i < ASKED; i++) {
            size_t bytes = depth(questions[i].ask);
            most[i] = bytes > most[i] ? bytes : most[i];
        }
    }
    for (size_t i = 0; i < ASKED; i++)
        printf("%s %zu\n", questions[i].name, most[i]);
    return 0;
}
