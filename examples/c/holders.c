/*
 * Judges the sheet on standard input, runs it for at most 10,000 steps, and
 * prints what every holder holds, in the paper's words. A refusal is also said
 * in words, on standard error.
 */
#include "lexondar_words.h"

#include <stdio.h>

/* One byte more than a sheet may have, so that a longer one is seen. */
static uint8_t text[LEXONDAR_TEXT_MAX + 1];
static uint16_t work[LEXONDAR_WORK];
static uint16_t result[LEXONDAR_REPORT];

/* Prints the entries: a holder, how many it holds, and which. */
static void print_holders(const uint16_t *entries, size_t count) {
    size_t at = 0;
    while (at < count) {
        size_t held = entries[at + 1];
        printf("holder=%u", (unsigned)entries[at]);
        for (size_t i = 0; i < held; i++)
            printf(",%u", (unsigned)entries[at + 2 + i]);
        printf("\n");
        at += 2 + held;
    }
}

int main(void) {
    size_t length = fread(text, 1, sizeof text, stdin);
    if (ferror(stdin)) {
        perror("standard input");
        return 1;
    }
    struct lexondar_report_result report =
        lexondar_report(text, length, 10000, work, LEXONDAR_WORK, result, LEXONDAR_REPORT);
    printf("verdict=%u\nline=%u\n", (unsigned)report.refusal, (unsigned)report.line);
    if (report.refusal != LEXONDAR_ANSWERED) {
        fprintf(stderr, "%s: %s\n", lexondar_word(report.refusal),
                lexondar_sentence(report.refusal));
        return 0;
    }
    printf("outcome=%u\nsteps=%u\nvalue=%u\n", (unsigned)report.outcome, (unsigned)report.steps,
           (unsigned)report.value);
    print_holders(result, report.count);
    return 0;
}
