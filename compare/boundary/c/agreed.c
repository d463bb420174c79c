/*
 * What the answers about a text must be, by the first ones: the verdict, the
 * bound, the run and the report.
 */
#include "guarded.h"

#include <stdio.h>
#include <stdlib.h>
#include <string.h>

static const uint32_t answered[4];
static const uint32_t not_defined[4] = {LEXONDAR_NOT_DEFINED};
static const uint32_t no_holder[4] = {LEXONDAR_NO_HOLDER};
static const uint32_t beyond_count[4] = {LEXONDAR_BEYOND_COUNT};

/* The first answers, in the places of their questions. */
struct answer told[QUESTIONS];

/* The holders of the report, and each holder's part of it, from its count on. */
uint16_t holders[LEXONDAR_MAIN + 1];
size_t holders_count;
static const uint16_t *parts[LEXONDAR_MAIN + 1];

/* A first answer; messages are about its question from now on. */
static const struct answer *first_to(enum question question) {
    asked_question = (sig_atomic_t)question;
    return &told[question];
}

static int begins_with(const struct answer *answer, const uint32_t *four) {
    return memcmp(answer->four, four, sizeof answer->four) == 0;
}

static void must_begin(const struct answer *given, const uint32_t *four) {
    const uint32_t *begun = given->four;
    must(begins_with(given, four), "begins with %u %u %u %u, not %u %u %u %u", begun[0], begun[1],
         begun[2], begun[3], four[0], four[1], four[2], four[3]);
}

static void must_equal(const struct answer *given, const struct answer *first) {
    must_begin(given, first->four);
    must(memcmp(given->fields, first->fields, sizeof given->fields) == 0, "not the first fields");
    must(memcmp(given->numbers, first->numbers, 2 * first->count) == 0, "not the first numbers");
}

/* Whether the text can be read: the refusals up to 7 are those of reading. */
static int is_readable(void) {
    uint32_t refusal = told[VERDICT].four[0];
    return refusal == LEXONDAR_ANSWERED || refusal > LEXONDAR_NOT_DEFINED;
}

/* Numbers of objects that are there, ascending. */
static void check_ascending(const uint16_t *numbers, size_t count) {
    for (size_t i = 0; i < count; i++)
        must(numbers[i] < told[REPORT].fields[3] && (i == 0 || numbers[i] > numbers[i - 1]),
             "object %u in a report's order", numbers[i]);
}

/* Main's entry, then those of objects, ascending; they fill the report. */
static void read_entries(void) {
    const struct answer *report = first_to(REPORT);
    memset(parts, 0, sizeof parts);
    holders_count = 0;
    size_t at = 0;
    while (at < report->count) {
        uint16_t holder = report->numbers[at];
        must(at == 0 ? holder == LEXONDAR_MAIN : holder < LEXONDAR_MAIN, "holder %u", holder);
        must(parts[holder] == NULL, "holder %u has two entries", holder);
        parts[holder] = report->numbers + at + 1;
        holders[holders_count++] = holder;
        at += 2 + *parts[holder];
        must(at <= report->count, "an entry is longer than the report");
        check_ascending(parts[holder] + 1, *parts[holder]);
    }
    must(holders_count > 0, "main has no entry");
    check_ascending(holders + 1, holders_count - 1);
}

/* A bound is not below the run's steps, and above the budget of a spent run. */
static void agree_bound(uint32_t budget) {
    const struct answer *bound = first_to(BOUND);
    size_t outcome = told[RUN].fields[0], steps = told[RUN].fields[1];
    uint32_t circular[4] = {LEXONDAR_CIRCULAR_CALL, bound->four[1]};
    if (begins_with(bound, beyond_count))
        return;
    if (bound->four[1] > 0 && begins_with(bound, circular))
        return;
    must_begin(bound, answered);
    must(steps <= bound->fields[0], "below the run's %zu steps", steps);
    must(outcome != LEXONDAR_SPENT || budget < bound->fields[0], "spent within the bound");
}

/* The first answers about a text agree with each other. */
void agree_first(uint32_t budget) {
    const uint32_t *verdict = told[VERDICT].four;
    must_begin(first_to(RUN), verdict);
    must(told[RUN].fields[1] <= budget, "more steps than the budget");
    must_begin(first_to(REPORT), verdict);
    must(memcmp(told[REPORT].fields, told[RUN].fields, 4 * sizeof(size_t)) == 0,
         "not as the run");
    if (verdict[0] != LEXONDAR_ANSWERED) {
        holders_count = 0;
        must_begin(first_to(BOUND), verdict);
        return;
    }
    agree_bound(budget);
    read_entries();
}

/* The number on the first line with this key, in a sheet that can be read. */
static size_t number_of(const struct call *call, const char *key) {
    const uint8_t *text = call->text;
    size_t length = strlen(key), at = 0;
    while (at + length < call->length && memcmp(text + at, key, length) != 0)
        at++;
    must(at + length < call->length, "there is no %s", key);
    return strtoul((const char *)text + at + length, NULL, 10);
}

/* Rows that are there are compared, and every row fits itself. */
static void agree_fit(const struct call *call, const struct answer *given) {
    size_t rows = number_of(call, "types=");
    if (call->a >= rows || call->b >= rows) {
        must_begin(given, not_defined);
        return;
    }
    size_t fits = given->fields[0], passed = given->fields[1];
    uint32_t lack = given->four[2];
    uint32_t wanted[4] = {LEXONDAR_ANSWERED, 0, lack, given->four[3]};
    must_begin(given, fits == 1 ? answered : wanted);
    must(fits == (lack == LEXONDAR_LACKS_NOTHING), "fits %zu and lack %u", fits, lack);
    must(fits == 1 || call->a != call->b, "a row does not fit itself");
    must(lack != LEXONDAR_LACKS_COUNT && lack <= LEXONDAR_LACKS_MEMBER, "lack %u", lack);
    must(passed <= 8, "%zu members are passed", passed);
}

/* A form that is there is whole lines, from its own up to what may follow. */
static void agree_form(const struct call *call, const struct answer *given) {
    if (call->a >= number_of(call, "forms=")) {
        must_begin(given, not_defined);
        return;
    }
    must_begin(given, answered);
    const uint8_t *text = call->text;
    size_t start = given->fields[0], length = given->fields[1], end = start + length;
    must(start > 0 && length > 5 && end < call->length, "from %zu on %zu bytes", start, length);
    must(text[start - 1] == '\n' && memcmp(text + start, "form=", 5) == 0, "no line of a form");
    must(text[end - 1] == '\n' && memchr("fdm", text[end], 3) != NULL, "no end of a form");
}

/* Marks what a holder holds by the report; whether it is a holder. */
static int mark(size_t holder, uint8_t *held) {
    if (holder > LEXONDAR_MAIN || parts[holder] == NULL)
        return 0;
    for (size_t i = 1; i <= *parts[holder]; i++)
        held[parts[holder][i]] = 1;
    return 1;
}

static int mark_all(const struct call *call, uint8_t *held) {
    if (call->question == AUTHORITY)
        return mark(call->a, held);
    int all = call->listed <= LEXONDAR_GROUP;
    for (size_t i = 0; i < call->listed; i++)
        all = mark(call->list[i], held) && all;
    return all;
}

/* One holder's entry, or together what the entries of a list have. */
static void agree_held(const struct call *call, const struct answer *given) {
    uint8_t held[LEXONDAR_MAIN] = {0};
    int are_holders = mark_all(call, held);
    must_begin(given, are_holders ? answered : no_holder);
    size_t at = 0;
    for (size_t object = 0; are_holders && object < LEXONDAR_MAIN; object++)
        if (held[object])
            must(at < given->count && given->numbers[at++] == object, "not as in the report");
    must(at == given->count, "%zu numbers, not %zu as in the report", given->count, at);
}

/* An answer about a text, if it is not refusal 1, agrees with the first ones. */
void agree(const struct call *call, const struct answer *given) {
    int accepted = told[VERDICT].four[0] == LEXONDAR_ANSWERED;
    if (given->four[0] == LEXONDAR_BUFFER_TOO_SHORT)
        return;
    if (call->question >= VERDICT && call->question <= REPORT)
        must_equal(given, &told[call->question]);
    else if (call->question == FIT && is_readable())
        agree_fit(call, given);
    else if (call->question == FORM && is_readable())
        agree_form(call, given);
    else if (call->question >= AUTHORITY && accepted)
        agree_held(call, given);
    else
        must_begin(given, told[VERDICT].four);
}
