/* A call, what is looked at after each, and how often which refusal was met. */
#include "guarded.h"

#include <stdarg.h>
#include <stdio.h>
#include <stdlib.h>
#include <string.h>

/* More than there are refusals. */
#define REFUSALS 64

volatile sig_atomic_t asked_text;
volatile sig_atomic_t asked_question;
const char *const question_names[QUESTIONS] = {"fit", "form",   "verdict",   "bound",
                                               "run", "report", "authority", "group"};

/* The numbers that a question's result buffer must have. */
const size_t result_asked[QUESTIONS] = {
    [REPORT] = LEXONDAR_REPORT,
    [AUTHORITY] = LEXONDAR_AUTHORITY,
    [GROUP] = LEXONDAR_AUTHORITY,
};

size_t calls;
size_t most_held;
static size_t met[QUESTIONS][REFUSALS];

/* Ends with a line about the call if this does not hold. */
void must(int holds, const char *what, ...) {
    if (holds)
        return;
    va_list numbers;
    va_start(numbers, what);
    fprintf(stderr, "text %d (%s), %s: ", (int)asked_text, text_kind(),
            question_names[asked_question]);
    vfprintf(stderr, what, numbers);
    fprintf(stderr, "\n");
    va_end(numbers);
    exit(WRONG);
}

static void put(struct answer *answer, const uint32_t *four, const size_t *fields) {
    memcpy(answer->four, four, sizeof answer->four);
    memcpy(answer->fields, fields, sizeof answer->fields);
}

#define PUT(r, ...) \
    put(answer, (uint32_t[4]){r.refusal, r.line, r.lack, r.name}, (size_t[5]){__VA_ARGS__})

/* The questions about the sheet; none has a result buffer. */
static void ask_sheet(const struct call *c, struct answer *answer) {
    uint16_t *work = c->work.start;
    size_t length = c->work.length;
    if (c->question == FIT) {
        struct lexondar_fit_result r = lexondar_fit(c->text, c->length, c->a, c->b, work, length);
        PUT(r, r.fits, r.passed);
    } else if (c->question == FORM) {
        struct lexondar_form_result r = lexondar_form(c->text, c->length, c->a, work, length);
        PUT(r, r.start, r.length);
    } else if (c->question == VERDICT) {
        struct lexondar_verdict_result r = lexondar_verdict(c->text, c->length, work, length);
        PUT(r, 0);
    } else {
        struct lexondar_bound_result r = lexondar_bound(c->text, c->length, work, length);
        PUT(r, r.steps);
    }
    answer->count = 0;
}

/* The questions about the state that a run leaves. */
static void ask_state(const struct call *c, struct answer *answer) {
    const struct buffer *work = &c->work, *result = &c->result;
    if (c->question == RUN) {
        struct lexondar_run_result r =
            lexondar_run(c->text, c->length, c->budget, work->start, work->length);
        PUT(r, r.outcome, r.steps, r.value, r.objects);
        answer->count = 0;
    } else if (c->question == REPORT) {
        struct lexondar_report_result r =
            lexondar_report(c->text, c->length, c->budget, work->start, work->length,
                            result->start, result->length);
        PUT(r, r.outcome, r.steps, r.value, r.objects, r.count);
        answer->count = r.count;
    } else {
        struct lexondar_authority_result r =
            c->question == AUTHORITY
                ? lexondar_authority(c->text, c->length, c->budget, c->a, work->start,
                                     work->length, result->start, result->length)
                : lexondar_group(c->text, c->length, c->budget, c->list, c->listed, work->start,
                                 work->length, result->start, result->length);
        PUT(r, r.count);
        answer->count = r.count;
    }
}

/* Refusal 1 exactly with a short buffer; a refusal's fields are 0. */
static void look_at_fields(const struct call *call, const struct answer *answer) {
    static const size_t nothing[5];
    const uint32_t *four = answer->four;
    size_t asked = result_asked[call->question];
    int is_short = call->work.length < LEXONDAR_WORK || call->result.length < asked;
    must((four[0] == LEXONDAR_BUFFER_TOO_SHORT) == is_short, "refusal %u of %zu and %zu numbers",
         four[0], call->work.length, call->result.length);
    must(!is_short || (four[1] | four[2] | four[3]) == 0, "more than the number of refusal 1");
    if (four[0] != LEXONDAR_ANSWERED)
        must(memcmp(answer->fields, nothing, sizeof nothing) == 0, "a refusal's field is not 0");
    must(answer->count <= asked, "%zu numbers are written", answer->count);
}

/*
 * The work buffer is 0 as far as it is used, the answer's numbers stand at the
 * result buffer's start, and every other byte of both rooms is as it was. Then
 * all of them are made what they were, for the next call.
 */
static void look_at_buffers(const struct call *call, struct answer *answer) {
    static const uint16_t zeros[LEXONDAR_WORK];
    size_t used = answer->four[0] == LEXONDAR_BUFFER_TOO_SHORT ? 0 : LEXONDAR_WORK;
    must(memcmp(call->work.start, zeros, 2 * used) == 0, "work is not 0");
    must(is_kept(&call->work, used), "work is changed where it must not be");
    must(is_kept(&call->result, answer->count), "result is changed where it must not be");
    memcpy(answer->numbers, call->result.start, 2 * answer->count);
    restore(&call->work, used);
    restore(&call->result, answer->count);
}

/* What is looked at after each call, whatever the text. */
void look(const struct call *call, struct answer *answer) {
    uint32_t refusal = answer->four[0];
    must(refusal < REFUSALS, "refusal %u", refusal);
    met[call->question][refusal]++;
    look_at_fields(call, answer);
    look_at_buffers(call, answer);
    if (call->question != REPORT && answer->count > most_held)
        most_held = answer->count;
}

void ask(const struct call *call, struct answer *answer) {
    asked_question = (sig_atomic_t)call->question;
    if (call->question < RUN)
        ask_sheet(call, answer);
    else
        ask_state(call, answer);
    calls++;
    look(call, answer);
}

/* A line for each question and refusal that was met. */
void print_table(void) {
    for (int i = 0; i < QUESTIONS * REFUSALS; i++) {
        int question = i / REFUSALS, refusal = i % REFUSALS;
        if (met[question][refusal] > 0)
            printf("%s %d %zu\n", question_names[question], refusal, met[question][refusal]);
    }
}
