/*
 * Asks all eight questions about each sheet of a file, with buffers that are
 * exactly as long as asked and were never written, so that a memory checker
 * sees every read of what nobody wrote and every step outside. The file has
 * each sheet's length in four bytes, low byte first, and then the sheet.
 * Prints a sum over all answers and all buffers.
 */
#include "lexondar.h"

#include <stdio.h>
#include <stdlib.h>

static uint64_t sum;

static void add(uint32_t number) {
    sum = sum * 31 + number;
}

/* A result's fields, one after another, so that none is taken for another. */
static void add_fields(size_t count, const uint32_t *fields) {
    for (size_t i = 0; i < count; i++)
        add(fields[i]);
}

static void *room(size_t bytes) {
    void *block = malloc(bytes > 0 ? bytes : 1);
    if (block == NULL)
        exit(2);
    return block;
}

/* After each call: the work buffer is all 0, whatever it was. */
static void add_work(const uint16_t *work) {
    for (size_t i = 0; i < LEXONDAR_WORK; i++)
        if (work[i] != 0)
            exit(3);
}

static void add_result(const uint16_t *result, uint32_t count) {
    for (uint32_t i = 0; i < count; i++)
        add(result[i]);
}

/* The number at a place of a list: main and the first objects in turn. */
static uint16_t listed(size_t i) {
    return i % 2 == 0 ? LEXONDAR_MAIN : (uint16_t)(i / 2);
}

/* What lists hold together, each exactly as long as its numbers, and only read. */
static void ask_groups(const uint8_t *text, size_t length, uint32_t budget, uint16_t *work,
                       uint16_t *held) {
    for (size_t members = 0; members <= LEXONDAR_GROUP + 1; members++) {
        uint16_t *list = room(members * sizeof *list);
        for (size_t i = 0; i < members; i++)
            list[i] = listed(i);
        struct lexondar_authority_result group =
            lexondar_group(text, length, budget, list, members, work, LEXONDAR_WORK, held,
                           LEXONDAR_AUTHORITY);
        add_fields(5, (uint32_t[]){group.refusal, group.line, group.lack, group.name, group.count});
        add_result(held, group.count);
        for (size_t i = 0; i < members; i++)
            if (list[i] != listed(i))
                exit(4);
        free(list);
    }
}

/* The first forms' lines, by the bytes that they begin and end with. */
static void ask_forms(const uint8_t *text, size_t length, uint16_t *work) {
    for (size_t number = 0; number < 4; number++) {
        struct lexondar_form_result form = lexondar_form(text, length, number, work, LEXONDAR_WORK);
        add_fields(6, (uint32_t[]){form.refusal, form.line, form.lack, form.name,
                                   (uint32_t)form.start, (uint32_t)form.length});
        add_work(work);
        if (form.refusal == LEXONDAR_ANSWERED) {
            add(text[form.start]);
            add(text[form.start + form.length - 1]);
        }
    }
}

static void ask(const uint8_t *text, size_t length, uint32_t budget) {
    uint16_t *work = room(LEXONDAR_WORK * sizeof *work);
    uint16_t *held = room(LEXONDAR_AUTHORITY * sizeof *held);
    uint16_t *all = room(LEXONDAR_REPORT * sizeof *all);
    struct lexondar_fit_result fit = lexondar_fit(text, length, 1, 0, work, LEXONDAR_WORK);
    add_fields(6, (uint32_t[]){fit.refusal, fit.line, fit.lack, fit.name, fit.fits, fit.passed});
    add_work(work);
    ask_forms(text, length, work);
    struct lexondar_run_result run = lexondar_run(text, length, budget, work, LEXONDAR_WORK);
    add_fields(8, (uint32_t[]){run.refusal, run.line, run.lack, run.name, run.outcome, run.steps,
                               run.value, run.objects});
    struct lexondar_authority_result one = lexondar_authority(
        text, length, budget, LEXONDAR_MAIN, work, LEXONDAR_WORK, held, LEXONDAR_AUTHORITY);
    add_fields(5, (uint32_t[]){one.refusal, one.line, one.lack, one.name, one.count});
    add_result(held, one.count);
    ask_groups(text, length, budget, work, held);
    struct lexondar_report_result every =
        lexondar_report(text, length, budget, work, LEXONDAR_WORK, all, LEXONDAR_REPORT);
    add_fields(9, (uint32_t[]){every.refusal, every.line, every.lack, every.name, every.outcome,
                               every.steps, every.value, every.objects, every.count});
    add_result(all, every.count);
    add_work(work);
    free(work);
    free(held);
    free(all);
}

/* The verdict in a buffer of its own, which nobody wrote before. */
static void judge(const uint8_t *text, size_t length) {
    uint16_t *work = room(LEXONDAR_WORK * sizeof *work);
    struct lexondar_verdict_result verdict = lexondar_verdict(text, length, work, LEXONDAR_WORK);
    add_fields(4, (uint32_t[]){verdict.refusal, verdict.line, verdict.lack, verdict.name});
    add_work(work);
    free(work);
}

/* The most steps that the sheet can need, in such a buffer too. */
static void ask_bound(const uint8_t *text, size_t length) {
    uint16_t *work = room(LEXONDAR_WORK * sizeof *work);
    struct lexondar_bound_result bound = lexondar_bound(text, length, work, LEXONDAR_WORK);
    add_fields(5, (uint32_t[]){bound.refusal, bound.line, bound.lack, bound.name, bound.steps});
    add_work(work);
    free(work);
}

int main(int count, char **words) {
    FILE *file = count == 2 ? fopen(words[1], "rb") : NULL;
    if (file == NULL)
        return 2;
    uint8_t head[4];
    while (fread(head, 1, 4, file) == 4) {
        size_t length = head[0] + 256u * head[1] + 65536u * head[2] + 16777216u * head[3];
        uint8_t *text = room(length);
        if (fread(text, 1, length, file) != length)
            return 2;
        judge(text, length);
        ask_bound(text, length);
        ask(text, length, 0);
        ask(text, length, 300);
        free(text);
    }
    fclose(file);
    printf("%llu\n", (unsigned long long)sum);
    return 0;
}
