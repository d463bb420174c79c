/*
 * Asks all eight questions about texts made of the sheets of a file. The text,
 * the list of holders and both buffers lie between pages that nobody may touch,
 * each flush against those before it or those after it, and the text and the
 * list on pages that are only read: a step outside is a fault, which ends it.
 * After each call it looks at every byte of the buffers, and whether the answer
 * agrees with those to the other questions about that text. Prints how many
 * calls there were, how many objects were held at most, and how often each
 * question met which refusal. Everything is drawn from one seed.
 *
 * With --slips in place of a file it shows that slips are noticed.
 */
#include "guarded.h"

#include <stdio.h>
#include <stdlib.h>
#include <string.h>

/* So many calls there are at least, and so many turns of all questions a text. */
#define CALLS 500000
#define TURNS 3

/* The text's length and budget, for all calls about it. */
static size_t length;
static uint32_t budget;

/* The text lies at both ends of its room, once for each border. */
static void write_text(const uint8_t *text) {
    const struct room *room = &rooms[TEXT_ROOM];
    unlock_room(room);
    if (length > 0) {
        memcpy(placed(room, length, 0), text, length);
        memcpy(placed(room, length, 1), text, length);
    }
    lock_room(room);
}

/* Mostly one of the report's holders, and one of the first; else any number. */
static uint16_t some_holder(void) {
    size_t limit = below(2) > 0 && holders_count > 3 ? 3 : holders_count;
    if (limit == 0 || below(12) == 0)
        return (uint16_t)below(below(2) > 0 ? 260 : 65536);
    return holders[below(limit)];
}

/* A list at each end of its room; those at the same border are parts of it. */
static void write_lists(void) {
    const struct room *room = &rooms[LIST_ROOM];
    unlock_room(room);
    uint16_t *lower = (uint16_t *)placed(room, 2 * LISTED, 0);
    uint16_t *upper = (uint16_t *)placed(room, 2 * LISTED, 1);
    for (size_t i = 0; i < LISTED; i++) {
        lower[i] = some_holder();
        upper[i] = some_holder();
    }
    lower[0] = LEXONDAR_MAIN;
    lock_room(room);
}

static uint32_t some_budget(void) {
    static const uint32_t budgets[] = {0, 300, 300, 10000};
    size_t choice = below(8);
    return choice < 4 ? budgets[choice] : (uint32_t)below(choice < 6 ? 24 : 1000);
}

/* At least the asked length: mostly exactly that. */
static size_t enough(size_t asked) {
    size_t choice = below(8);
    return choice == 0 ? asked + 1 : choice == 1 ? asked + below(LONGEST - asked + 1) : asked;
}

/* Enough, one less, none, or any length. */
static size_t some_length(size_t asked) {
    size_t choice = below(16);
    if (choice < 10)
        return enough(asked);
    if (choice < 12)
        return asked > 0 ? asked - 1 : 0;
    return choice < 13 ? 0 : below(LONGEST + 1);
}

/* A row or form: mostly one that is there, else a higher one or far beyond. */
static size_t some_number(void) {
    static const size_t far[] = {64, 65, 256, 65536, (size_t)1 << 32, SIZE_MAX};
    size_t choice = below(12);
    return choice == 0 ? far[below(6)] : below(choice < 3 ? 64 : 4);
}

/* Main, some holder, or far beyond: also what has main's number in its low bits. */
static size_t any_holder(void) {
    static const size_t far[] = {257, 65536 + 256, ((size_t)1 << 32) + 256, SIZE_MAX};
    size_t choice = below(12);
    if (choice == 0)
        return far[below(4)];
    return choice < 5 ? LEXONDAR_MAIN : some_holder();
}

/* A call about the text; the rule makes lengths of the asked ones. */
static struct call some_call(enum question question, size_t (*rule)(size_t)) {
    const struct room *list = &rooms[LIST_ROOM];
    size_t listed = below(3) == 0 ? below(LISTED + 1) : below(4);
    struct call call = {.question = question, .length = length, .budget = budget};
    call.text = placed(&rooms[TEXT_ROOM], length, (int)below(2));
    call.a = question == AUTHORITY ? any_holder() : some_number();
    call.b = below(8) == 0 ? call.a : some_number();
    call.list = (uint16_t *)placed(list, 2 * listed, (int)below(2));
    call.listed = listed;
    call.work = lend(&rooms[WORK_ROOM], rule(LEXONDAR_WORK), (int)below(2));
    call.result = lend(&rooms[RESULT_ROOM], rule(result_asked[question]), (int)below(2));
    return call;
}

/* The answers that all others about the text must agree with. */
static void ask_first(void) {
    for (enum question question = VERDICT; question <= REPORT; question++) {
        struct call call = some_call(question, enough);
        ask(&call, &told[question]);
    }
    agree_first(budget);
}

static void ask_each(void) {
    static struct answer given;
    for (enum question question = 0; question < QUESTIONS; question++) {
        struct call call = some_call(question, some_length);
        ask(&call, &given);
        agree(&call, &given);
    }
}

static void ask_text(size_t number) {
    static uint8_t text[LONGEST];
    asked_text = (sig_atomic_t)number;
    length = make_text(number, text);
    budget = some_budget();
    write_text(text);
    ask_first();
    write_lists();
    for (int turn = 0; turn < TURNS; turn++)
        ask_each();
}

int main(int count, char **words) {
    if (count != 2)
        return UNABLE;
    make_rooms();
    if (strcmp(words[1], "--slips") == 0)
        return try_slips();
    if (load_sheets(words[1]) == 0)
        return UNABLE;
    for (size_t number = 0; calls < CALLS; number++)
        ask_text(number);
    printf("%zu calls, %zu held at most\n", calls, most_held);
    print_table();
    return 0;
}
