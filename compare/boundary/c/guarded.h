/*
 * What the parts of the driver with guard pages share: guarded.c has the turns
 * of questions, rooms.c the buffers between their pages, texts.c the texts,
 * asked.c a call and what is looked at after each, agreed.c what the answers
 * must be, and slips.c what must be noticed. stack.c takes the texts too.
 */
#ifndef GUARDED_H
#define GUARDED_H

#define _DEFAULT_SOURCE

#include "lexondar.h"

#include <signal.h>

/* The most bytes of a text, and the most numbers of a buffer. */
#define LONGEST 70000

/* The most holders of a list. */
#define LISTED 20

/* Exit statuses: a wrong answer, no file or memory, a fault. */
enum { WRONG = 1, UNABLE = 2, FAULT = 3 };

enum question { FIT, FORM, VERDICT, BOUND, RUN, REPORT, AUTHORITY, GROUP, QUESTIONS };

/* Whole pages, with others before and after them that nobody may touch. */
struct room {
    const char *name;
    uint8_t *first;
    size_t bytes;
};

enum { TEXT_ROOM, LIST_ROOM, WORK_ROOM, RESULT_ROOM, ROOMS };
extern struct room rooms[ROOMS];

/* Numbers in a room, flush against one of its borders. */
struct buffer {
    const struct room *room;
    uint16_t *start;
    size_t length;
};

/* A question with all that it is asked with. */
struct call {
    enum question question;
    const uint8_t *text;
    size_t length;
    uint32_t budget;
    size_t a; /* a row, a form or a holder */
    size_t b; /* the other row */
    const uint16_t *list;
    size_t listed;
    struct buffer work;
    struct buffer result;
};

/* A result: its first four numbers, its fields after them, the written numbers. */
struct answer {
    uint32_t four[4];
    size_t fields[5];
    size_t count;
    uint16_t numbers[LEXONDAR_REPORT];
};

/* What is asked just now, for messages. */
extern volatile sig_atomic_t asked_text;
extern volatile sig_atomic_t asked_question;
extern const char *const question_names[QUESTIONS];
void must(int holds, const char *what, ...);

/* rooms.c */
void make_rooms(void);
void lock_room(const struct room *room);
void unlock_room(const struct room *room);
uint8_t *placed(const struct room *room, size_t bytes, int upper);
struct buffer lend(const struct room *room, size_t length, int upper);
int is_kept(const struct buffer *buffer, size_t written);
void restore(const struct buffer *buffer, size_t written);

/* texts.c */
uint64_t draw(void);
size_t below(size_t limit);
size_t load_sheets(const char *path);
size_t make_text(size_t number, uint8_t *text);
const char *text_kind(void);

/* asked.c; the most numbers that were held by a holder or a list. */
extern size_t calls;
extern size_t most_held;
extern const size_t result_asked[QUESTIONS];
void ask(const struct call *call, struct answer *answer);
void look(const struct call *call, struct answer *answer);
void print_table(void);

/* agreed.c */
extern struct answer told[QUESTIONS];
extern uint16_t holders[LEXONDAR_MAIN + 1];
extern size_t holders_count;
void agree_first(uint32_t budget);
void agree(const struct call *call, const struct answer *given);

/* slips.c */
int try_slips(void);

#endif
