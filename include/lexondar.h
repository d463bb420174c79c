/*
 * Lexondar: which add-in of a dough-room terminal may touch what.
 *
 * Eight questions about a sheet. Each takes the sheet's bytes and a work
 * buffer, keeps neither, allocates nothing, and ends. All that is said here
 * of answers and buffers is proved, for every text, every number and every
 * buffer. Link with liblexondar.a (x86-64, System V ABI), which needs nothing
 * but memset. lexondar_words.h has words for the refusals.
 *
 * The caller's duties, and the only ones:
 *
 *   Pointers  Every pointer is valid for its length, and aligned to its type;
 *             the text, the list and the buffers do not overlap. A pointer of
 *             length 0 is not null.
 *
 *   Alone     During a call nobody else touches the text, the list or a
 *             buffer: no thread, no interrupt handler, no device. The library
 *             keeps its own numbers in the work buffer and uses them as
 *             indices without another test, because they are proved to be in
 *             bounds. If somebody else writes there during a call, it may read
 *             and write outside its buffers. Where that can't be excluded,
 *             keep them in a region that the memory protection hardware
 *             reserves for the caller during the call. Two calls at a time
 *             need two work buffers and two result buffers.
 *
 *   Stack     LEXONDAR_STACK bytes are there below the caller's stack pointer.
 *             An interrupt handler on the same stack leaves the red zone
 *             alone, the 128 bytes below the stack pointer, which the ABI
 *             lets a function use and this library does use.
 *
 *   Time      A run can't be cut short, and takes time in proportion to its
 *             steps, so choose a budget that the terminal can wait for:
 *             4,294,967,295 steps took 6 to 32 s, by their kind, on one core
 *             of an Intel Xeon. All else that a call does is bounded by the
 *             limits of a sheet, and took less than a millisecond.
 *
 * Later versions may have more refusals: take every number but 0 for one.
 */
#ifndef LEXONDAR_H
#define LEXONDAR_H

#if !defined(__x86_64__) || defined(__ILP32__) || defined(_WIN32)
#error "liblexondar.a is code for x86-64 with 64-bit pointers and the System V ABI"
#endif

#include <stddef.h>
#include <stdint.h>

/*
 * The version of the header and the archive is defined here; the changelog has
 * what each one changed. As a number, to compare: 200 is 0.2.0.
 */
#define LEXONDAR_VERSION "0.2.0"
#define LEXONDAR_VERSION_NUMBER 200

/* The compiler warns where a result is ignored. */
#if defined(__cplusplus) && __cplusplus >= 201703L
#define LEXONDAR_MUST_USE [[nodiscard]]
#elif defined(__GNUC__)
#define LEXONDAR_MUST_USE __attribute__((warn_unused_result))
#else
#define LEXONDAR_MUST_USE
#endif

/* A result has the size that the archive was compiled with. */
#if defined(__cplusplus) && __cplusplus >= 201103L
#define LEXONDAR_SIZE(type, bytes) static_assert(sizeof(struct type) == bytes, #type)
#elif defined(__STDC_VERSION__) && __STDC_VERSION__ >= 201112L
#define LEXONDAR_SIZE(type, bytes) _Static_assert(sizeof(struct type) == bytes, #type)
#else
#define LEXONDAR_SIZE(type, bytes) typedef char type##_size[sizeof(struct type) == bytes ? 1 : -1]
#endif

#ifdef __cplusplus
extern "C" {
#endif

/* The bytes that a text may have. */
#define LEXONDAR_TEXT_MAX 65535

/* The 16-bit numbers that a work buffer must have, and that is in bytes. */
#define LEXONDAR_WORK 32768
#define LEXONDAR_WORK_BYTES 65536

/* Those that a result buffer must have, for one holder or a list, and for all. */
#define LEXONDAR_AUTHORITY 256
#define LEXONDAR_AUTHORITY_BYTES 512
#define LEXONDAR_REPORT 66306
#define LEXONDAR_REPORT_BYTES 132612

/*
 * The bytes of stack that a call takes at the most: its return address and the
 * red zone are among them, memset's own are not.
 */
#define LEXONDAR_STACK 1536

/* The holders that a list may have, repeats included. */
#define LEXONDAR_GROUP 16

/* Main's number as a holder; a resource object's is its own, 0 to 255. */
#define LEXONDAR_MAIN 256

/* The value of a run that is not done. */
#define LEXONDAR_NO_VALUE 65535

/*
 * Every result begins with the same four numbers.
 *
 *   refusal  0, or why there is no answer
 *   line     the line at fault, counted from 1; 0 where no line is
 *   lack     what is lacking, of a misfit or of a row that does not fit; else 0
 *   name     the name of the member that is lacking; else 0
 */
enum lexondar_refusal {
    LEXONDAR_ANSWERED = 0,
    LEXONDAR_BUFFER_TOO_SHORT = 1, /* work or result buffer; line 0 */
    LEXONDAR_TEXT_TOO_LONG = 2,    /* over 65,535 bytes; line 0 */
    LEXONDAR_MALFORMED = 3,        /* a line out of shape, an early end, bytes after main */
    LEXONDAR_OUT_OF_LIMIT = 4,     /* a count, kind or name; over 1,024 instructions */
    LEXONDAR_NOT_ASCENDING = 5,    /* member names */
    LEXONDAR_DUPLICATE_ROW = 6,    /* the row equals an earlier one */
    LEXONDAR_NOT_DEFINED = 7,      /* a row, form, kept value or slot that is not there */
    LEXONDAR_IMPURE_FORM = 8,      /* a pure row's form has a field or keeps a resource row */
    LEXONDAR_NO_SUCH_MEMBER = 9,   /* no such method or field; get or put in main */
    LEXONDAR_MISFIT = 10,          /* a value does not fit, or a new has not its kept values;
                                      lack says what is lacking */
    LEXONDAR_NO_HOLDER = 11,       /* after the run: no such object, a pure one,
                                      or a number over 256; or over 16 listed;
                                      line 0 */
    LEXONDAR_CIRCULAR_CALL = 12,   /* after typing: a body calls its method's own
                                      name or a higher one */
    LEXONDAR_BEYOND_COUNT = 13,    /* after that: the most steps are over
                                      4,294,967,295; line 0 */
    LEXONDAR_WRONG_DEVICE = 14     /* with 8 to 10, on its line: a device's form
                                      keeps a value or is pure */
};

/*
 * What is lacking. Kind comes before members, and of those the lowest is named.
 * Of several misfits on a line it is the first: slots in order, then the body's
 * result.
 */
enum lexondar_lack {
    LEXONDAR_LACKS_NOTHING = 0,
    LEXONDAR_LACKS_COUNT = 1, /* a new has not one slot for each kept value */
    LEXONDAR_LACKS_KIND = 2,  /* a resource where pure is asked */
    LEXONDAR_LACKS_MEMBER = 3 /* a member of the wanted row has no match */
};

/* How a run ended. */
enum lexondar_outcome {
    LEXONDAR_DONE = 0,
    LEXONDAR_SPENT = 1,      /* the budget's steps were taken */
    LEXONDAR_STORE_FULL = 2, /* the next step is a creation, with 256 objects there */
    LEXONDAR_STACK_FULL = 3  /* the next step is a call, with 64 frames there */
};

/*
 * What every question does to its buffers.
 *
 * The work buffer's content at entry has no influence. At return its first
 * 32,768 numbers are 0 and later ones as they were; but for refusal 1, which
 * changes no byte of any buffer. A refusal writes nothing to the result
 * buffer. An answer stands at its start, and later places keep their content.
 * Fields of a result after the first four are 0 when it refuses.
 */

/*
 * Whether row a fits row b: fits is 1 or 0, and with 0 lack and name say what
 * row b asks for that row a lacks. Refusals 1 to 7.
 *
 * One walk along the members of both rows settles it, in at most as many turns
 * as they have members together. passed says how many of row a's it passed, 0
 * to 8: those with names up to name, a member of that very name included; with
 * fits 1 those up to the last name of row b. 0 where the kind is lacking, and
 * where row b has no member.
 */
struct lexondar_fit_result {
    uint32_t refusal;
    uint32_t line;
    uint32_t lack;
    uint32_t name;
    uint32_t fits;
    uint32_t passed;
};
LEXONDAR_SIZE(lexondar_fit_result, 24);

LEXONDAR_MUST_USE
struct lexondar_fit_result lexondar_fit(const uint8_t *text, size_t text_len, size_t a, size_t b,
                                        uint16_t *work, size_t work_len);

/* The verdict: refusal 0 is accepted. Refusals 1 to 10, and 14. */
struct lexondar_verdict_result {
    uint32_t refusal;
    uint32_t line;
    uint32_t lack;
    uint32_t name;
};
LEXONDAR_SIZE(lexondar_verdict_result, 16);

LEXONDAR_MUST_USE
struct lexondar_verdict_result lexondar_verdict(const uint8_t *text, size_t text_len,
                                                uint16_t *work, size_t work_len);

/*
 * The run of an accepted sheet for at most budget steps: its outcome, the
 * steps taken, main's last slot if it is done, and the number of objects, the
 * devices among them. Devices are objects 0 to 7 at the most, in the sheet's
 * order, and there at the start. Refusals 1 to 10, and 14.
 */
struct lexondar_run_result {
    uint32_t refusal;
    uint32_t line;
    uint32_t lack;
    uint32_t name;
    uint32_t outcome;
    uint32_t steps;
    uint32_t value;
    uint32_t objects;
};
LEXONDAR_SIZE(lexondar_run_result, 32);

LEXONDAR_MUST_USE
struct lexondar_run_result lexondar_run(const uint8_t *text, size_t text_len, uint32_t budget,
                                        uint16_t *work, size_t work_len);

/*
 * What a holder holds in the state that the run within the budget leaves:
 * count numbers of resource objects, ascending, at the start of result, which
 * has at least 256 places. It holds what it can still use: itself, its fields,
 * those of its kept values that some body of its form names, and, in its
 * frames, the slots that an instruction not yet taken names and a body's last
 * slot until it is returned. Main has only frames, and keeps its own last
 * slot. Refusals 1 to 11, and 14.
 */
struct lexondar_authority_result {
    uint32_t refusal;
    uint32_t line;
    uint32_t lack;
    uint32_t name;
    uint32_t count;
};
LEXONDAR_SIZE(lexondar_authority_result, 20);

LEXONDAR_MUST_USE
struct lexondar_authority_result lexondar_authority(const uint8_t *text, size_t text_len,
                                                    uint32_t budget, size_t holder,
                                                    uint16_t *work, size_t work_len,
                                                    uint16_t *result, size_t result_len);

/*
 * What a list of holders holds together in that state: what at least one of
 * them holds, each number once, ascending, as for one holder. The list is only
 * read; its order has no influence, and a holder listed twice counts once. Of
 * an empty list, count is 0. A list of over 16 numbers, or one with a number
 * that is no holder, is refusal 11, after the run. Refusals 1 to 11, and 14.
 */
LEXONDAR_MUST_USE
struct lexondar_authority_result lexondar_group(const uint8_t *text, size_t text_len,
                                                uint32_t budget, const uint16_t *holders,
                                                size_t holders_len, uint16_t *work,
                                                size_t work_len, uint16_t *result,
                                                size_t result_len);

/*
 * The run's answer and every holder's authority, from one reading and one run.
 * The first count numbers of result, which has at least 66,306 places, are an
 * entry for main and then for each resource object, ascending: the holder, how
 * many it holds, and which, ascending. Refusals 1 to 10, and 14.
 */
struct lexondar_report_result {
    uint32_t refusal;
    uint32_t line;
    uint32_t lack;
    uint32_t name;
    uint32_t outcome;
    uint32_t steps;
    uint32_t value;
    uint32_t objects;
    uint32_t count;
};
LEXONDAR_SIZE(lexondar_report_result, 36);

LEXONDAR_MUST_USE
struct lexondar_report_result lexondar_report(const uint8_t *text, size_t text_len,
                                              uint32_t budget, uint16_t *work, size_t work_len,
                                              uint16_t *result, size_t result_len);

/*
 * The lines of a form, as they stand in the text: length bytes of it, start
 * bytes after its first, from the form's `form` line to the byte 10 of the last
 * line before the next form, `devices` or `main`. Forms count from 0. The sheet
 * only has to be readable; a form that is not in it is refusal 7, line 0, after
 * reading. Refusals 1 to 7; start and length are 0 then.
 */
struct lexondar_form_result {
    uint32_t refusal;
    uint32_t line;
    uint32_t lack;
    uint32_t name;
    size_t start;
    size_t length;
};
LEXONDAR_SIZE(lexondar_form_result, 32);

LEXONDAR_MUST_USE
struct lexondar_form_result lexondar_form(const uint8_t *text, size_t text_len, size_t form,
                                          uint16_t *work, size_t work_len);

/*
 * The most steps that a run of an accepted sheet can need, if the sheet is of
 * the stricter kind: a body of method N calls only methods with names below N,
 * and main calls any. A body's amount is its instructions, one for its return,
 * and for each of its `call` lines the amount of the called name; a name's is
 * the largest over its bodies in all forms, 0 if it has none; steps is main's,
 * which has no return. A run with at least that budget does not end as spent;
 * full store and full stack remain possible. A sheet not of this kind is
 * refusal 12, at its first `call` line against the rule. Refusals 1 to 10, and
 * 12 to 14.
 */
struct lexondar_bound_result {
    uint32_t refusal;
    uint32_t line;
    uint32_t lack;
    uint32_t name;
    uint32_t steps;
};
LEXONDAR_SIZE(lexondar_bound_result, 20);

LEXONDAR_MUST_USE
struct lexondar_bound_result lexondar_bound(const uint8_t *text, size_t text_len, uint16_t *work,
                                            size_t work_len);

#ifdef __cplusplus
}
#endif

#undef LEXONDAR_MUST_USE
#undef LEXONDAR_SIZE

#endif
