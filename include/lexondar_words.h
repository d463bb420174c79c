/*
 * Words for the refusals of lexondar.h: the paper's word, and a plain sentence
 * for somebody who has not read the paper. They stand in this file alone, so a
 * terminal that shows only numbers carries none of them.
 *
 *     printf("refusal %u (%s) at line %u: %s\n", r.refusal,
 *            lexondar_word(r.refusal), r.line, lexondar_sentence(r.refusal));
 */
#ifndef LEXONDAR_WORDS_H
#define LEXONDAR_WORDS_H

#include "lexondar.h"

/* Every refusal, ascending: its number, its word and its sentence. */
#define LEXONDAR_REFUSALS(REFUSAL)                                                                 \
    REFUSAL(LEXONDAR_BUFFER_TOO_SHORT, "short bowl", "a buffer is too short")                      \
    REFUSAL(LEXONDAR_TEXT_TOO_LONG, "long sheet", "the text is over 65,535 bytes")                 \
    REFUSAL(LEXONDAR_MALFORMED, "torn line", "the line is not in the sheet's shape")               \
    REFUSAL(LEXONDAR_OUT_OF_LIMIT, "over measure", "a count, kind or name is outside its limit")   \
    REFUSAL(LEXONDAR_NOT_ASCENDING, "wrong order", "member names do not ascend")                   \
    REFUSAL(LEXONDAR_DUPLICATE_ROW, "twin", "the row equals an earlier one")                       \
    REFUSAL(LEXONDAR_NOT_DEFINED, "loose end", "a row, form, kept value or slot is not there")     \
    REFUSAL(LEXONDAR_IMPURE_FORM, "mixed pure",                                                    \
            "a pure row's form has a field or keeps a resource")                                   \
    REFUSAL(LEXONDAR_NO_SUCH_MEMBER, "no such part", "there is no such method or field")           \
    REFUSAL(LEXONDAR_MISFIT, "misfit", "a value does not fit where it goes")                       \
    REFUSAL(LEXONDAR_NO_HOLDER, "no holder", "there is no such holder, or over 16 are listed")     \
    REFUSAL(LEXONDAR_CIRCULAR_CALL, "circular call",                                               \
            "a body calls its method's own name or a higher one")                                  \
    REFUSAL(LEXONDAR_BEYOND_COUNT, "beyond count", "the most steps are over 4,294,967,295")        \
    REFUSAL(LEXONDAR_WRONG_DEVICE, "wrong device", "a device's form keeps a value or is pure")

/* The paper's word for a refusal; of a number that this version has not, "unknown". */
static inline const char *lexondar_word(uint32_t refusal) {
#define LEXONDAR_CASE(number, word, sentence)                                                      \
    case number:                                                                                   \
        return word;
    switch (refusal) {
        LEXONDAR_REFUSALS(LEXONDAR_CASE)
    case LEXONDAR_ANSWERED:
        return "answered";
    default:
        return "unknown";
    }
#undef LEXONDAR_CASE
}

/* What a refusal says, in a plain sentence. */
static inline const char *lexondar_sentence(uint32_t refusal) {
#define LEXONDAR_CASE(number, word, sentence)                                                      \
    case number:                                                                                   \
        return sentence;
    switch (refusal) {
        LEXONDAR_REFUSALS(LEXONDAR_CASE)
    case LEXONDAR_ANSWERED:
        return "nothing is refused";
    default:
        return "the number is of a later version";
    }
#undef LEXONDAR_CASE
}

#endif
