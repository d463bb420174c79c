/* Texts made of the sheets of a file: whole, or with one thing changed. */
#include "guarded.h"

#include <stdio.h>
#include <stdlib.h>
#include <string.h>

/* The most sheets that are taken from the file. */
#define SHEETS 20000

static struct {
    const uint8_t *start;
    size_t length;
} sheets[SHEETS];
static size_t sheets_count;

/* A random number of 64 bits (splitmix64). */
uint64_t draw(void) {
    static uint64_t state = 97;
    uint64_t z = state += 0x9E3779B97F4A7C15u;
    z = (z ^ (z >> 30)) * 0xBF58476D1CE4E5B9u;
    z = (z ^ (z >> 27)) * 0x94D049BB133111EBu;
    return z ^ (z >> 31);
}

size_t below(size_t limit) {
    return draw() % limit;
}

/*
 * Loads a file that has each sheet's length in four bytes, low byte first, and
 * then the sheet; how many there are.
 */
size_t load_sheets(const char *path) {
    FILE *file = fopen(path, "rb");
    uint8_t head[4];
    while (file != NULL && fread(head, 1, 4, file) == 4) {
        size_t length = head[0] + 256u * head[1] + 65536u * head[2] + 16777216u * head[3];
        uint8_t *sheet = malloc(length + 1);
        if (sheet == NULL || length > LONGEST || sheets_count == SHEETS)
            exit(UNABLE);
        if (fread(sheet, 1, length, file) != length)
            exit(UNABLE);
        sheets[sheets_count].start = sheet;
        sheets[sheets_count++].length = length;
    }
    if (file != NULL)
        fclose(file);
    return sheets_count;
}

static size_t whole(uint8_t *text, size_t length) {
    (void)text;
    return length;
}

static size_t cut_off(uint8_t *text, size_t length) {
    (void)text;
    return below(length + 1);
}

/* One byte becomes one that sheets have, or any. */
static size_t with_a_byte_changed(uint8_t *text, size_t length) {
    static const char usual[] = "0123456789,=\n";
    if (length > 0)
        text[below(length)] = below(4) > 0 ? (uint8_t)usual[below(13)] : (uint8_t)draw();
    return length;
}

/* Some line of the text: where it begins, and its length with its byte 10. */
static size_t some_line(const uint8_t *text, size_t length, size_t *start) {
    size_t from = below(length), to = from;
    while (from > 0 && text[from - 1] != '\n')
        from--;
    while (to < length && text[to] != '\n')
        to++;
    *start = from;
    return (to < length ? to + 1 : to) - from;
}

static size_t with_a_line_out(uint8_t *text, size_t length) {
    if (length == 0)
        return 0;
    size_t start, line = some_line(text, length, &start);
    memmove(text + start, text + start + line, length - start - line);
    return length - line;
}

static size_t with_a_line_doubled(uint8_t *text, size_t length) {
    if (length == 0)
        return 0;
    size_t start, line = some_line(text, length, &start);
    if (length + line > LONGEST)
        return length;
    memmove(text + start + line, text + start, length - start);
    return length + line;
}

/* One byte stands somewhere in it many times, or lines stand at its end. */
static size_t padded(uint8_t *text, size_t length) {
    size_t more = below(LONGEST - length + 1), place = below(length + 1);
    if (below(2) > 0) {
        memmove(text + place + more, text + place, length - place);
        memset(text + place, "7\n\0,"[below(4)], more);
        return length + more;
    }
    for (size_t i = 0; i < more; i++)
        text[length + i] = (uint8_t)"copy=0\n"[i % 7];
    return length + more;
}

static size_t only_noise(uint8_t *text, size_t length) {
    length = below(below(4) > 0 ? 400 : LONGEST + 1);
    for (size_t i = 0; i < length; i++)
        text[i] = (uint8_t)draw();
    return length;
}

static size_t empty(uint8_t *text, size_t length) {
    (void)text, (void)length;
    return 0;
}

static const struct {
    const char *name;
    size_t (*make)(uint8_t *text, size_t length);
} kinds[] = {{"whole", whole},
             {"cut off", cut_off},
             {"a byte changed", with_a_byte_changed},
             {"a line out", with_a_line_out},
             {"a line doubled", with_a_line_doubled},
             {"padded", padded},
             {"noise", only_noise},
             {"empty", empty}};

static size_t kind;

/* How the last text was made. */
const char *text_kind(void) {
    return kinds[kind].name;
}

/*
 * Makes the text of a number, in room for LONGEST bytes; its length. Each sheet
 * is taken whole, and the next time with a change.
 */
size_t make_text(size_t number, uint8_t *text) {
    size_t sheet = number % sheets_count;
    size_t length = sheets[sheet].length;
    memcpy(text, sheets[sheet].start, length);
    kind = 0;
    if (number / sheets_count % 2 == 1)
        kind = below(8) > 0 ? 1 + below(5) : 6 + below(2);
    return kinds[kind].make(text, length);
}
