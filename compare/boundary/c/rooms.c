/* Buffers between pages that nobody may touch. */
#include "guarded.h"

#include <stdio.h>
#include <stdlib.h>
#include <string.h>
#include <sys/mman.h>
#include <unistd.h>

/* The bytes on either side of a room that nobody may touch, in whole pages. */
#define GUARD 1048576

/* No room has more bytes. */
#define NOISE (2 * LONGEST + 65536)

struct room rooms[ROOMS] = {{"text", NULL, 2 * LONGEST},
                            {"list", NULL, 4 * LISTED},
                            {"work", NULL, 2 * LONGEST},
                            {"result", NULL, 2 * LONGEST}};

/* What the bytes of the work's and the result's room are before each call. */
static uint8_t noise[NOISE];

static void fence(struct room *room) {
    size_t page = (size_t)sysconf(_SC_PAGESIZE);
    room->bytes = (room->bytes + page - 1) / page * page;
    size_t all = room->bytes + 2 * GUARD;
    uint8_t *start = mmap(NULL, all, PROT_NONE, MAP_PRIVATE | MAP_ANONYMOUS, -1, 0);
    if (start == MAP_FAILED || room->bytes > NOISE)
        exit(UNABLE);
    room->first = start + GUARD;
    unlock_room(room);
    memcpy(room->first, noise, room->bytes);
}

/*
 * Says which question stepped where. No fault comes from within printing, so
 * it may print as usual.
 */
static void tell_fault(int number, siginfo_t *info, void *context) {
    (void)number, (void)context;
    uint8_t *place = info->si_addr;
    const char *name = "no room", *where = "";
    for (int i = 0; i < ROOMS; i++) {
        uint8_t *first = rooms[i].first, *end = first + rooms[i].bytes;
        if (place >= first - GUARD && place < end + GUARD) {
            name = rooms[i].name;
            where = place < first ? " before" : place < end ? " inside" : " after";
        }
    }
    dprintf(2, "text %d (%s), %s: a fault%s %s\n", (int)asked_text, text_kind(),
            question_names[asked_question], where, name);
    _exit(FAULT);
}

void make_rooms(void) {
    for (size_t i = 0; i < NOISE; i++)
        noise[i] = (uint8_t)draw();
    for (int i = 0; i < ROOMS; i++)
        fence(&rooms[i]);
    struct sigaction action = {.sa_sigaction = tell_fault, .sa_flags = SA_SIGINFO};
    if (sigaction(SIGSEGV, &action, NULL) != 0 || sigaction(SIGBUS, &action, NULL) != 0)
        exit(UNABLE);
}

static void protect(const struct room *room, int may) {
    if (mprotect(room->first, room->bytes, may) != 0)
        exit(UNABLE);
}

/* From now on the room is only read. */
void lock_room(const struct room *room) {
    protect(room, PROT_READ);
}

void unlock_room(const struct room *room) {
    protect(room, PROT_READ | PROT_WRITE);
}

/*
 * A place for bytes, against the lower or the upper border. One for no bytes is
 * amid what nobody may touch, so that any use of it is a fault.
 */
uint8_t *placed(const struct room *room, size_t bytes, int upper) {
    if (bytes == 0)
        return room->first + room->bytes + GUARD / 2;
    return upper ? room->first + room->bytes - bytes : room->first;
}

struct buffer lend(const struct room *room, size_t length, int upper) {
    return (struct buffer){room, (uint16_t *)placed(room, 2 * length, upper), length};
}

/* Where the buffer begins in its room; at the room's end if it is empty. */
static size_t begins(const struct buffer *buffer) {
    return buffer->length > 0 ? (size_t)((uint8_t *)buffer->start - buffer->room->first)
                              : buffer->room->bytes;
}

/*
 * Whether every byte of the buffer's room is as it was, but for this many
 * written numbers at the buffer's start.
 */
int is_kept(const struct buffer *buffer, size_t written) {
    const struct room *room = buffer->room;
    size_t from = begins(buffer), to = from + 2 * written;
    return memcmp(room->first, noise, from) == 0 &&
           memcmp(room->first + to, noise + to, room->bytes - to) == 0;
}

/* Makes the written numbers what they were. */
void restore(const struct buffer *buffer, size_t written) {
    size_t from = begins(buffer);
    memcpy(buffer->room->first + from, noise + from, 2 * written);
}
