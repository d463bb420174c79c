/*
 * Slips that must be noticed: each is made in a child of its own, which has to
 * end with the status of a fault or of a wrong answer.
 */
#include "guarded.h"

#include <stdio.h>
#include <stdlib.h>
#include <string.h>
#include <sys/wait.h>
#include <unistd.h>

/* A sheet that is accepted: main makes a resource and holds it. */
static const char sheet[] = "types=1\ntype=1,0\nforms=1\nform=0,0\nmain=1\nnew=0\n";

static struct answer given;

/* A list of main alone, with buffers of exactly the asked length. */
static struct call right_call(int upper) {
    struct call call = {.question = GROUP, .length = strlen(sheet), .budget = 1, .listed = 1};
    uint8_t *text = placed(&rooms[TEXT_ROOM], call.length, upper);
    uint16_t *list = (uint16_t *)placed(&rooms[LIST_ROOM], sizeof *list, upper);
    memcpy(text, sheet, call.length);
    *list = LEXONDAR_MAIN;
    call.text = text;
    call.list = list;
    call.work = lend(&rooms[WORK_ROOM], LEXONDAR_WORK, upper);
    call.result = lend(&rooms[RESULT_ROOM], LEXONDAR_AUTHORITY, upper);
    return call;
}

static void nothing(int room) {
    struct call call = right_call(1);
    (void)room;
    ask(&call, &given);
}

static void read_before(int room) {
    (void)*(volatile uint8_t *)(rooms[room].first - 1);
}

static void read_after(int room) {
    (void)*(volatile uint8_t *)(rooms[room].first + rooms[room].bytes);
}

static void write_to_locked(int room) {
    lock_room(&rooms[room]);
    *(volatile uint8_t *)rooms[room].first = 0;
}

/* The library is told of a byte or number before the room. */
static void ask_from_before(int room) {
    struct call call = right_call(0);
    call.text -= room == TEXT_ROOM;
    call.list -= room == LIST_ROOM;
    call.work.start -= room == WORK_ROOM;
    call.result.start -= room == RESULT_ROOM;
    ask(&call, &given);
}

/* The library is told of bytes or numbers after the room. */
static void ask_with_more(int room) {
    struct call call = right_call(1);
    if (room == TEXT_ROOM) {
        uint8_t *text = placed(&rooms[room], call.length - 1, 1);
        call.text = memcpy(text, sheet, call.length - 1);
    } else if (room == LIST_ROOM) {
        call.listed++;
    } else if (room == WORK_ROOM) {
        call.work.start++;
    } else {
        call.result.start += LEXONDAR_AUTHORITY;
    }
    ask(&call, &given);
}

/* A byte of the room changes that is not the buffer's. */
static void change_outside(int room) {
    struct call call = right_call(1);
    rooms[room].first[0] ^= 1;
    ask(&call, &given);
}

/* Nobody asks: the work buffer is left as it was. */
static void leave_work(int room) {
    struct call call = right_call(1);
    (void)room;
    look(&call, &given);
}

/* The report's entry for main has another object. */
static void disagree(int room) {
    struct call call = right_call(1);
    for (call.question = VERDICT; call.question <= REPORT; call.question++) {
        call.result = lend(&rooms[room], result_asked[call.question], 1);
        ask(&call, &told[call.question]);
    }
    agree_first(call.budget);
    told[REPORT].numbers[2]++;
    call = right_call(1);
    ask(&call, &given);
    agree(&call, &given);
}

/* A slip, made for the rooms from the first to the last. */
struct slip {
    const char *name;
    void (*make)(int room);
    int first, last, status;
};

static const struct slip slips[] = {
    {"nothing", nothing, TEXT_ROOM, TEXT_ROOM, 0},
    {"read before", read_before, TEXT_ROOM, RESULT_ROOM, FAULT},
    {"read after", read_after, TEXT_ROOM, RESULT_ROOM, FAULT},
    {"write to locked", write_to_locked, TEXT_ROOM, LIST_ROOM, FAULT},
    {"ask from before", ask_from_before, TEXT_ROOM, RESULT_ROOM, FAULT},
    {"ask with more", ask_with_more, TEXT_ROOM, RESULT_ROOM, FAULT},
    {"change outside", change_outside, WORK_ROOM, RESULT_ROOM, WRONG},
    {"leave work", leave_work, WORK_ROOM, WORK_ROOM, WRONG},
    {"disagree", disagree, RESULT_ROOM, RESULT_ROOM, WRONG},
};

/* How the child ends that makes a slip. */
static int status_of(const struct slip *slip, int room) {
    fflush(stdout);
    pid_t child = fork();
    if (child == 0) {
        slip->make(room);
        _exit(0);
    }
    int status = 0;
    if (child < 0 || waitpid(child, &status, 0) != child)
        exit(UNABLE);
    return WIFEXITED(status) ? WEXITSTATUS(status) : -1;
}

/* Prints how a slip ended for each of its rooms; whether as it must. */
static int is_noticed(const struct slip *slip) {
    int noticed = 1;
    for (int room = slip->first; room <= slip->last; room++) {
        int status = status_of(slip, room);
        printf("%s, %s: %d\n", slip->name, rooms[room].name, status);
        noticed = noticed && status == slip->status;
    }
    return noticed;
}

/* The exit status: 0 if all slips are noticed. */
int try_slips(void) {
    int noticed = 1;
    for (size_t i = 0; i < sizeof slips / sizeof *slips; i++)
        noticed = is_noticed(&slips[i]) && noticed;
    return noticed ? 0 : WRONG;
}
