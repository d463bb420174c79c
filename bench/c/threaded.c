/* How far C goes when the sheet is first turned into threaded code, which
   the library does not do: the paper's machine, tuned by hand and without any
   check. It is given units of code whose slots, fields and handlers are
   settled; what is left to find in the run is the body of a call, by one read
   at the receiver's form and the method's name.

   Each handler ends by jumping to the next unit's, with the state in its
   arguments, which stay in registers; -O3 makes jumps of these calls. An
   object number in a slot is kept as the object's distance in bytes from the
   store's start. A frame's slots begin at the slot that the caller's call
   will fill, so that a return writes its value at the own first slot. */

#include <stdint.h>
#include <string.h>

enum { STORE = 256, STACK = 64, SLOTS = 2 + 8 + 32, NO_VALUE = 65535 };
enum { DONE, SPENT, STORE_FULL, STACK_FULL };

typedef struct Unit Unit;
typedef const Unit *const *Bodies;

/* What a `new` makes: the place of its form's bodies, and the slots that its
   kept values and its fields come from. */
typedef struct {
    uint16_t bodies, kept_count, field_count;
    uint16_t kept[8], fields[8];
} Creation;

/* A run that is asked for; bodies are found by form and name. */
typedef struct {
    const Unit *main;
    const Creation *creations;
    Bodies bodies;
    uint32_t budget;
} Asked;

typedef struct {
    uint32_t outcome, steps, value, objects;
} Answer;

/* As long as a line of the cache. */
typedef struct {
    Bodies bodies;
    uint16_t spare[4], kept[8], fields[8], more[8];
} Object;

/* What a call saves of its caller. */
typedef struct {
    const Unit *next;
    uint16_t *slots;
} Saved;

/* The next unit, the frame's slots, the place for the next saved frame, the
   steps left of the budget, the place for the next object, the own object
   (in main any object). */
#define STATE const Unit *at, uint16_t *slots, Saved *top, uint32_t left, Object *made, Object *own
#define NEXT return at->handler(at, slots, top, left, made, own)

/* One instruction, or the end of a body: its handler, the slot that it
   fills, and its numbers. */
struct Unit {
    Answer (*handler)(STATE);
    uint16_t fills, a, b, c;
};

static _Alignas(64) Object store[STORE];
static uint16_t slots_of_frames[STACK * SLOTS + 8];
static Saved stack[STACK - 1];
static const Asked *asked;

static Object *object_at(uint16_t distance) {
    return (Object *)((char *)store + distance);
}

static Answer stopped(uint32_t outcome, uint32_t left, const Object *made) {
    return (Answer){outcome, asked->budget - left, NO_VALUE, (uint32_t)(made - store)};
}

/* Asks the budget, before the store and the stack are asked, and takes the
   step off it. */
#define TAKE_STEP if (__builtin_sub_overflow(left, 1, &left)) return stopped(SPENT, 0, made)

static Answer create(STATE) {
    TAKE_STEP;
    if (made == store + STORE) return stopped(STORE_FULL, left + 1, made);
    const Creation *creation = asked->creations + at->a;
    made->bodies = asked->bodies + creation->bodies;
    for (unsigned i = 0; i < creation->kept_count; i++) made->kept[i] = slots[creation->kept[i]];
    for (unsigned i = 0; i < creation->field_count; i++) made->fields[i] = slots[creation->fields[i]];
    slots[at->fills] = (uint16_t)((char *)made - (char *)store);
    made++;
    at++;
    NEXT;
}

static Answer call(STATE) {
    TAKE_STEP;
    if (top == stack + STACK - 1) return stopped(STACK_FULL, left + 1, made);
    uint16_t receiver = slots[at->a], argument = slots[at->c];
    *top++ = (Saved){at + 1, slots};
    own = object_at(receiver);
    slots += at->fills;
    slots[0] = receiver;
    slots[1] = argument;
    /* All eight places are copied; those beyond the kept values are filled
       before they are read. */
    memcpy(slots + 2, own->kept, sizeof own->kept);
    at = own->bodies[at->b];
    NEXT;
}

static Answer get(STATE) {
    TAKE_STEP;
    slots[at->fills] = own->fields[at->a];
    at++;
    NEXT;
}

static Answer put(STATE) {
    TAKE_STEP;
    uint16_t set = slots[at->b];
    own->fields[at->a] = set;
    slots[at->fills] = set;
    at++;
    NEXT;
}

static Answer copy(STATE) {
    TAKE_STEP;
    slots[at->fills] = slots[at->a];
    at++;
    NEXT;
}

static Answer give_back(STATE) {
    TAKE_STEP;
    slots[0] = slots[at->a];
    top--;
    at = top->next;
    slots = top->slots;
    own = object_at(slots[0]);
    NEXT;
}

static Answer finish(STATE) {
    (void)top;
    (void)own;
    Answer answer = stopped(DONE, left, made);
    answer.value = slots[at->a] / sizeof(Object);
    return answer;
}

/* In the order of `Handler` in `src/threaded.rs`. */
Answer (*const threaded_handlers[])(STATE) = {create, call, get, put, copy, give_back, finish};

Answer threaded_run(const Asked *given) {
    asked = given;
    const Unit *main = given->main;
    return main->handler(main, slots_of_frames, stack, given->budget, store, store);
}
