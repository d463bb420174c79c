/* The yardstick of the run: the paper's machine over the table that reading
   leaves, tuned by hand and without any check. The position is kept in
   registers: next instruction, end of the code, the frame's slots and its
   next free slot. A method's body and a field's place are found by one read
   at the object's form and the name. */

#include <stdint.h>

enum { STORE = 256, STACK = 64, SLOTS = 44, NO_VALUE = 65535 };
enum { DONE, SPENT, STORE_FULL, STACK_FULL };
enum { NEW, CALL, GET, PUT, COPY };

/* A line of the sheet: its operation's code, how many numbers it has, and nine. */
typedef struct {
    uint16_t operation, count, n[9];
} Line;

/* A method's body, or the kept value that a field starts as. */
typedef struct {
    uint16_t is_body, first, count;
} Part;

typedef struct {
    uint16_t row, kept_count, part_count, keeps[8];
    Part parts[8];
} Form;

/* A sheet that was read and accepted; places are by form and name. */
typedef struct {
    const Line *lines;
    const Form *forms;
    const uint16_t *places;
    uint32_t main_first, main_count;
} Table;

typedef struct {
    uint32_t outcome, steps, value, objects;
} Answer;

typedef struct {
    uint16_t form, kept[8], fields[8];
} Object;

typedef struct {
    const Line *next, *end;
    uint16_t *slots, *free;
    Object *own;
} Saved;

static Object store[STORE];
static uint16_t slots_of_frames[STACK * SLOTS];
static Saved stack[STACK];

static void make(const Table *t, const Line *line, Object *o, const uint16_t *slots) {
    const Form *form = t->forms + line->n[0];
    o->form = line->n[0];
    for (unsigned i = 0; i < form->kept_count; i++) o->kept[i] = slots[line->n[1 + i]];
    uint16_t *field = o->fields;
    for (unsigned j = 0; j < form->part_count; j++)
        if (!form->parts[j].is_body) *field++ = o->kept[form->parts[j].first];
}

Answer plain_run(const Table *t, uint32_t budget) {
    uint32_t steps = 0, objects = 0, depth = 0;
    const Line *next = t->lines + t->main_first, *end = next + t->main_count;
    uint16_t *slots = slots_of_frames, *free = slots;
    Object *own = store;
    for (;;) {
        if (next == end) {
            if (depth == 0) return (Answer){DONE, steps, free[-1], objects};
            if (steps == budget) return (Answer){SPENT, steps, NO_VALUE, objects};
            uint16_t value = free[-1];
            const Saved *s = &stack[--depth];
            next = s->next, end = s->end, slots = s->slots, free = s->free, own = s->own;
            *free++ = value;
            steps++;
            continue;
        }
        if (steps == budget) return (Answer){SPENT, steps, NO_VALUE, objects};
        switch (next->operation) {
        case NEW:
            if (objects == STORE) return (Answer){STORE_FULL, steps, NO_VALUE, objects};
            make(t, next, store + objects, slots);
            *free++ = objects++;
            break;
        case CALL: {
            if (depth == STACK - 1) return (Answer){STACK_FULL, steps, NO_VALUE, objects};
            uint16_t receiver = slots[next->n[0]], argument = slots[next->n[2]];
            Object *o = store + receiver;
            const Form *form = t->forms + o->form;
            const Part *body = form->parts + t->places[64 * o->form + next->n[1]];
            stack[depth++] = (Saved){next + 1, end, slots, free, own};
            slots += SLOTS;
            slots[0] = receiver, slots[1] = argument, free = slots + 2;
            for (unsigned i = 0; i < form->kept_count; i++) *free++ = o->kept[i];
            own = o;
            next = t->lines + body->first, end = next + body->count;
            steps++;
            continue;
        }
        case GET:
            *free++ = own->fields[t->places[64 * own->form + next->n[0]]];
            break;
        case PUT:
            *free++ = own->fields[t->places[64 * own->form + next->n[0]]] = slots[next->n[1]];
            break;
        default:
            *free++ = slots[next->n[0]];
        }
        next++;
        steps++;
    }
}
