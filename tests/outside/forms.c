/* The fifteen elements as document 01 writes them. What a kind has is read from its form, and what a step of it does from the document's sentences: no table of
   either stands here. */
#include "layout.h"

/* in the order of their numbers in a table; e an entry, f an exit, E a list of the one or the other, m:T a template, m:X a message, n a task number, k its mode,
   C a condition, A assignments; `..` says that the item before it goes on */
static const char *const forms[KINDS] = {
    [START] = "start(e,f)",
    [START_RCV] = "startRcv(m:T,f)",
    [END] = "end(e)",
    [TERMINATE] = "terminate(e)",
    [END_SND] = "endSnd(e,m:X)",
    [INTER_RCV] = "interRcv(e,m:T,f)",
    [INTER_SND] = "interSnd(e,m:X,f)",
    [EVENT_BASED] = "eventBased(e,(m:T,f),..)",
    [AND_SPLIT] = "andSplit(e,E)",
    [AND_JOIN] = "andJoin(E,f)",
    [XOR_JOIN] = "xorJoin(E,f)",
    [XOR_SPLIT] = "xorSplit(e,{(f,C),..})",
    [TASK] = "task(e,n,k,C,A,f)",
    [TASK_RCV] = "taskRcv(e,n,k,C,A,m:T,f)",
    [TASK_SND] = "taskSnd(e,n,k,C,A,m:X,f)",
};

struct kind kinds[KINDS];
static struct move moves[KINDS][NA_NC + 1][PHASES];

/* how often a part stands in an element: in an item that goes on, once for each branch */
static uint8_t times(const struct kind *k, char part) {
    const char *at = strchr(k->body, part), *item = strchr(k->body, '(');
    return !at ? NONE : item && at > item ? MANY : ONE;
}

static void read_form(struct kind *k, const char *form) {
    const char *bracket = strchr(form, '(');
    k->length = bracket - form;
    memcpy(k->keyword, form, k->length);
    memcpy(k->body, bracket + 1, strlen(bracket) - 2);
    k->end = k->body + strlen(k->body);
    const char *list = strchr(k->body, 'E'); /* the first part of a join, the last one of a split */
    k->entries = list == k->body ? MANY : times(k, 'e');
    k->exits = list && list != k->body ? MANY : times(k, 'f');
    k->task = times(k, 'n'), k->conditions = times(k, 'C'), k->receives = times(k, 'T'), k->sends = times(k, 'X');
}

/* one token of each entry or exit; of a list all for andJoin and andSplit, the branch's for the others */
static uint8_t tokens(unsigned kind, uint8_t column) {
    return column == NONE ? 0 : column == ONE || kind == AND_SPLIT || kind == AND_JOIN ? EVERY : BRANCH;
}

/* the one step of an element that is no na task */
static struct move whole_move(unsigned kind, const struct kind *k) {
    return (struct move){.there = true, .takes = tokens(kind, k->entries), .puts = tokens(kind, k->exits), .asks = k->conditions != NONE, .receives = k->receives != NONE,
                         .assigns = k->task != NONE, .sends = k->sends != NONE, .makes = kind == START_RCV, .clears = kind == TERMINATE};
}

/* Phase 1 takes the token under a true guard, active +1. Phase 2, of a task that receives or sends: consume and bind, or assign; active -1, ready +1. Phase 3: the
   last count -1; assign, or send where it was assigned before; put the token. */
static struct move phase_move(unsigned kind, const struct kind *k, unsigned phase) {
    bool receives = k->receives != NONE, sends = k->sends != NONE, between = receives || sends;
    switch (phase) {
    case 1: return (struct move){.there = true, .takes = tokens(kind, k->entries), .asks = true, .active = UP, .alone = true};
    case 2: return between ? (struct move){.there = true, .receives = receives, .assigns = sends, .active = DOWN, .ready = UP} : (struct move){0};
    case 3: return (struct move){.there = true, .puts = tokens(kind, k->exits), .assigns = !sends, .sends = sends, .active = between ? 0 : DOWN, .ready = between ? DOWN : 0};
    default: return (struct move){0};
    }
}

/* before main */
static __attribute__((constructor)) void read_forms(void) {
    for (unsigned kind = 1; kind < KINDS; kind++) {
        read_form(&kinds[kind], forms[kind]);
        bool task = kinds[kind].task != NONE;
        moves[kind][task ? ATOMIC : 0][0] = whole_move(kind, &kinds[kind]);
        for (unsigned mode = NA_C; task && mode <= NA_NC; mode++)
            for (unsigned phase = 0; phase < PHASES; phase++) moves[kind][mode][phase] = phase_move(kind, &kinds[kind], phase);
    }
}

const struct move *move_of(const word *el, unsigned phase) {
    static const struct move none;
    return phase < PHASES ? &moves[el[KIND]][el[MODE]][phase] : &none;
}
