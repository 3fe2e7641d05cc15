/* Whether a model is nested, by a search for derivations of document 02's twelfth request: from single edges upwards, every sequence and every block that its
   words make of a pool, each with the elements that it is made of, until there is no new one. */
#include "layout.h"
#include <stdlib.h>

/* from an edge to an edge over some elements of the pool, each once; a pool has not nearly as many */
struct stretch { uint8_t from, to; uint32_t over; };
enum { STRETCHES = 16384, PIECES = 1024 };

struct search {
    const word *pool;
    struct stretch sequences[STRETCHES], pieces[PIECES];
    unsigned sequence_count, piece_count;
};

static bool added(struct stretch *list, unsigned *count, unsigned most, struct stretch x) {
    for (unsigned k = 0; k < *count; k++)
        if (list[k].from == x.from && list[k].to == x.to && list[k].over == x.over) return false;
    if (*count == most) abort();
    list[(*count)++] = x;
    return true;
}

static bool new_sequence(struct search *s, struct stretch x) { return added(s->sequences, &s->sequence_count, STRETCHES, x); }
static bool new_piece(struct search *s, struct stretch x) { return added(s->pieces, &s->piece_count, PIECES, x); }

static bool passes(unsigned kind) { return kind == INTER_RCV || kind == INTER_SND || kind == TASK || kind == TASK_RCV || kind == TASK_SND; }
static bool closes(unsigned split, unsigned join) { return split == AND_SPLIT ? join == AND_JOIN : (split == XOR_SPLIT || split == EVENT_BASED) && join == XOR_JOIN; }

/* nothing, from an edge to itself; an element with one entry and one exit */
static void begin(struct search *s) {
    for (unsigned e = 1; e <= EDGES; e++) new_sequence(s, (struct stretch){e, e, 0});
    for (unsigned k = 0; k < s->pool[POOL_COUNT]; k++) {
        const word *el = element_at(s->pool, k);
        if (passes(el[KIND])) new_piece(s, (struct stretch){el[ENTRIES + 1], el[EXITS + 1], 1u << k});
    }
}

/* a piece, and then a sequence from where it ends */
static bool sequences_grow(struct search *s) {
    bool any = false;
    for (unsigned p = 0; p < s->piece_count; p++)
        for (unsigned q = 0; q < s->sequence_count; q++) {
            struct stretch first = s->pieces[p], rest = s->sequences[q];
            if (first.to != rest.from || (first.over & rest.over)) continue;
            any |= new_sequence(s, (struct stretch){first.from, rest.to, first.over | rest.over});
        }
    return any;
}

/* A block: the exits of the split from a branch on have sequences to entries of the join that no branch before has, over other elements. */
static bool branches_close(struct search *s, const word *split, const word *join, unsigned branch, unsigned reached, uint32_t over) {
    bool any = false;
    if (branch == split[EXITS]) return new_piece(s, (struct stretch){split[ENTRIES + 1], join[EXITS + 1], over});
    for (unsigned q = 0; q < s->sequence_count; q++) {
        struct stretch x = s->sequences[q];
        if (x.from != split[EXITS + 1 + branch] || (x.over & over)) continue;
        for (unsigned j = 0; j < join[ENTRIES]; j++)
            if (x.to == join[ENTRIES + 1 + j] && !(reached >> j & 1)) any |= branches_close(s, split, join, branch + 1, reached | 1u << j, over | x.over);
    }
    return any;
}

static bool blocks_grow(struct search *s) {
    bool any = false;
    for (unsigned a = 0; a < s->pool[POOL_COUNT]; a++)
        for (unsigned b = 0; b < s->pool[POOL_COUNT]; b++) {
            const word *split = element_at(s->pool, a), *join = element_at(s->pool, b);
            if (!closes(split[KIND], join[KIND]) || split[EXITS] != join[ENTRIES]) continue;
            any |= branches_close(s, split, join, 0, 0, 1u << a | 1u << b);
        }
    return any;
}

/* a start, a sequence from its exit, an end at its last edge, and no element left over */
static bool is_arranged(const struct search *s, unsigned first, unsigned last) {
    unsigned n = s->pool[POOL_COUNT];
    uint32_t all = n == ELEMENTS ? UINT32_MAX : (1u << n) - 1;
    const word *start = element_at(s->pool, first), *end = element_at(s->pool, last);
    if ((start[KIND] != START && start[KIND] != START_RCV) || end[KIND] != END) return false;
    for (unsigned q = 0; q < s->sequence_count; q++) {
        struct stretch x = s->sequences[q];
        uint32_t ends = 1u << first | 1u << last;
        if (x.from == start[EXITS + 1] && x.to == end[ENTRIES + 1] && !(x.over & ends) && (x.over | ends) == all) return true;
    }
    return false;
}

bool is_nested(const word *pool) {
    static struct search s;
    s.pool = pool, s.sequence_count = s.piece_count = 0;
    begin(&s);
    while (sequences_grow(&s) | blocks_grow(&s)) {}
    for (unsigned a = 0; a < pool[POOL_COUNT]; a++)
        for (unsigned b = 0; b < pool[POOL_COUNT]; b++)
            if (is_arranged(&s, a, b)) return true;
    return false;
}

ref_verdict ref_nested(const word *t) {
    if (!valid(t)) return (ref_verdict){10, 0};
    for (unsigned p = 0; p < t[0]; p++)
        if (!is_nested(pool_at(t, p))) return (ref_verdict){29, pool_at(t, p)[0]};
    return (ref_verdict){0, 0};
}
