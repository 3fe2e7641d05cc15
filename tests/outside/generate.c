#include "generate.h"
#include <stdio.h>
#include <stdlib.h>

uint32_t draw(struct random *r, uint32_t below) {
    uint64_t z = (r->seed += 0x9e3779b97f4a7c15ull);
    z = (z ^ (z >> 30)) * 0xbf58476d1ce4e5b9ull;
    z = (z ^ (z >> 27)) * 0x94d049bb133111ebull;
    return (uint32_t)((z ^ (z >> 31)) >> 32) % below;
}

bool chance(struct random *r, unsigned percent) { return draw(r, 100) < percent; }

word any_word(struct random *r) { return draw(r, 65536) << 16 | draw(r, 65536); }

word some_end(struct random *r) {
    static const word ends[] = {4294967295, 4294967294, 65535, 65536, 65534, 2147483648, 2147483647, 255, 1234567};
    return chance(r, 60) ? ends[draw(r, sizeof ends / sizeof *ends)] : (1 + draw(r, 65535)) << 16 | draw(r, 4);
}

word some_version(struct random *r) {
    static const word others[] = {0, 1, 15, 19, 21, 100, 200, 11, 9, 65546, 65556, 4294967295};
    return chance(r, 48) ? REF_VERSION_10 : chance(r, 92) ? REF_VERSION_20 : chance(r, 80) ? others[draw(r, sizeof others / sizeof *others)] : any_word(r);
}

/* The last model made, pool by pool: the edges it mentions, its elements, where its ends would stand, and where each endSnd and its closing bracket do. */
static struct { uint64_t edges; unsigned elements, sends; size_t behind, word[ELEMENTS], close[ELEMENTS]; } made[POOLS];
static unsigned pools_made;

/* A pool under construction: edges still to be taken, edges still to be put, numbers still free. */
struct draft {
    struct random *r;
    char *text, *o;
    unsigned pool, pools, elements;
    unsigned open[EDGES], opens, wanted[EDGES], wants;
    unsigned free[EDGES], frees, task, stores; /* stores: how many of a hundred fields are */
    bool easy;                                 /* most conditions are true, most operands numbers */
};

static void print(struct draft *d, const char *s) { d->o += sprintf(d->o, "%s", s); }
static void print_number(struct draft *d, unsigned v) { d->o += sprintf(d->o, "%u", v); }

static unsigned take_from(struct draft *d, unsigned *list, unsigned *n) {
    unsigned k = draw(d->r, *n), e = list[k];
    list[k] = list[--*n];
    return e;
}

static unsigned new_edge(struct draft *d) {
    unsigned e = take_from(d, d->free, &d->frees);
    made[d->pool].edges |= UINT64_C(1) << e;
    return e;
}

/* an edge that this element puts: one that is wanted, or a new one, open from now on */
static unsigned exit_edge(struct draft *d) {
    if (d->wants && chance(d->r, 40)) return take_from(d, d->wanted, &d->wants);
    return d->open[d->opens++] = new_edge(d);
}

static word some_value(struct draft *d) { return chance(d->r, 8) ? some_end(d->r) : draw(d->r, 4); }

/* mostly one of few; a store now and then */
static unsigned some_field(struct draft *d) { return (chance(d->r, 5) ? draw(d->r, FIELDS) : draw(d->r, 4)) + (chance(d->r, d->stores) ? FIELDS : 0); }

static void print_field(struct draft *d, unsigned f) { print(d, f < FIELDS ? "d" : "s"), print_number(d, f % FIELDS); }

static void operand(struct draft *d) {
    if (chance(d->r, d->easy ? 85 : 50)) print_number(d, some_value(d));
    else print_field(d, some_field(d));
}

/* sums and differences at the ends */
static void sum(struct draft *d) {
    static const char *const sums[] = {"4294967295+0", "4294967295+1", "1+4294967295", "4294967294+1", "2147483648+2147483648", "4294967295+4294967295", "65535+1", "65535+65535",
                                       "65536-1", "0-1", "65536-65537", "4294967295-4294967295", "4294967294-4294967295", "d0+4294967295", "d1+65535", "d0+65536",
                                       "d1-65536", "65536-d0", "4294967295-d1", "d2+4294967294", "s0+4294967295", "s1-65536", "4294967295-s0", "s0+s1", "s1-d1", "d0-s0"};
    print(d, sums[draw(d->r, sizeof sums / sizeof *sums)]);
}

static void expression(struct draft *d) {
    if (chance(d->r, 3)) {
        sum(d);
        return;
    }
    operand(d);
    if (chance(d->r, 25)) print(d, chance(d->r, 50) ? "+" : "-"), operand(d);
}

static void condition(struct draft *d) {
    if (chance(d->r, d->easy ? 80 : 30)) {
        print(d, "true");
        return;
    }
    operand(d);
    print(d, chance(d->r, 50) ? "=" : "<");
    operand(d);
}

/* names are received in the pool of their number; those above 11 nobody receives */
static unsigned receive_name(struct draft *d) { return d->pool + d->pools * draw(d->r, 12 / d->pools); }

static unsigned send_name(struct draft *d) {
    for (;;) {
        unsigned m = draw(d->r, chance(d->r, 80) ? 4 : NAMES);
        if (m >= 12 / d->pools * d->pools || m % d->pools != d->pool) return m;
        if (d->pools == 1) return 12 + draw(d->r, 4);
    }
}

static void message(struct draft *d, bool receives) {
    unsigned n = draw(d->r, chance(d->r, 65) ? 3 : 5), bound = 0;
    print_number(d, receives ? receive_name(d) : send_name(d));
    print(d, ":<");
    for (unsigned j = 0; j < n; j++) {
        unsigned f = some_field(d);
        if (j) print(d, ",");
        /* a long template binds most of its items, so that messages meet it */
        while (n > 2 && bound >> f & 1) f = (f + 1) % ALL_FIELDS;
        if (receives && chance(d->r, n > 2 ? 85 : 60) && !(bound >> f & 1)) {
            bound |= 1u << f;
            print(d, "?"), print_field(d, f);
        } else expression(d);
    }
    print(d, ">");
}

static void begin(struct draft *d, const char *keyword) {
    if (d->elements++) print(d, "|");
    print(d, keyword), print(d, "(");
}

static void task_between(struct draft *d, unsigned e, unsigned f) {
    static const char *const words[] = {"task", "taskRcv", "taskSnd"}, *const modes[] = {",a,", ",na_c,", ",na_nc,"};
    unsigned which = draw(d->r, 3), n = draw(d->r, chance(d->r, 80) ? 3 : 5);
    begin(d, words[which]);
    print_number(d, e), print(d, ","), print_number(d, ++d->task), print(d, modes[draw(d->r, 3)]);
    condition(d);
    print(d, ",{");
    for (unsigned j = 0; j < n; j++) print(d, j ? "," : ""), print_field(d, some_field(d)), print(d, ":="), expression(d);
    print(d, "},");
    if (which) message(d, which == 1), print(d, ",");
    print_number(d, f), print(d, ")");
}

static void event_between(struct draft *d, unsigned e, unsigned f) {
    bool receives = chance(d->r, 50);
    begin(d, receives ? "interRcv" : "interSnd");
    print_number(d, e), print(d, ","), message(d, receives), print(d, ",");
    print_number(d, f), print(d, ")");
}

static void print_list(struct draft *d, const unsigned *edges, unsigned n) {
    for (unsigned j = 0; j < n; j++) print(d, j ? "," : "{"), print_number(d, edges[j]);
    print(d, "}");
}

static void split_into(struct draft *d, unsigned kind, unsigned e, const unsigned *exits, unsigned n) {
    unsigned fallback = draw(d->r, n + 1);
    begin(d, kinds[kind].keyword);
    print_number(d, e), print(d, ",");
    if (kind == AND_SPLIT) print_list(d, exits, n);
    for (unsigned b = 0; b < n && kind != AND_SPLIT; b++) {
        print(d, b ? ",(" : kind == XOR_SPLIT ? "{(" : "(");
        if (kind == EVENT_BASED) message(d, true), print(d, ",");
        print_number(d, exits[b]);
        if (kind == XOR_SPLIT) print(d, ","), b == fallback ? print(d, "default") : condition(d);
        print(d, ")");
    }
    print(d, kind == XOR_SPLIT ? "})" : ")");
}

static void join_from(struct draft *d, unsigned kind, const unsigned *entries, unsigned n, unsigned f) {
    begin(d, kinds[kind].keyword);
    print_list(d, entries, n), print(d, ","), print_number(d, f), print(d, ")");
}

static void end_at(struct draft *d, unsigned kind, unsigned e) {
    begin(d, kinds[kind].keyword);
    if (kind == END_SND) made[d->pool].word[made[d->pool].sends] = d->o - d->text - strlen("endSnd(");
    print_number(d, e);
    if (kind == END_SND) {
        print(d, ","), message(d, false);
        made[d->pool].close[made[d->pool].sends++] = d->o - d->text;
    }
    print(d, ")");
}

/* two tokens to one task: the second meets the first one's counts */
static void doubled_task(struct draft *d, unsigned e) {
    unsigned both[] = {new_edge(d), new_edge(d)}, h = new_edge(d);
    split_into(d, AND_SPLIT, e, both, 2);
    join_from(d, XOR_JOIN, both, 2, h);
    task_between(d, h, exit_edge(d));
}

static void split(struct draft *d, unsigned e) {
    static const unsigned splits[] = {EVENT_BASED, AND_SPLIT, XOR_SPLIT};
    unsigned kind = splits[draw(d->r, 3)], n = 2 + (chance(d->r, 80) ? draw(d->r, 2) : draw(d->r, 7)), exits[BRANCHES];
    if (n > d->frees) n = 2;
    for (unsigned b = 0; b < n; b++) exits[b] = exit_edge(d);
    split_into(d, kind, e, exits, n);
}

static void join(struct draft *d) {
    unsigned n = 2 + draw(d->r, d->opens > 2 ? d->opens - 1 : 1), have = d->opens, entries[BRANCHES];
    bool loop = have < 2 || chance(d->r, 30);
    if (n > BRANCHES) n = BRANCHES;
    if (n > have + loop) n = have + loop;
    if (n < 2) n = 2;
    for (unsigned j = 0; j < n; j++) entries[j] = loop && j == n - 1 ? (d->wanted[d->wants++] = new_edge(d)) : take_from(d, d->open, &d->opens);
    join_from(d, loop || chance(d->r, 50) ? XOR_JOIN : AND_JOIN, entries, n, exit_edge(d));
}

static void close_edge(struct draft *d) {
    unsigned which = draw(d->r, 10);
    end_at(d, which < 6 ? END : which < 8 ? END_SND : TERMINATE, take_from(d, d->open, &d->opens));
}

static void grow(struct draft *d) {
    unsigned which = draw(d->r, 10);
    if (which < 3 || (d->opens >= 2 && which < 5)) join(d);
    else {
        unsigned e = take_from(d, d->open, &d->opens);
        if (which < 6) split(d, e);
        else if (which < 8 && d->task < TASKS) chance(d->r, 20) ? doubled_task(d, e) : task_between(d, e, exit_edge(d));
        else event_between(d, e, exit_edge(d));
    }
}

static void fan_out(struct draft *d, unsigned n) {
    unsigned e = take_from(d, d->open, &d->opens), exits[BRANCHES];
    for (unsigned k = 0; k < n; k++) exits[k] = d->open[d->opens++] = new_edge(d);
    split_into(d, AND_SPLIT, e, exits, n);
}

/* about as many elements or edges as there may be, with some ends left to close */
static void fill_process(struct draft *d) {
    unsigned elements = 29 + draw(d->r, 4), spare = draw(d->r, 4), ends = 1 + draw(d->r, 5), behind = ends > 1 ? ends : 0;
    while (d->frees > spare + behind + 9 && d->elements + 3 + ends < elements && chance(d->r, 85)) {
        unsigned n = 2 + draw(d->r, 7), entries[BRANCHES];
        fan_out(d, n);
        for (unsigned k = 0; k < n; k++) entries[k] = take_from(d, d->open, &d->opens);
        join_from(d, chance(d->r, 50) ? AND_JOIN : XOR_JOIN, entries, n, d->open[d->opens++] = new_edge(d));
    }
    while (d->frees > spare + behind && d->elements + (ends > 1) + ends < elements) {
        unsigned e = take_from(d, d->open, &d->opens);
        event_between(d, e, d->open[d->opens++] = new_edge(d));
    }
    if (ends > 1) fan_out(d, ends);
}

static void process(struct draft *d, bool many) {
    unsigned size = draw(d->r, chance(d->r, 80) ? 6 : 20);
    bool full = chance(d->r, 4);
    memset(&made[d->pool], 0, sizeof *made);
    d->elements = d->opens = d->wants = d->task = 0;
    d->frees = EDGES;
    for (unsigned e = 0; e < EDGES; e++) d->free[e] = e + 1;
    if (!full && !chance(d->r, 30)) /* mostly the low numbers */
        d->frees = 40;
    if (many || chance(d->r, 40)) {
        begin(d, "startRcv");
        message(d, true), print(d, ",");
    } else {
        begin(d, "start");
        print_number(d, new_edge(d)), print(d, ",");
    }
    print_number(d, d->open[d->opens++] = new_edge(d));
    print(d, ")");
    if (full) fill_process(d), size = 0;
    while (size-- && d->opens && d->opens < 10 && d->elements + d->opens + d->wants < 26 && d->frees > 12) grow(d);
    while (d->wants) {
        unsigned w = take_from(d, d->wanted, &d->wants);
        if (!d->opens) { /* nothing is open: a circle that cannot be reached puts it */
            unsigned e = new_edge(d), f = new_edge(d);
            begin(d, "andSplit");
            print_number(d, e), print(d, ",{"), print_number(d, w), print(d, ","), print_number(d, f), print(d, "})");
            begin(d, "interSnd");
            print_number(d, f), print(d, ","), message(d, false), print(d, ","), print_number(d, e), print(d, ")");
            continue;
        }
        unsigned e = take_from(d, d->open, &d->opens);
        begin(d, "xorSplit");
        print_number(d, e), print(d, ",{("), print_number(d, w), print(d, ","), condition(d), print(d, "),(");
        print_number(d, d->open[d->opens++] = new_edge(d)), print(d, ",default)})");
    }
    while (d->opens) close_edge(d);
    made[d->pool].elements = d->elements;
    made[d->pool].behind = d->o - d->text;
}

/* NESTINGS. A pool's elements before they are written. */
struct node { unsigned kind, in[BRANCHES], ins, out[BRANCHES], outs; };
struct nest { struct draft *d; struct node nodes[ELEMENTS + 1]; unsigned count; };

static struct node *new_node(struct nest *g, unsigned kind) {
    g->nodes[g->count] = (struct node){.kind = kind};
    return &g->nodes[g->count++];
}

static unsigned sequence(struct nest *g, unsigned from, unsigned depth);

/* branches from a split to its join, whose entries stand in any order */
static unsigned block(struct nest *g, unsigned from, unsigned depth) {
    static const unsigned splits[] = {AND_SPLIT, XOR_SPLIT, EVENT_BASED};
    unsigned n = 2 + (chance(g->d->r, 80) ? draw(g->d->r, 2) : draw(g->d->r, 7)), kind = splits[draw(g->d->r, 3)];
    if (n + 1 > g->d->frees) n = 2;
    unsigned s = g->count, j = s + 1, to = new_edge(g->d);
    new_node(g, kind), new_node(g, kind == AND_SPLIT ? AND_JOIN : XOR_JOIN);
    g->nodes[s].in[g->nodes[s].ins++] = from;
    g->nodes[j].out[g->nodes[j].outs++] = to;
    for (unsigned b = 0; b < n; b++) g->nodes[s].out[g->nodes[s].outs++] = new_edge(g->d);
    for (unsigned b = 0; b < n; b++) {
        unsigned at = draw(g->d->r, b + 1), end = sequence(g, g->nodes[s].out[b], depth);
        g->nodes[j].in[g->nodes[j].ins++] = g->nodes[j].in[at], g->nodes[j].in[at] = end;
    }
    return to;
}

/* pieces one behind the other, or nothing: the edge at which it ends; room for an end and its send is left */
static unsigned sequence(struct nest *g, unsigned from, unsigned depth) {
    struct random *r = g->d->r;
    for (unsigned n = draw(r, depth ? 4 : 3); n && g->count + 4 < ELEMENTS && g->d->frees > 4; n--) {
        if (depth && g->count + 5 < ELEMENTS && g->d->frees > 6 && chance(r, 45)) {
            from = block(g, from, depth - 1);
            continue;
        }
        struct node *x = new_node(g, g->d->task < TASKS - 4 && chance(r, 60) ? TASK : INTER_SND);
        x->in[x->ins++] = from, x->out[x->outs++] = from = new_edge(g->d);
        g->d->task += x->kind == TASK;
    }
    return from;
}

static struct node *some_node(struct nest *g, bool (*is)(const struct node *)) {
    for (unsigned tries = 0, k; tries < 60; tries++)
        if (is(&g->nodes[k = draw(g->d->r, g->count)])) return &g->nodes[k];
    return NULL;
}

static bool is_split(const struct node *x) { return x->outs > 1; }
static bool is_join(const struct node *x) { return x->ins > 1; }
static bool is_gateway(const struct node *x) { return is_split(x) || is_join(x); }
static bool is_pass(const struct node *x) { return x->kind == TASK || x->kind == INTER_SND; }
static bool is_entered(const struct node *x) { return x->ins && x->kind != START; }
static bool is_left(const struct node *x) { return x->outs; }
static bool is_end(const struct node *x) { return x->kind == END; }

/* a gateway of another kind: an event gateway is an exclusive split to the nesting */
static int other_kind(struct nest *g) {
    struct node *x = some_node(g, is_gateway);
    if (!x) return 0;
    unsigned was = x->kind;
    static const unsigned splits[] = {AND_SPLIT, XOR_SPLIT, EVENT_BASED};
    x->kind = is_split(x) ? splits[draw(g->d->r, 3)] : was == AND_JOIN ? XOR_JOIN : AND_JOIN;
    return (was == AND_SPLIT) == (x->kind == AND_SPLIT) && is_split(x) ? 0 : 29;
}

/* two entries, or two exits, exchanged */
static int crossed(struct nest *g, bool entries) {
    struct node *x = some_node(g, entries ? is_entered : is_left), *y = some_node(g, entries ? is_entered : is_left);
    if (!x || !y) return 0;
    unsigned *a = entries ? &x->in[draw(g->d->r, x->ins)] : &x->out[draw(g->d->r, x->outs)], *b = entries ? &y->in[draw(g->d->r, y->ins)] : &y->out[draw(g->d->r, y->outs)], e = *a;
    *a = *b, *b = e;
    return a == b ? 0 : -1;
}

/* a branch of one split goes to another, or an entry of one join */
static int moved(struct nest *g, bool entries) {
    struct node *x = some_node(g, entries ? is_join : is_split), *y = some_node(g, entries ? is_join : is_split);
    if (!x || !y || x == y || (entries ? x->ins : x->outs) <= FEWEST || (entries ? y->ins : y->outs) == BRANCHES) return 0;
    if (entries) y->in[y->ins++] = x->in[--x->ins];
    else y->out[y->outs++] = x->out[--x->outs];
    return 29;
}

/* something that nothing leads to: a circle of one element, or of two */
static int left_over(struct nest *g) {
    if (g->count + 2 > ELEMENTS || g->d->frees < 3) return 0;
    unsigned e = new_edge(g->d), both[] = {new_edge(g->d), e};
    struct node *x = new_node(g, INTER_SND);
    x->in[x->ins++] = x->out[x->outs++] = e;
    if (chance(g->d->r, 50)) return made[g->d->pool].edges &= ~(UINT64_C(1) << both[0]), 29;
    bool whole = chance(g->d->r, 50);
    *x = (struct node){.kind = AND_SPLIT, .in = {new_edge(g->d)}, .ins = 1, .out = {both[0], both[1]}, .outs = 2};
    *new_node(g, whole ? AND_JOIN : XOR_JOIN) = (struct node){.kind = whole ? AND_JOIN : XOR_JOIN, .in = {both[0], both[1]}, .ins = 2, .out = {x->in[0]}, .outs = 1};
    return 29;
}

/* the end is another one, or a branch has one of its own */
static int other_end(struct nest *g) {
    struct node *x = some_node(g, chance(g->d->r, 50) ? is_end : is_split);
    if (!x || x->outs == BRANCHES || g->count == ELEMENTS || !g->d->frees) return 0;
    if (is_end(x)) return x->kind = TERMINATE, 29;
    unsigned e = x->out[x->outs++] = new_edge(g->d);
    x = new_node(g, END), x->in[x->ins++] = e;
    return 29;
}

/* a loop round nothing, before some element */
static int looped(struct nest *g) {
    struct node *x = some_node(g, is_entered);
    if (!x || g->count + 2 > ELEMENTS || g->d->frees < 3) return 0;
    unsigned back = new_edge(g->d), between = new_edge(g->d), on = new_edge(g->d), *entry = &x->in[draw(g->d->r, x->ins)];
    *new_node(g, XOR_JOIN) = (struct node){.kind = XOR_JOIN, .in = {*entry, back}, .ins = 2, .out = {between}, .outs = 1};
    *new_node(g, XOR_SPLIT) = (struct node){.kind = XOR_SPLIT, .in = {between}, .ins = 1, .out = {back, on}, .outs = 2};
    *entry = on;
    return 29;
}

static void take_node(struct nest *g, struct node *x) { *x = g->nodes[--g->count]; }

/* one join for two splits, or one split for two joins: a join whose exit enters a join goes, or a split that is entered by a split's exit */
static int merged(struct nest *g, bool joins) {
    for (unsigned a = 0; a < g->count; a++)
        for (unsigned b = 0; b < g->count; b++) {
            struct node *x = &g->nodes[a], *y = &g->nodes[b];
            unsigned edge = joins ? x->out[0] : x->in[0], *list = joins ? y->in : y->out, *n = joins ? &y->ins : &y->outs, more = joins ? x->ins : x->outs;
            if (a == b || x->kind != y->kind || *n < 2 || more < 2 || *n + more - 1 > BRANCHES) continue;
            for (unsigned j = 0; j < *n; j++) {
                if (list[j] != edge) continue;
                list[j] = list[--*n];
                for (unsigned k = 0; k < more; k++) list[(*n)++] = joins ? x->in[k] : x->out[k];
                made[g->d->pool].edges &= ~(UINT64_C(1) << edge);
                return take_node(g, x), 29;
            }
        }
    return 0;
}

/* one damage: 0 where it is still a nesting, 29 where it is none, -1 where that is not known */
static int damaged(struct nest *g) {
    unsigned which = draw(g->d->r, 12);
    switch (which) {
    case 0:
    case 1: return other_kind(g);
    case 2:
    case 3: return crossed(g, which == 2);
    case 4:
    case 5: return moved(g, which == 4);
    case 6: return left_over(g);
    case 7: return other_end(g);
    case 8: return looped(g);
    case 9: return some_node(g, is_pass) ? crossed(g, true) : 0;
    default: return merged(g, which == 10);
    }
}

static void print_node(struct draft *d, const struct node *x) {
    switch (x->kind) {
    case START: begin(d, "start"), print_number(d, x->in[0]), print(d, ","), print_number(d, x->out[0]), print(d, ")"); break;
    case START_RCV: begin(d, "startRcv"), message(d, true), print(d, ","), print_number(d, x->out[0]), print(d, ")"); break;
    case END: end_at(d, chance(d->r, 15) ? END_SND : END, x->in[0]); break;
    case TERMINATE: end_at(d, TERMINATE, x->in[0]); break;
    case TASK: task_between(d, x->in[0], x->out[0]); break;
    case INTER_SND: event_between(d, x->in[0], x->out[0]); break;
    case AND_JOIN:
    case XOR_JOIN: join_from(d, x->kind, x->in, x->ins, x->out[0]); break;
    default: split_into(d, x->kind, x->in[0], x->out, x->outs);
    }
}

/* a nesting, damaged or not, its elements in any order */
static int nested_process(struct draft *d, bool many) {
    static struct nest g;
    memset(&made[d->pool], 0, sizeof *made);
    d->elements = d->opens = d->wants = d->task = 0;
    d->frees = EDGES;
    for (unsigned e = 0; e < EDGES; e++) d->free[e] = e + 1;
    g.d = d, g.count = 0;
    struct node *x = new_node(&g, many || chance(d->r, 40) ? START_RCV : START);
    if (x->kind == START) x->in[x->ins++] = new_edge(d);
    unsigned edge = x->out[x->outs++] = new_edge(d);
    edge = sequence(&g, edge, draw(d->r, 4));
    x = new_node(&g, END), x->in[x->ins++] = edge;
    int due = chance(d->r, 40) ? damaged(&g) : 0;
    if (due && chance(d->r, 5)) damaged(&g), due = -1;
    d->task = 0;
    while (g.count) {
        unsigned k = draw(d->r, g.count);
        print_node(d, &g.nodes[k]), take_node(&g, &g.nodes[k]);
    }
    made[d->pool].elements = d->elements;
    made[d->pool].behind = d->o - d->text;
    return due;
}

/* the pools of a model, each by its own maker; what is known of the answer, and the number of the first pool that it is about */
static size_t model_by(struct random *r, char *text, bool nesting, int *due, unsigned *of) {
    struct draft d = {.r = r, .text = text, .o = text, .easy = chance(r, nesting ? 80 : 35)};
    unsigned numbers[9], left = 9;
    for (unsigned k = 0; k < 9; k++) numbers[k] = k + 1;
    d.pools = 1 + draw(r, 4);
    d.stores = chance(r, 30) ? 0 : chance(r, 80) ? 30 : 70;
    if (d.pools == 4 || d.pools == 3) d.pools = chance(r, 50) ? d.pools : 2;
    *due = 0, *of = 0;
    for (d.pool = 0; d.pool < d.pools; d.pool++) {
        bool many = chance(r, 50);
        unsigned k = draw(r, left), number = numbers[k];
        numbers[k] = numbers[--left];
        if (d.pool) print(&d, "|");
        print(&d, many ? "miPool(" : "pool(");
        print_number(&d, number), print(&d, ",");
        int own = nesting ? nested_process(&d, many) : (process(&d, many), -1);
        if (own && !*due) *due = own, *of = own == 29 ? number : 0;
        if (many) print(&d, ","), print_number(&d, chance(r, 80) ? 1 + draw(r, 3) : 1 + draw(r, INSTANCES));
        print(&d, ")");
    }
    pools_made = d.pools;
    return d.o - text;
}

size_t model_text(struct random *r, char *text) {
    int due;
    unsigned of;
    return model_by(r, text, false, &due, &of);
}

size_t nested_text(struct random *r, char *text, int *due, unsigned *of) { return model_by(r, text, true, due, of); }

static unsigned unused_in(uint64_t edges, unsigned k) {
    for (unsigned f = 1; f <= EDGES; f++)
        if (!(edges >> f & 1) && k-- == 0) return f;
    return 0;
}

size_t model_without_end_sends(const char *text, size_t n, char *out) {
    char *o = out;
    size_t at = 0;
    for (unsigned p = 0; p < pools_made; p++) {
        unsigned sends = made[p].sends;
        if (sends && (made[p].elements + sends > ELEMENTS || !unused_in(made[p].edges, sends - 1))) return 0;
        for (unsigned k = 0; k < sends; k++) {
            o += sprintf(o, "%.*sinterSnd", (int)(made[p].word[k] - at), text + at), at = made[p].word[k] + strlen("endSnd");
            o += sprintf(o, "%.*s,%u", (int)(made[p].close[k] - at), text + at, unused_in(made[p].edges, k)), at = made[p].close[k];
        }
        o += sprintf(o, "%.*s", (int)(made[p].behind - at), text + at), at = made[p].behind;
        for (unsigned k = 0; k < sends; k++) o += sprintf(o, "|end(%u)", unused_in(made[p].edges, k));
    }
    return o + sprintf(o, "%.*s", (int)(n - at), text + at) - out;
}

size_t spoiled_text(struct random *r, char *text, size_t n) {
    static const char *const pieces[] = {"0", "d16", "d01", "49", "65536", "65535", "4294967294", "4294967295", "4294967296", "4294967297", "42949672950", "18446744073709551616",
                                         "18446744073709551617", "d4294967295", "d4294967296", "d65536", "65537", "04294967295", "s0", "s15", "s16", "s01", "s", "S1", "s65536", "s4294967296", "s00", "?s1", "s1:=1", "d1s1", "sd1", "default", "true", ",", ")", "(", "}", "{", "|", "?", "<", ">", ":", ":=", "=", "+", "-", " ",
                                         "\t", "\n", "\r", "start", "startRcv", "pool", "miPool", "na_c", "a", "end(1)", "17", "16", "99999999999999999999", "_", "1"};
    for (unsigned k = 1 + draw(r, 3); k && n; k--) {
        size_t at = draw(r, n), end = at;
        if (chance(r, 20)) {
            text[at] = draw(r, 256);
            continue;
        }
        if (chance(r, 10)) {
            n = at;
            continue;
        }
        /* the token at this place goes, or another stands in its place or before it */
        bool is_word = text[at] == '_' || (text[at] >= '0' && text[at] <= '9') || ((text[at] | 32) >= 'a' && (text[at] | 32) <= 'z');
        if (is_word) {
            while (at && ((text[at - 1] | 32) >= 'a' || (text[at - 1] >= '0' && text[at - 1] <= '9')) && text[at - 1] != '|' && text[at - 1] != '{' && text[at - 1] != '}') at--;
            while (end < n && (((text[end] | 32) >= 'a' && (text[end] | 32) <= 'z') || (text[end] >= '0' && text[end] <= '9') || text[end] == '_')) end++;
        } else end++;
        const char *piece = chance(r, 25) ? "" : pieces[draw(r, sizeof pieces / sizeof *pieces)];
        if (chance(r, 20)) end = at;
        size_t m = strlen(piece);
        if (n - (end - at) + m > REF_TEXT_MOST) continue;
        memmove(text + at + m, text + end, n - end);
        memcpy(text + at, piece, m);
        n = n - (end - at) + m;
    }
    return n;
}

ref_tuple some_tuple(struct random *r) {
    ref_tuple g = {.length = chance(r, 95) ? draw(r, 5) : draw(r, 9)};
    if (chance(r, 60)) g.length = draw(r, 3);
    for (unsigned j = 0; j < VALUES; j++) g.values[j] = chance(r, 90) ? draw(r, 4) : chance(r, 70) ? some_end(r) : any_word(r);
    return g;
}

ref_name some_name(struct random *r, const word *table, const word *state) {
    if (chance(r, 70)) {
        ref_listed l = ref_list(table, state, draw(r, chance(r, 70) ? 3 : 20));
        if (l.number == 6) l = ref_list(table, state, 0);
        if (l.number == 0) {
            if (chance(r, 90)) return l.name;
            l.name.given = some_tuple(r);
            return l.name;
        }
    }
    unsigned pools = table[0] >= 1 && table[0] <= POOLS ? table[0] : POOLS, p = draw(r, pools);
    const word *pool = pool_at(table, p);
    unsigned count = pool[POOL_COUNT] >= 1 && pool[POOL_COUNT] <= ELEMENTS ? pool[POOL_COUNT] : ELEMENTS, made = state[p];
    ref_name n = {.pool = pool[0], .element = draw(r, count)};
    const word *el = element_at(pool, n.element);
    n.instance = el[KIND] == START_RCV ? made : made ? draw(r, made) : 0;
    n.phase = el[MODE] >= NA_C ? 1 + draw(r, 3) : 0;
    unsigned branches = el[KIND] == XOR_JOIN ? el[ENTRIES] : el[KIND] == EVENT_BASED || el[KIND] == XOR_SPLIT ? el[EXITS] : 1;
    n.branch = draw(r, branches ? branches : 1);
    if (chance(r, 60)) n.given = some_tuple(r);
    if (el[KIND] != 0 && kinds[el[KIND] % KINDS].receives && chance(r, 50)) { /* one that is queued */
        const word *q = queue_at((word *)state, message_at(el, n.branch % BRANCHES)[0] % NAMES);
        if (q[0] >= 1 && q[0] <= MESSAGES) memcpy(&n.given, q + 1 + SLOT_WORDS * draw(r, q[0]), sizeof n.given);
    } else if (chance(r, 60)) n.given.length = 0;
    /* now and then something that is not there */
    if (chance(r, 3)) n.pool = draw(r, 300);
    if (chance(r, 3)) n.instance = draw(r, chance(r, 50) ? 4 : 65536);
    if (chance(r, 3)) n.element = draw(r, 40);
    if (chance(r, 3)) n.phase = draw(r, 5);
    if (chance(r, 3)) n.branch = draw(r, 9);
    if (chance(r, 3)) *(word *[]){&n.pool, &n.instance, &n.element, &n.phase, &n.branch}[draw(r, 5)] += 65536;
    return n;
}
