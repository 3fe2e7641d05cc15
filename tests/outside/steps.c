/* One named step, a post, the listing, the run, a whole poll, and the figures of the pools. */
#include "layout.h"

static unsigned branch_count(const word *el, const struct move *m) {
    return m->takes == BRANCH ? el[ENTRIES] : m->puts == BRANCH ? el[EXITS] : 1;
}

/* A value is 0 to 4,294,967,295, or undefined: -1. Sums are worked out in 64 bits, so that none wraps. */
typedef int64_t value;
enum { UNDEFINED = -1 };

/* What a step sees: its instance's words, and the stores. */
struct sight { const word *h, *stores; };

static const word *cell(struct sight now, unsigned field) {
    return field < FIELDS ? now.h + defined_at(field) : now.stores + 2 * (field - FIELDS);
}

static value operand(const word *x, struct sight now) {
    if (x[0] == 0) return x[1];
    const word *c = cell(now, x[1]);
    return c[0] ? (value)c[1] : UNDEFINED;
}

static value expression(const word *x, struct sight h) {
    value a = operand(x + LEFT, h);
    if (x[0] == SINGLE || a < 0) return a;
    value b = operand(x + RIGHT, h);
    if (b < 0) return UNDEFINED;
    value r = x[0] == PLUS ? a + b : a - b;
    return r < 0 || r > GREATEST ? UNDEFINED : r;
}

enum truth { IS_FALSE, IS_TRUE, NEITHER };

static enum truth condition(const word *x, struct sight h) {
    if (x[0] == ALWAYS) return IS_TRUE;
    if (x[0] == DEFAULT) return NEITHER;
    value a = operand(x + LEFT, h), b = operand(x + RIGHT, h);
    if (a < 0 || b < 0) return NEITHER;
    return (x[0] == EQUALS ? a == b : a < b) ? IS_TRUE : IS_FALSE;
}

/* The first true one, nothing undefined before it; the default where all others are false. */
static bool condition_holds(const word *el, struct sight h, unsigned b) {
    bool fallback = condition_at(el, b)[0] == DEFAULT;
    for (unsigned j = 0; j < (fallback ? el[EXITS] : b); j++)
        if (condition_at(el, j)[0] != DEFAULT && condition(condition_at(el, j), h) != IS_FALSE) return false;
    return fallback || condition(condition_at(el, b), h) == IS_TRUE;
}

static bool same_tuple(const ref_tuple *a, const ref_tuple *b) {
    if (a->length != b->length || a->length > VALUES) return false;
    for (unsigned j = 0; j < a->length; j++)
        if (a->values[j] != b->values[j]) return false;
    return true;
}

/* A template or message worked out; where it binds, the given value stands. */
static bool work_out(const word *message, struct sight h, const ref_tuple *given, ref_tuple *out) {
    bool defined = true;
    memset(out, 0, sizeof *out);
    out->length = message[1];
    for (unsigned j = 0; j < message[1]; j++) {
        const word *x = item_at(message, j);
        value v = x[0] == BIND ? (j < given->length ? given->values[j] : 0) : expression(x, h);
        if (v < 0) defined = false;
        else out->values[j] = v;
    }
    return defined;
}

/* an na_nc task may not begin while an instance of it is active or ready; under version 10 no na task may */
static bool counts_permit(const word *el, const word *h, const struct move *m, unsigned b, word version) {
    if (m->takes == BRANCH) {
        if (!h[el[ENTRIES + 1 + b] - 1]) return false;
    } else if (m->takes)
        for (unsigned j = 0; j < el[ENTRIES]; j++)
            if (!h[el[ENTRIES + 1 + j] - 1]) return false;
    if (!(m->active | m->ready)) return true;
    word active = h[ACTIVE + el[TASK_NUMBER] - 1], ready = h[READY + el[TASK_NUMBER] - 1];
    if (m->active == DOWN && !active) return false;
    if (m->ready == DOWN && !ready) return false;
    bool waits = el[MODE] == NA_NC || version == REF_VERSION_10;
    return !(m->alone && waits && (active | ready));
}

/* the oldest message equal to one; behind a message's values stands 0 */
static word *find_message(word *q, const ref_tuple *g) {
    word values[VALUES] = {0};
    memcpy(values, g->values, g->length * sizeof(word));
    for (unsigned k = 0; k < q[0]; k++) {
        word *slot = q + 1 + SLOT_WORDS * k;
        if (slot[0] == g->length && two(slot + 1) == two(values) && two(slot + 3) == two(values + 2)) return slot;
    }
    return NULL;
}

static void append(word *q, const ref_tuple *g) {
    word *slot = q + 1 + SLOT_WORDS * q[0]++;
    slot[0] = g->length;
    for (unsigned j = 0; j < VALUES; j++) slot[1 + j] = j < g->length ? g->values[j] : 0;
}

static void remove_message(word *q, word *slot) {
    word *last = q + 1 + SLOT_WORDS * --q[0];
    memmove(slot, slot + SLOT_WORDS, (last - slot) * sizeof(word));
    memset(last, 0, SLOT_WORDS * sizeof(word));
}

/* What is worked out before anything is written: the instance and the stores as they will be. */
struct plan {
    word h[INSTANCE_WORDS], stores[2 * STORES];
    ref_tuple message;
    word *queue, *slot;
};

static struct sight planned(const struct plan *plan) { return (struct sight){plan->h, plan->stores}; }

static void set_field(struct plan *plan, unsigned field, word v) {
    word *c = (word *)cell(planned(plan), field);
    c[0] = 1, c[1] = v;
}

static bool assign(const word *el, struct plan *plan) {
    for (unsigned j = 0; j < el[ASSIGNED]; j++) {
        const word *x = assignment_at(el, j);
        value v = expression(x + 1, planned(plan));
        if (v < 0) return false;
        set_field(plan, x[0], v);
    }
    return true;
}

static bool puts_fit(const word *el, const word *h, const struct move *m, unsigned b) {
    if (m->puts == BRANCH) {
        if (h[el[EXITS + 1 + b] - 1] >= COUNT_MOST) return false;
    } else if (m->puts)
        for (unsigned j = 0; j < el[EXITS]; j++)
            if (h[el[EXITS + 1 + j] - 1] >= COUNT_MOST) return false;
    if (m->active == UP && h[ACTIVE + el[TASK_NUMBER] - 1] >= COUNT_MOST) return false;
    return !(m->ready == UP && h[READY + el[TASK_NUMBER] - 1] >= COUNT_MOST);
}

static void take_tokens(const word *el, word *h, const struct move *m, unsigned b) {
    if (m->takes == BRANCH) h[el[ENTRIES + 1 + b] - 1]--;
    else if (m->takes)
        for (unsigned j = 0; j < el[ENTRIES]; j++) h[el[ENTRIES + 1 + j] - 1]--;
}

static void finish(const word *el, word *h, const struct move *m, unsigned b) {
    if (m->clears) {
        memset(h, 0, DEFINED * sizeof *h);
        return;
    }
    if (m->active) h[ACTIVE + el[TASK_NUMBER] - 1] += m->active == UP ? 1 : -1;
    if (m->ready) h[READY + el[TASK_NUMBER] - 1] += m->ready == UP ? 1 : -1;
    if (m->puts == BRANCH) h[el[EXITS + 1 + b] - 1]++;
    else if (m->puts)
        for (unsigned j = 0; j < el[EXITS]; j++) h[el[EXITS + 1 + j] - 1]++;
}

/* The number of a step at an element that is there, 12 to 18; 0 leaves what is to be written in the plan. */
static unsigned decide(const word *el, const word *h, word *z, const struct move *m, unsigned b, const ref_tuple *g, unsigned made, unsigned limit,
                       struct plan *plan) {
    static const word unmade[INSTANCE_WORDS];
    if (m->makes) h = unmade;
    struct sight now = {h, z + SHARED};
    const word *message = message_at(el, b);
    if (!counts_permit(el, h, m, b, z[VERSION])) return 12;
    if (m->asks && !condition_holds(el, now, b)) return 13;
    memset(&plan->message, 0, sizeof plan->message);
    if (m->receives && !work_out(message, now, g, &plan->message)) return 13;
    memcpy(plan->h, now.h, sizeof plan->h);
    memcpy(plan->stores, now.stores, sizeof plan->stores);
    plan->queue = queue_at(z, message[0]);
    if (!m->receives) {
        if (m->assigns && !assign(el, plan)) return 13;
        if (m->sends && !work_out(message, planned(plan), g, &plan->message)) return 13;
        if (g->length) return 14;
    } else {
        if (!same_tuple(&plan->message, g)) return 14;
        for (unsigned j = 0; j < message[1]; j++)
            if (item_at(message, j)[0] == BIND) set_field(plan, item_at(message, j)[LEFT + 1], g->values[j]);
        if (m->assigns && !assign(el, plan)) return 13;
        plan->slot = find_message(plan->queue, g);
        if (!plan->slot) return 15;
        if (m->makes && made >= limit) return 16;
    }
    if (m->sends && plan->queue[0] >= MESSAGES) return 17;
    take_tokens(el, plan->h, m, b);
    return puts_fit(el, plan->h, m, b) ? 0 : 18;
}

static unsigned find_pool(const word *t, unsigned number) {
    unsigned p = 0;
    while (p < t[0] && pool_at(t, p)[0] != number) p++;
    return p;
}

/* A step on a table and a state that are right; where `take` is false only its number. */
static ref_answer step_on(const word *t, word *z, const ref_name *n, bool take) {
    ref_answer a = {.number = 11};
    unsigned p = find_pool(t, n->pool);
    if (p == t[0]) return a;
    const word *pool = pool_at(t, p);
    if (n->element >= pool[POOL_COUNT]) return a;
    const word *el = element_at(pool, n->element);
    const struct move *m = move_of(el, n->phase);
    if (!m->there || n->branch >= branch_count(el, m)) return a;
    if (m->makes ? n->instance != z[p] : n->instance >= z[p]) return a;
    struct plan plan;
    a.number = decide(el, instance_at(z, p, n->instance), z, m, n->branch, &n->given, z[p], limit_of(pool), &plan);
    if (a.number || !take) return a;
    finish(el, plan.h, m, n->branch);
    memcpy(instance_at(z, p, n->instance), plan.h, sizeof plan.h);
    memcpy(z + SHARED, plan.stores, sizeof plan.stores);
    if (m->makes) z[p]++;
    if (m->receives) remove_message(plan.queue, plan.slot), a.traffic = 1;
    if (m->sends) append(plan.queue, &plan.message), a.traffic = 2;
    if (a.traffic) a.name = message_at(el, n->branch)[0], a.tuple = plan.message;
    return a;
}

/* THE FIGURES. A token or a task count is left in an unfinished instance. */
ref_record figures_of(const word *z, unsigned p) {
    ref_record r = {.made = z[p]};
    for (unsigned i = 0; i < r.made; i++) all_zero(instance_at((word *)z, p, i), DEFINED) ? r.finished++ : r.unfinished++;
    return r;
}

static bool same_record(ref_record a, ref_record b) { return a.made == b.made && a.unfinished == b.unfinished && a.finished == b.finished; }

/* what is lent to a call that takes steps: 10, 25, 26, else 0 */
static unsigned desk_number(const word *t, const word *z, const ref_record *records, size_t pools) {
    unsigned number = lent_number(t, z);
    if (number) return number;
    if (pools != t[0]) return 26;
    for (unsigned p = 0; p < pools; p++)
        if (!same_record(records[p], figures_of(z, p))) return 26;
    return 0;
}

/* a step on what is right, and the record of its pool brought up to date */
static ref_answer recorded_step(const word *t, word *z, ref_record *records, const ref_name *n) {
    ref_answer a = step_on(t, z, n, true);
    if (!a.number) records[find_pool(t, n->pool)] = figures_of(z, find_pool(t, n->pool));
    return a;
}

word ref_figures(const word *t, const word *z, ref_record *records, size_t pools) {
    unsigned number = lent_number(t, z);
    if (number) return number;
    if (pools != t[0]) return 26;
    for (unsigned p = 0; p < pools; p++) records[p] = figures_of(z, p);
    return 0;
}

ref_answer ref_step(const word *t, word *z, ref_record *records, size_t pools, ref_name n) {
    unsigned number = desk_number(t, z, records, pools);
    return number ? (ref_answer){.number = number} : recorded_step(t, z, records, &n);
}

ref_answer take_step(const word *t, word *z, ref_name n) {
    unsigned number = lent_number(t, z);
    return number ? (ref_answer){.number = number} : step_on(t, z, &n, true);
}

static word post_on(word *z, word name, ref_tuple g) {
    if (name >= NAMES || g.length > VALUES) return 19;
    word *q = queue_at(z, name);
    if (q[0] >= MESSAGES) return 17;
    append(q, &g);
    return 0;
}

word ref_post(const word *t, word *z, word name, ref_tuple g) {
    unsigned number = lent_number(t, z);
    return number ? number : post_on(z, name, g);
}

/* An element with no token on an entry and no count cannot move. */
static bool idle(const word *el, const word *h) {
    for (unsigned j = 0; j < el[ENTRIES]; j++)
        if (h[el[ENTRIES + 1 + j] - 1]) return false;
    return el[MODE] < NA_C || !(h[ACTIVE + el[TASK_NUMBER] - 1] | h[READY + el[TASK_NUMBER] - 1]);
}

struct search { const word *t; word *z; size_t left; ref_name name; };

/* Whether the step sought was among those of this name; each accepted one lowers what is left. */
static bool offer(struct search *s, const word *el, const word *h, const struct move *m, unsigned made, unsigned limit) {
    struct plan plan;
    if (decide(el, h, s->z, m, s->name.branch, &s->name.given, made, limit, &plan)) return false;
    return s->left-- == 0;
}

/* Whether the values of a slot are those of a template worked out, but for what it binds. */
static bool takes(const word *message, const ref_tuple *worked_out, const word *slot) {
    if (slot[0] != message[1]) return false;
    for (unsigned j = 0; j < message[1]; j++)
        if (slot[1 + j] != worked_out->values[j] && item_at(message, j)[0] != BIND) return false;
    return true;
}

static bool offer_messages(struct search *s, const word *el, const word *h, const struct move *m, unsigned made, unsigned limit) {
    static const word unmade[INSTANCE_WORDS];
    const word *message = message_at(el, s->name.branch), *q = queue_at(s->z, message[0]);
    ref_tuple worked_out;
    struct sight now = {m->makes ? unmade : h, s->z + SHARED};
    if (!q[0] || !work_out(message, now, &s->name.given, &worked_out)) return false;
    for (unsigned k = 0; k < q[0]; k++) {
        const word *slot = q + 1 + SLOT_WORDS * k;
        if (!takes(message, &worked_out, slot)) continue;
        memcpy(&s->name.given, slot, sizeof s->name.given);
        if (find_message((word *)q, &s->name.given) == slot && offer(s, el, h, m, made, limit)) return true;
    }
    memset(&s->name.given, 0, sizeof s->name.given);
    return false;
}

static bool search_element(struct search *s, const word *el, const word *h, unsigned made, unsigned limit) {
    unsigned first = el[MODE] < NA_C ? 0 : 1, last = el[MODE] < NA_C ? 0 : 3;
    for (unsigned phase = first; phase <= last; phase++) {
        const struct move *m = move_of(el, phase);
        if (!m->there) continue;
        s->name.phase = phase;
        unsigned branches = branch_count(el, m);
        for (unsigned b = 0; b < branches; b++) {
            s->name.branch = b;
            if (!m->makes && !counts_permit(el, h, m, b, s->z[VERSION])) continue;
            if (m->receives ? offer_messages(s, el, h, m, made, limit) : offer(s, el, h, m, made, limit)) return true;
        }
    }
    return false;
}

static bool search_pool(struct search *s, unsigned p) {
    const word *pool = pool_at(s->t, p);
    unsigned made = s->z[p], limit = limit_of(pool);
    s->name.pool = pool[0];
    for (unsigned i = 0; i <= made; i++) {
        s->name.instance = i;
        if (i == made && made >= limit) continue;
        const word *h = i < INSTANCES ? instance_at(s->z, p, i) : s->z;
        for (unsigned e = 0; e < pool[POOL_COUNT]; e++) {
            const word *el = element_at(pool, e);
            if (el[KIND] == START_RCV ? i != made : i == made || idle(el, h)) continue;
            s->name.element = e;
            if (search_element(s, el, h, made, limit)) return true;
        }
    }
    return false;
}

static bool search_all(struct search *s) {
    memset(&s->name, 0, sizeof s->name);
    for (unsigned p = 0; p < s->t[0]; p++)
        if (search_pool(s, p)) return true;
    return false;
}

ref_listed ref_list(const word *t, const word *z, size_t k) {
    ref_listed r = {.number = lent_number(t, z)};
    if (r.number) return r;
    struct search s = {.t = t, .z = (word *)z, .left = k};
    r.number = search_all(&s) ? 0 : 6;
    if (!r.number) r.name = s.name;
    return r;
}

ref_ran ref_run(const word *t, word *z, ref_record *records, size_t pools, uint16_t limit) {
    unsigned number = desk_number(t, z, records, pools);
    if (number) return (ref_ran){number, 0, 0};
    for (unsigned steps = 0;; steps++) {
        struct search s = {.t = t, .z = z, .left = 0};
        if (!search_all(&s)) return (ref_ran){0, steps, 0};
        if (steps == limit) return (ref_ran){0, steps, 1};
        recorded_step(t, z, records, &s.name);
    }
}

/* document 02, wish 2: given one by one until the first refusal */
ref_polled ref_poll(const word *t, word *z, ref_record *records, size_t pools, const word *items, size_t count) {
    if (count > REF_ITEMS) return (ref_polled){22, 0};
    unsigned number = desk_number(t, z, records, pools);
    if (number) return (ref_polled){number, 0};
    for (size_t k = 0; k < count; k++) {
        const word *w = items + REF_ITEM_WORDS * k;
        ref_tuple g = {w[6], {w[7], w[8], w[9], w[10]}};
        ref_name name = {w[1], w[2], w[3], w[4], w[5], g};
        word n = w[0] == 1 ? post_on(z, w[1], g) : recorded_step(t, z, records, &name).number;
        if (n) return (ref_polled){n, k};
    }
    return (ref_polled){0, count};
}
