/* The limits of a table, the eight model checks, and whether a state fits. */
#include "layout.h"

static bool operand_fits(const word *x) { return x[0] == 0 || (x[0] == 1 && x[1] < ALL_FIELDS); }

static bool expression_fits(const word *x) {
    if (x[0] == SINGLE) return operand_fits(x + LEFT) && all_zero(x + RIGHT, 2);
    return (x[0] == PLUS || x[0] == MINUS) && operand_fits(x + LEFT) && operand_fits(x + RIGHT);
}

static bool item_fits(const word *x, bool receives) {
    if (x[0] != BIND) return expression_fits(x);
    return receives && x[LEFT] == 1 && x[LEFT + 1] < ALL_FIELDS && all_zero(x + RIGHT, 2);
}

static bool condition_fits(const word *x, bool many) {
    if (x[0] == ALWAYS || (x[0] == DEFAULT && many)) return all_zero(x + LEFT, 4);
    return (x[0] == EQUALS || x[0] == BELOW) && operand_fits(x + LEFT) && operand_fits(x + RIGHT);
}

static bool edges_fit(const word *list, unsigned column) {
    unsigned n = list[0];
    if (column == MANY ? n < FEWEST || n > BRANCHES : n != column) return false;
    for (unsigned j = 0; j < n; j++)
        if (list[1 + j] < 1 || list[1 + j] > EDGES) return false;
    return all_zero(list + 1 + n, BRANCHES - n);
}

static bool message_fits(const word *m, bool receives) {
    if (m[0] >= NAMES || m[1] > VALUES) return false;
    for (unsigned j = 0; j < m[1]; j++)
        if (!item_fits(item_at(m, j), receives)) return false;
    return all_zero(item_at(m, m[1]), EXPRESSION_WORDS * (VALUES - m[1]));
}

/* an endSnd is in no table */
static bool element_fits(const word *el) {
    if (el[KIND] < 1 || el[KIND] >= KINDS || el[KIND] == END_SND) return false;
    const struct kind *k = &kinds[el[KIND]];
    if (k->task) {
        if (el[TASK_NUMBER] < 1 || el[TASK_NUMBER] > TASKS || el[MODE] < ATOMIC || el[MODE] > NA_NC || el[ASSIGNED] > ASSIGNMENTS) return false;
    } else if (el[TASK_NUMBER] | el[MODE] | el[ASSIGNED]) return false;
    if (!edges_fit(el + ENTRIES, k->entries) || !edges_fit(el + EXITS, k->exits)) return false;
    unsigned n = used(k->conditions, el[EXITS]);
    for (unsigned b = 0; b < n; b++)
        if (!condition_fits(condition_at(el, b), k->conditions == MANY)) return false;
    if (!all_zero(condition_at(el, n), EXPRESSION_WORDS * (BRANCHES - n))) return false;
    n = used(k->receives + k->sends, el[EXITS]);
    for (unsigned b = 0; b < n; b++)
        if (!message_fits(message_at(el, b), k->receives)) return false;
    if (!all_zero(message_at(el, n), MESSAGE_WORDS * (BRANCHES - n))) return false;
    n = el[ASSIGNED];
    for (unsigned j = 0; j < n; j++)
        if (assignment_at(el, j)[0] >= ALL_FIELDS || !expression_fits(assignment_at(el, j) + 1)) return false;
    return all_zero(assignment_at(el, n), ASSIGNMENT_WORDS * (ASSIGNMENTS - n));
}

static bool pool_fits(const word *pool) {
    unsigned n = pool[POOL_COUNT];
    if (pool[0] < 1 || pool[0] > 9 || pool[POOL_LIMIT] > INSTANCES || n < 1 || n > ELEMENTS) return false;
    for (unsigned e = 0; e < n; e++)
        if (!element_fits(element_at(pool, e))) return false;
    return all_zero(element_at(pool, n), ELEMENT_WORDS * (ELEMENTS - n));
}

bool table_fits(const word *t) {
    if (t[0] < 1 || t[0] > POOLS) return false;
    for (unsigned p = 0; p < t[0]; p++)
        if (!pool_fits(pool_at(t, p))) return false;
    return all_zero(pool_at(t, t[0]), POOL_WORDS * (POOLS - t[0]));
}

/* What the checks count in one pool. */
struct summary {
    unsigned starts, receiving_starts;
    uint8_t entries[EDGES + 1], exits[EDGES + 1], tasks[TASKS + 1];
    uint64_t firsts;
    uint16_t received, sent;
    bool defaults_broken, binds_broken;
};

static void sum_up(const word *pool, struct summary *s) {
    memset(s, 0, sizeof *s);
    for (unsigned e = 0; e < pool[POOL_COUNT]; e++) {
        const word *el = element_at(pool, e);
        const struct kind *k = &kinds[el[KIND]];
        if (el[KIND] == START) s->starts++, s->firsts |= 1ull << el[ENTRIES + 1];
        if (el[KIND] == START_RCV) s->receiving_starts++;
        for (unsigned j = 0; j < el[ENTRIES]; j++) s->entries[el[ENTRIES + 1 + j]]++;
        for (unsigned j = 0; j < el[EXITS]; j++) s->exits[el[EXITS + 1 + j]]++;
        if (k->task) s->tasks[el[TASK_NUMBER]]++;
        unsigned n = used(k->receives, el[EXITS]);
        for (unsigned b = 0; b < n; b++) {
            const word *m = message_at(el, b);
            uint32_t bound = 0;
            s->received |= 1u << m[0];
            for (unsigned j = 0; j < m[1]; j++) {
                const word *x = item_at(m, j);
                if (x[0] != BIND) continue;
                if (bound >> x[LEFT + 1] & 1) s->binds_broken = true;
                bound |= 1u << x[LEFT + 1];
            }
        }
        n = used(k->sends, el[EXITS]);
        for (unsigned b = 0; b < n; b++) s->sent |= 1u << message_at(el, b)[0];
        if (k->conditions == MANY) {
            unsigned defaults = 0;
            for (unsigned b = 0; b < el[EXITS]; b++) defaults += condition_at(el, b)[0] == DEFAULT;
            if (defaults > 1) s->defaults_broken = true;
        }
    }
}

static bool edges_meet(const struct summary *s) {
    for (unsigned e = 1; e <= EDGES; e++) {
        if (!s->entries[e] && !s->exits[e]) continue;
        if (s->entries[e] != 1 || s->exits[e] != !(s->firsts >> e & 1)) return false;
    }
    return true;
}

static unsigned broken_in(const word *pool, const struct summary *s) {
    if (s->starts + s->receiving_starts != 1) return 2;
    if (pool[POOL_LIMIT] && s->starts) return 3;
    if (!edges_meet(s)) return 4;
    for (unsigned n = 1; n <= TASKS; n++)
        if (s->tasks[n] > 1) return 5;
    if (s->received & s->sent) return 6;
    if (s->defaults_broken) return 7;
    if (s->binds_broken) return 8;
    return 9;
}

unsigned lowest_broken(const word *t) {
    unsigned numbers = 0, lowest = 9;
    uint16_t received = 0;
    for (unsigned p = 0; p < t[0]; p++) {
        const word *pool = pool_at(t, p);
        struct summary s;
        sum_up(pool, &s);
        unsigned k = broken_in(pool, &s);
        if (numbers >> pool[0] & 1) k = 1;
        /* a pool breaks the lowest of its own checks; check 6 may also be broken between pools, where only 7 or 8 is broken inside */
        if (k > 6 && (received & s.received)) k = 6;
        numbers |= 1u << pool[0];
        received |= s.received;
        if (k < lowest) lowest = k;
    }
    return lowest == 9 ? 0 : lowest;
}

bool valid(const word *t) { return table_fits(t) && lowest_broken(t) == 0; }

/* 255 at each place of tokens and counts that an element of the pool uses */
static void mark_usable(const word *pool, word *most) {
    memset(most, 0, DEFINED * sizeof *most);
    for (unsigned e = 0; e < pool[POOL_COUNT]; e++) {
        const word *el = element_at(pool, e);
        const struct kind *k = &kinds[el[KIND]];
        for (unsigned j = 0; j < el[ENTRIES]; j++) most[el[ENTRIES + 1 + j] - 1] = COUNT_MOST;
        for (unsigned j = 0; j < el[EXITS]; j++) most[el[EXITS + 1 + j] - 1] = COUNT_MOST;
        if (el[MODE] < NA_C) continue;
        most[ACTIVE + el[TASK_NUMBER] - 1] = COUNT_MOST;
        if (k->receives || k->sends) most[READY + el[TASK_NUMBER] - 1] = COUNT_MOST;
    }
}

/* flags and values side by side: an undefined one's value is 0 */
static bool pairs_fit(const word *x, unsigned n) {
    word over = 0;
    for (const word *end = x + 2 * n; x < end; x += 2) over |= (x[0] & (word)~1u) | (x[0] ? 0 : x[1]);
    return over == 0;
}

static bool instance_fits(const word *h, const word *most) {
    word over = 0;
    for (unsigned k = 0; k < DEFINED; k++) over |= h[k] & (word)~most[k];
    return over == 0 && pairs_fit(h + DEFINED, FIELDS);
}

static bool has_start(const word *pool) {
    for (unsigned e = 0; e < pool[POOL_COUNT]; e++)
        if (element_at(pool, e)[KIND] == START) return true;
    return false;
}

static bool instances_fit(const word *t, const word *z, unsigned p) {
    unsigned made = z[p];
    const word *first = z + POOLS + POOL_INSTANCES * p;
    if (p >= t[0]) return made == 0 && all_zero(first, POOL_INSTANCES);
    const word *pool = pool_at(t, p);
    if (has_start(pool) ? made != 1 : made > limit_of(pool)) return false;
    word most[DEFINED];
    mark_usable(pool, most);
    for (unsigned i = 0; i < made; i++)
        if (!instance_fits(first + INSTANCE_WORDS * i, most)) return false;
    return all_zero(first + INSTANCE_WORDS * made, INSTANCE_WORDS * (INSTANCES - made));
}

static bool queue_fits(const word *q) {
    unsigned n = q[0];
    if (n > MESSAGES) return false;
    for (unsigned k = 0; k < n; k++) {
        const word *slot = q + 1 + SLOT_WORDS * k;
        if (slot[0] > VALUES || !all_zero(slot + 1 + slot[0], VALUES - slot[0])) return false;
    }
    return all_zero(q + 1 + SLOT_WORDS * n, SLOT_WORDS * (MESSAGES - n));
}

bool fitting(const word *t, const word *z) {
    if (!valid(t)) return false;
    for (unsigned p = 0; p < POOLS; p++)
        if (!instances_fit(t, z, p)) return false;
    if (!pairs_fit(z + SHARED, STORES)) return false;
    for (unsigned m = 0; m < NAMES; m++)
        if (!queue_fits(z + QUEUES + QUEUE_WORDS * m)) return false;
    return true;
}

bool known_version(word version) { return version == REF_VERSION_10 || version == REF_VERSION_20; }

unsigned lent_number(const word *t, const word *z) { return !fitting(t, z) ? 10 : known_version(z[VERSION]) ? 0 : 25; }

ref_verdict ref_check(const word *t) {
    if (!table_fits(t)) return (ref_verdict){10, 0};
    unsigned k = lowest_broken(t);
    return (ref_verdict){k ? 4 : 0, k};
}

word ref_fresh(const word *t, word version, word *z) {
    if (!valid(t)) return 10;
    if (!known_version(version)) return 25;
    memset(z, 0, REF_STATE_WORDS * sizeof *z);
    z[VERSION] = version;
    for (unsigned p = 0; p < t[0]; p++) {
        const word *pool = pool_at(t, p);
        for (unsigned e = 0; e < pool[POOL_COUNT]; e++) {
            const word *el = element_at(pool, e);
            if (el[KIND] != START) continue;
            z[p] = 1;
            instance_at(z, p, 0)[el[ENTRIES + 1] - 1] = 1;
        }
    }
    return 0;
}
