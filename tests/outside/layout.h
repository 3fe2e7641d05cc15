/* Where things stand in a table and in a state, and the kinds: what the files of the reference share. */
#ifndef LAYOUT_H
#define LAYOUT_H

#include "reference.h"
#include <stdbool.h>
#include <string.h>

typedef ref_word word;

enum { POOLS = 4, ELEMENTS = 32, BRANCHES = 8, FEWEST = 2, EDGES = 48, TASKS = 16, NAMES = 16, INSTANCES = 16, FIELDS = 16, STORES = 16, VALUES = 4, ASSIGNMENTS = 4,
       MESSAGES = 64, COUNT_MOST = 255 };

/* the greatest value, and the greatest number that is none: of a step, of a run's limit */
#define GREATEST 4294967295u
#define NUMBER_MOST 65535u

/* An expression, item or condition: form, then two operands of two words each: 0 and a number, or 1 and a field. A field is 0 to 15, d0 to d15, or 16 to 31,
   s0 to s15: the stores, which all instances share. */
enum { ALL_FIELDS = FIELDS + STORES };
enum { EXPRESSION_WORDS = 5, LEFT = 1, RIGHT = 3 };
enum { SINGLE = 1, PLUS = 2, MINUS = 3, BIND = 4 };
enum { ALWAYS = 1, DEFAULT = 2, EQUALS = 3, BELOW = 4 };

/* An element's words. */
enum { KIND = 0, TASK_NUMBER = 1, MODE = 2, ENTRIES = 3, EXITS = 12, CONDITIONS = 21, ELEMENT_MESSAGES = 61, MESSAGE_WORDS = 22, ASSIGNED = 237,
       ASSIGNMENT_WORDS = 6, ELEMENT_WORDS = 262 };

/* A pool's words, behind the table's pool count. */
enum { POOL_LIMIT = 1, POOL_COUNT = 2, POOL_ELEMENTS = 3, POOL_WORDS = 8387 };

/* An instance's words; a state's. The stores are the first of the shared words, a flag and a value each, and the version is the last. */
enum { ACTIVE = 48, READY = 64, DEFINED = 80, INSTANCE_WORDS = 112, POOL_INSTANCES = INSTANCE_WORDS * INSTANCES, SHARED = 7172, SHARED_WORDS = 33, VERSION = 7204,
       QUEUES = SHARED + SHARED_WORDS, SLOT_WORDS = 5, QUEUE_WORDS = 321 };

enum { START = 1, START_RCV, END, TERMINATE, END_SND, INTER_RCV, INTER_SND, EVENT_BASED, AND_SPLIT, AND_JOIN, XOR_JOIN, XOR_SPLIT, TASK, TASK_RCV, TASK_SND,
       KINDS };

enum { ATOMIC = 1, NA_C = 2, NA_NC = 3 };

/* how often something stands in an element of a kind */
enum { NONE = 0, ONE = 1, MANY = 2 };

/* body: its form between the outer brackets, up to end */
struct kind { char keyword[16], body[32]; const char *end; uint8_t length, entries, exits, task, conditions, receives, sends; };
extern struct kind kinds[KINDS];

/* What a step asks for and does. */
enum { EVERY = 1, BRANCH = 2, UP = 1, DOWN = 2, PHASES = 4 };
struct move { uint8_t there, takes, puts, asks, receives, assigns, sends, active, ready, alone, makes, clears; };
/* of an element that fits, in a phase */
const struct move *move_of(const word *el, unsigned phase);

static inline const word *pool_at(const word *t, unsigned p) { return t + 1 + POOL_WORDS * p; }
static inline const word *element_at(const word *pool, unsigned e) { return pool + POOL_ELEMENTS + ELEMENT_WORDS * e; }
static inline unsigned limit_of(const word *pool) { return pool[POOL_LIMIT] ? pool[POOL_LIMIT] : 1; }
static inline const word *condition_at(const word *el, unsigned b) { return el + CONDITIONS + EXPRESSION_WORDS * b; }
static inline const word *message_at(const word *el, unsigned b) { return el + ELEMENT_MESSAGES + MESSAGE_WORDS * b; }
static inline const word *item_at(const word *message, unsigned j) { return message + 2 + EXPRESSION_WORDS * j; }
static inline const word *assignment_at(const word *el, unsigned j) { return el + ASSIGNED + 1 + ASSIGNMENT_WORDS * j; }
static inline word *instance_at(word *z, unsigned p, unsigned i) { return z + POOLS + POOL_INSTANCES * p + INSTANCE_WORDS * i; }
static inline unsigned defined_at(unsigned d) { return DEFINED + 2 * d; }
static inline unsigned value_at(unsigned d) { return defined_at(d) + 1; }
static inline word *queue_at(word *z, unsigned m) { return z + QUEUES + QUEUE_WORDS * m; }
static inline unsigned used(unsigned column, unsigned n) { return column == MANY ? n : column; }

static inline uint64_t two(const word *x) {
    uint64_t v;
    memcpy(&v, x, sizeof v);
    return v;
}

/* OR over words, two at a time, the last two by themselves: none is other than 0 */
static inline bool all_zero(const word *x, size_t n) {
    const word *end = x + n;
    uint64_t any = 0;
    if (n >= 2) {
        for (; end - x >= 16; x += 16) any |= two(x) | two(x + 2) | two(x + 4) | two(x + 6) | two(x + 8) | two(x + 10) | two(x + 12) | two(x + 14);
        for (; end - x > 2; x += 2) any |= two(x);
        any |= two(end - 2);
    } else
        for (; x < end; x++) any |= *x;
    return any == 0;
}

bool table_fits(const word *t);
unsigned lowest_broken(const word *t);
bool valid(const word *t);
bool fitting(const word *t, const word *z);
bool known_version(word version);
/* 10 or 25 for a table and a state that are lent, else 0 */
unsigned lent_number(const word *t, const word *z);
/* what a count over a state that fits gives, for one pool */
ref_record figures_of(const word *z, unsigned p);
/* a step where nobody keeps records */
ref_answer take_step(const word *t, word *z, ref_name n);
/* document 02's eleventh request, on a table that passed the checks: each endSnd becomes an interSnd and an end; false where a pool has no edge or no place left for one */
bool rewritten(word *t);
/* of a pool of a table that passes the checks */
bool is_nested(const word *pool);
/* a condition of an xorSplit by itself: 2 where the text is none, 3 with the place of the first number outside its range, else 0 */
unsigned condition_of(const uint8_t *text, size_t length, word *x, size_t *place);

#endif
