/* The engine and the reference in one program: the same calls on the same blocks.
   bench times CALLS     each call through both by turns; a line each: call, case, nanoseconds of the engine's, of the reference's, the ratio
   bench counts CALLS    each call once through either, for who counts the instructions (bench/count.h): call, case, who, and the steps to divide by
   bench sizes           a line for each case: its name and the bytes of its text, its drawing and its log
   CALLS: names with commas around each, as ,check,step, or all. Ends with 1 where the two differ. */
#include "count.h"
#include "cuttingvale.h"
#include "models.h"
#include <stdio.h>
#include <stdlib.h>
#include <time.h>

enum { ROUNDS = 41, BATCH = 8, LIMIT = 100 };

enum call { CHECK, FRESH, STEP, POST, LIST, RUN, READ, WRITE, POLL, DRAW, JUDGE };

/* A call in a case, with what is given to it; the time is divided by the steps that it takes. */
struct job { const char *name; const struct setting *setting; enum call call; size_t ordinal; ref_name step; unsigned steps; bool room, empty; };

/* All that the calls give back, one after the other; what a call does not give is 0. */
struct answer { size_t number, beside; ref_name name; ref_tuple tuple; };

struct blocks { word table[REF_TABLE_WORDS], states[BATCH][REF_STATE_WORDS]; ref_record records[BATCH][POOLS]; uint8_t buffer[REF_TEXT_MOST]; };

static struct blocks lent;

static const ref_tuple posted = {2, {5, 6, 0, 0}};

/* a poll of as many of these posts as there may be */
static word items[CV_POLL_WORDS];

static void make_items(void) {
    for (unsigned k = 0; k < CV_ITEMS; k++) {
        word *w = items + CV_ITEM(k);
        w[0] = 1, w[1] = 3;
        memcpy(w + 6, &posted, sizeof posted);
    }
}

/* on the state with a place, and its records */
static __attribute__((noinline)) void engine(const struct job *j, struct blocks *b, unsigned place, struct answer *a) {
    size_t tw = CV_TABLE_WORDS, sw = CV_STATE_WORDS, pools = b->table[0];
    word *state = b->states[place];
    cv_record *records = (cv_record *)b->records[place];
    cv_name step;
    cv_tuple values;
    switch (j->call) {
    case CHECK: {
        cv_verdict v = cv_check(b->table, tw);
        a->number = v.number, a->beside = v.beside;
        break;
    }
    case FRESH: a->number = cv_fresh(b->table, tw, CV_VERSION_20, state, sw); break;
    case STEP: {
        memcpy(&step, &j->step, sizeof step);
        cv_answer v = cv_step(b->table, tw, state, sw, records, pools, step);
        a->number = v.number, a->beside = v.traffic, a->name.pool = v.name;
        memcpy(&a->tuple, &v.tuple, sizeof a->tuple);
        break;
    }
    case POST:
        memcpy(&values, &posted, sizeof values);
        a->number = cv_post(b->table, tw, state, sw, 3, values);
        break;
    case LIST: {
        cv_listed v = cv_list(b->table, tw, state, sw, j->ordinal);
        a->number = v.number;
        memcpy(&a->name, &v.name, sizeof a->name);
        break;
    }
    case RUN: {
        cv_ran v = cv_run(b->table, tw, state, sw, records, pools, LIMIT);
        a->number = v.number, a->beside = v.steps, a->name.pool = v.left;
        break;
    }
    case READ: {
        cv_reading v = cv_read(j->setting->text, j->setting->length, b->table, tw);
        a->number = v.number, a->beside = v.beside;
        break;
    }
    case WRITE: {
        cv_written v = cv_write(b->table, tw, b->buffer, sizeof b->buffer);
        a->number = v.number, a->beside = v.length;
        break;
    }
    case POLL: {
        cv_polled v = cv_poll(b->table, tw, state, sw, records, pools, items, CV_POLL_WORDS, CV_ITEMS);
        a->number = v.number, a->beside = v.accepted;
        break;
    }
    case DRAW: {
        cv_reading v = cv_draw(j->setting->drawing, j->setting->drawing_length, b->table, tw);
        a->number = v.number, a->beside = v.beside;
        break;
    }
    case JUDGE: {
        cv_judged v = cv_judge(b->table, tw, CV_VERSION_20, j->setting->log, j->setting->log_length);
        a->number = v.number, a->beside = v.beside;
        break;
    }
    }
}

static __attribute__((noinline)) void reference(const struct job *j, struct blocks *b, unsigned place, struct answer *a) {
    word *state = b->states[place];
    ref_record *records = b->records[place];
    size_t pools = b->table[0];
    switch (j->call) {
    case CHECK: {
        ref_verdict v = ref_check(b->table);
        a->number = v.number, a->beside = v.beside;
        break;
    }
    case FRESH: a->number = ref_fresh(b->table, REF_VERSION_20, state); break;
    case STEP: {
        ref_answer v = ref_step(b->table, state, records, pools, j->step);
        a->number = v.number, a->beside = v.traffic, a->name.pool = v.name, a->tuple = v.tuple;
        break;
    }
    case POST: a->number = ref_post(b->table, state, 3, posted); break;
    case LIST: {
        ref_listed v = ref_list(b->table, state, j->ordinal);
        a->number = v.number, a->name = v.name;
        break;
    }
    case RUN: {
        ref_ran v = ref_run(b->table, state, records, pools, LIMIT);
        a->number = v.number, a->beside = v.steps, a->name.pool = v.left;
        break;
    }
    case READ: {
        ref_reading v = ref_read(j->setting->text, j->setting->length, b->table);
        a->number = v.number, a->beside = v.beside;
        break;
    }
    case WRITE: {
        ref_written v = ref_write(b->table, b->buffer, sizeof b->buffer);
        a->number = v.number, a->beside = v.length;
        break;
    }
    case POLL: {
        ref_polled v = ref_poll(b->table, state, records, pools, items, CV_ITEMS);
        a->number = v.number, a->beside = v.accepted;
        break;
    }
    case DRAW: {
        ref_reading v = ref_draw(j->setting->drawing, j->setting->drawing_length, b->table);
        a->number = v.number, a->beside = v.beside;
        break;
    }
    case JUDGE: {
        ref_judged v = ref_judge(b->table, REF_VERSION_20, j->setting->log, j->setting->log_length);
        a->number = v.number, a->beside = v.beside;
        break;
    }
    }
}

typedef void (*side)(const struct job *, struct blocks *, unsigned, struct answer *);

static void prepare(const struct job *j, struct blocks *b, unsigned states) {
    memcpy(b->table, j->setting->table, sizeof b->table);
    for (unsigned k = 0; k < states; k++) {
        memcpy(b->states[k], j->setting->state, sizeof b->states[k]);
        /* a post is accepted: its queue has room for one */
        word *q = queue_at(b->states[k], 3);
        if (j->empty) memset(q, 0, (1 + SLOT_WORDS * MESSAGES) * sizeof *q);
        if (j->room && q[0] == MESSAGES) memset(q + 1 + SLOT_WORDS * --q[0], 0, SLOT_WORDS * sizeof *q);
        for (unsigned p = 0; p < POOLS; p++) b->records[k][p] = figures_of(b->states[k], p);
    }
}

static void compare(const struct job *j) {
    static struct blocks other;
    struct answer a, b;
    memset(&a, 0, sizeof a), memset(&b, 0, sizeof b);
    memset(lent.buffer, 0xa5, sizeof lent.buffer), memset(other.buffer, 0xa5, sizeof other.buffer);
    prepare(j, &lent, 1), prepare(j, &other, 1);
    engine(j, &lent, 0, &a);
    reference(j, &other, 0, &b);
    unsigned wanted = j->call == LIST && j->ordinal && a.number == 6 ? 6 : 0;
    if (memcmp(&a, &b, sizeof a) == 0 && memcmp(&lent, &other, sizeof lent.table + sizeof *lent.states) == 0
        && memcmp(lent.records, other.records, sizeof *lent.records) == 0 && memcmp(lent.buffer, other.buffer, sizeof lent.buffer) == 0 && a.number == wanted)
        return;
    fprintf(stderr, "bench: %s on %s: engine and reference differ (numbers %zu and %zu, beside them %zu and %zu)\n", j->name, j->setting->name, a.number, b.number,
            a.beside, b.beside);
    exit(1);
}

static double now(void) {
    struct timespec t;
    clock_gettime(CLOCK_PROCESS_CPUTIME_ID, &t);
    return t.tv_sec * 1e9 + t.tv_nsec;
}

static double timed(side call, const struct job *j, unsigned n) {
    struct answer a;
    prepare(j, &lent, n);
    double from = now();
    for (unsigned k = 0; k < n; k++) call(j, &lent, k, &a);
    return (now() - from) / n;
}

static int by_size(const void *a, const void *b) {
    double x = *(const double *)a, y = *(const double *)b;
    return x < y ? -1 : x > y;
}

static double median(double *times) {
    qsort(times, ROUNDS, sizeof *times, by_size);
    return times[ROUNDS / 2];
}

static void time_job(const struct job *j) {
    double ours[ROUNDS], theirs[ROUNDS], ratios[ROUNDS];
    unsigned n = timed(engine, j, 1) > 1e6 ? 1 : BATCH;
    for (unsigned r = 0; r < ROUNDS; r++) {
        if (r % 2) theirs[r] = timed(reference, j, n);
        ours[r] = timed(engine, j, n);
        if (r % 2 == 0) theirs[r] = timed(reference, j, n);
        ratios[r] = ours[r] / theirs[r];
    }
    /* the two of a round ran under the same load: their ratio is steadier than that of the medians */
    printf("%s\t%s\t%.0f\t%.0f\t%.2f\n", j->name, j->setting->name, median(ours) / j->steps, median(theirs) / j->steps, median(ratios));
    fflush(stdout);
}

static void count_call(side call, const struct job *j, const char *who) {
    char label[64];
    struct answer a;
    snprintf(label, sizeof label, "%s\t%s\t%s\t%u", j->name, j->setting->name, who, j->steps);
    prepare(j, &lent, 1);
    count_from();
    call(j, &lent, 0, &a);
    count_to(label);
}

static void count_job(const struct job *j) {
    count_call(engine, j, "engine");
    count_call(reference, j, "reference");
}

/* How many steps are listed. */
static size_t listed(const struct setting *s) {
    size_t none = 1, some = 0; /* the count is above or at `some`, and below `none` + 1 */
    while (ref_list(s->table, s->state, none - 1).number == 0) some = none, none *= 2;
    while (none - some > 1) {
        size_t middle = some + (none - some) / 2;
        if (ref_list(s->table, s->state, middle - 1).number == 0) some = middle;
        else none = middle;
    }
    return some;
}

static bool asked(const char *calls, const char *name) {
    char word[32];
    snprintf(word, sizeof word, ",%.*s,", (int)strcspn(name, " "), name);
    return !strcmp(calls, "all") || strstr(calls, word);
}

static void each_job(const char *calls, void (*act)(const struct job *)) {
    static word state[REF_STATE_WORDS];
    ref_record records[POOLS];
    for (unsigned k = 0; k < SETTINGS; k++) {
        const struct setting *s = &settings[k];
        bool text_only = s->longest;
        size_t n = text_only ? 0 : listed(s);
        memcpy(state, s->state, sizeof state);
        ref_figures(s->table, state, records, s->table[0]);
        struct job jobs[] = {
            {.name = "check", .call = CHECK, .steps = 1},
            {.name = "fresh", .call = FRESH, .steps = 1},
            {.name = "step", .call = STEP, .step = ref_list(s->table, s->state, 0).name, .steps = 1},
            {.name = "post", .call = POST, .room = true, .steps = 1},
            {.name = "list first", .call = LIST, .steps = 1},
            {.name = "list last", .call = LIST, .ordinal = n ? n - 1 : 0, .steps = 1},
            {.name = "list none", .call = LIST, .ordinal = n, .steps = 1},
            {.name = "run", .call = RUN, .steps = ref_run(s->table, state, records, s->table[0], LIMIT).steps},
            {.name = "read", .call = READ, .steps = 1},
            {.name = "write", .call = WRITE, .steps = 1},
            {.name = "poll", .call = POLL, .empty = true, .steps = CV_ITEMS},
            {.name = "draw", .call = DRAW, .steps = 1},
            {.name = "judge", .call = JUDGE, .steps = 1},
        };
        for (unsigned c = 0; c < sizeof jobs / sizeof *jobs; c++) {
            if (!asked(calls, jobs[c].name) || (text_only && jobs[c].call != READ)) continue;
            jobs[c].setting = s;
            compare(&jobs[c]);
            act(&jobs[c]);
        }
    }
}

int main(int count, char **words) {
    make_settings();
    make_items();
    if (count == 3 && !strcmp(words[1], "times")) each_job(words[2], time_job);
    else if (count == 3 && !strcmp(words[1], "counts")) each_job(words[2], count_job);
    else if (count == 2 && !strcmp(words[1], "sizes"))
        for (unsigned k = 0; k < SETTINGS; k++) printf("%s\t%zu\t%zu\t%zu\n", settings[k].name, settings[k].length, settings[k].drawing_length, settings[k].log_length);
    else {
        fprintf(stderr, "usage: bench times CALLS, bench counts CALLS, or bench sizes\n");
        return 2;
    }
    return 0;
}
