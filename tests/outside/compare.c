/* The engine against the reference: the same calls on the same blocks, and every byte lent to either compared after each call.
   compare calls CASES SEED              prints how many calls agreed, or the first difference with what led to it, and ends with 1
   compare drawings CASES SEED           the same for drawings
   compare drawing CASE                  prints the drawing of a case
   compare logs CASES SEED               the same for logs, four for each model, and a beginning of each
   compare repairs CASES SEED            the same for logs that ended in the middle
   compare journals CASES SEED           the same for logs written call by call: replayed, cut, repaired, resumed behind a checkpoint
   compare nestings CASES SEED           the same for nested models and models that nearly are, and what is promised of nested ones
   compare accounts CASES SEED           the same from fresh states; for each name and tuple what was posted and sent is what is queued and was consumed
   compare journal CASE                  prints the journal of a case, closed
   compare cuts FILE                     a log cut off at every byte, judged and repaired
   compare worst                         drawings, logs and texts that hold as much of one thing as fits, and models that loop: compared, and timed, a line each
   compare worst counts                  the same, the engine's calls alone, for who counts their instructions (bench/count.h)
   compare sessions FIRST COUNT SEED     prints sessions for the two consoles, one after the other */
#include "accounts.h"
#include "../../bench/count.h"
#include "cuttingvale.h"
#include "generate.h"
#include <stdio.h>
#include <stdlib.h>
#include <sys/mman.h>
#include <time.h>
#include <unistd.h>

enum { TEXT_ROOM = REF_TEXT_MOST + 64, DRAWING_ROOM = 80000, VALUES_TOLD = 300 };

/* Each library has blocks of its own, which end where no page can be read. */
struct blocks { word *table, *state; uint8_t *buffer; ref_record *records; };

/* records lent at most: more than there are pools */
enum { RECORDS = 6 };

static void *lend(size_t bytes) {
    size_t page = sysconf(_SC_PAGESIZE), room = (bytes + page - 1) / page * page;
    uint8_t *at = mmap(NULL, room + page, PROT_READ | PROT_WRITE, MAP_PRIVATE | MAP_ANONYMOUS, -1, 0);
    if (at == MAP_FAILED || mprotect(at + room, page, PROT_NONE)) {
        perror("compare: cannot lend a block");
        exit(2);
    }
    return at + room - bytes;
}

static struct blocks lend_all(void) {
    return (struct blocks){lend(REF_TABLE_WORDS * sizeof(word)), lend(REF_STATE_WORDS * sizeof(word)), lend(TEXT_ROOM), lend(RECORDS * sizeof(ref_record))};
}

static struct blocks ours, theirs;
static char text[DRAWING_ROOM];
static uint8_t *lent_text; /* ends where no page can be read */
static size_t text_length;
static uint64_t calls, seed_of_case;
static unsigned given[32], owned[32], known, readings[32], nestings[32], resumed[32], journaled;
static struct account totals;

static void differ(const char *call, const char *what, unsigned engine, unsigned reference) {
    printf("difference in %s, case %llu: %s: engine %u, reference %u\n", call, (unsigned long long)seed_of_case, what, engine, reference);
    printf("text: ");
    fwrite(text, 1, text_length, stdout);
    putchar('\n');
    exit(1);
}

static void same(const char *call, const char *what, size_t engine, size_t reference) {
    if (engine != reference) differ(call, what, (unsigned)engine, (unsigned)reference);
}

static void same_words(const char *call, const char *what, const word *a, const word *b, size_t n) {
    if (memcmp(a, b, n * sizeof *a) == 0) return;
    for (size_t k = 0; k < n; k++)
        if (a[k] != b[k]) {
            printf("word %zu of the %s\n", k, what);
            differ(call, what, a[k], b[k]);
        }
}

static void same_blocks(const char *call) {
    calls++;
    same_words(call, "table", ours.table, theirs.table, REF_TABLE_WORDS);
    same_words(call, "state", ours.state, theirs.state, REF_STATE_WORDS);
    same_words(call, "records", &ours.records->made, &theirs.records->made, RECORDS * sizeof(ref_record) / sizeof(word));
}

static void same_tuple(const char *call, cv_tuple a, ref_tuple b) {
    same(call, "length", a.length, b.length);
    for (unsigned j = 0; j < VALUES; j++) same(call, "value", a.values[j], b.values[j]);
}

static cv_tuple as_ours(ref_tuple g) { return (cv_tuple){g.length, {g.values[0], g.values[1], g.values[2], g.values[3]}}; }

static void same_name(const char *call, cv_name a, ref_name b) {
    same(call, "pool", a.pool, b.pool);
    same(call, "instance", a.instance, b.instance);
    same(call, "element", a.element, b.element);
    same(call, "phase", a.phase, b.phase);
    same(call, "branch", a.branch, b.branch);
    same_tuple(call, a.given, b.given);
}

/* the items of a poll, with 0 where a post has no use for a word */
static word items[CV_POLL_WORDS];
static unsigned polled[32];

#define TABLE ours.table, CV_TABLE_WORDS
#define STATE ours.state, CV_STATE_WORDS
/* the last records of the block, which end where no page can be read */
#define OUR_RECORDS (cv_record *)(ours.records + RECORDS - pools), pools
#define THEIR_RECORDS theirs.records + RECORDS - pools, pools

/* how many records are lent: mostly as many as there are pools */
static size_t pools;

/* the text, where it ends at a page that cannot be read */
static const uint8_t *lent(void) { return memcpy(lent_text + DRAWING_ROOM - text_length, text, text_length); }

static unsigned read_both(void) {
    const uint8_t *lent_here = lent();
    cv_reading a = cv_read(lent_here, text_length, TABLE);
    ref_reading b = ref_read(lent_here, text_length, theirs.table);
    same("read", "number", a.number, b.number);
    same("read", "beside", a.beside, b.beside);
    same_blocks("read");
    readings[b.number]++;
    return b.number;
}

/* The model that the generator made, before it is spoiled: its table is the one that it must be read as, 28 where there is none. */
static void read_rewritten(void) {
    static char out[REF_TEXT_MOST];
    static word table[REF_TABLE_WORDS];
    size_t n = model_without_end_sends(text, text_length, out);
    unsigned number = read_both();
    if (number == 4) return; /* a generated model that breaks a check */
    same("read", "28 where no edge or element is free", number, n ? 0 : 28);
    if (number) return;
    same("read", "the rewritten text", cv_read((const uint8_t *)out, n, table, REF_TABLE_WORDS).number, 0);
    same_words("read", "table of the rewritten text", ours.table, table, REF_TABLE_WORDS);
}

/* how often each rule was told */
static unsigned rules[32];

static void diagnose_both(const uint8_t *lent_here) {
    ref_diagnosis b = ref_diagnose(lent_here, text_length);
    cv_diagnosis a = cv_diagnose(lent_here, text_length);
    same("diagnose", "number", a.number, b.number);
    same("diagnose", "rule", a.rule, b.rule);
    same("diagnose", "place", a.place, b.place);
    if (b.number == 21) rules[b.rule]++;
}

/* The number due is the generator's; what was drawn is also what its text gives. */
static void draw_both(int due) {
    static word table[REF_TABLE_WORDS];
    static uint8_t written[REF_TEXT_MOST];
    const uint8_t *lent_here = lent();
    ref_reading b = ref_draw(lent_here, text_length, theirs.table);
    given[b.number]++;
    if (due >= 0 && (unsigned)due != b.number) {
        printf("the generator counts on %d\n", due);
        differ("draw", "number", due, b.number);
    }
    cv_reading a = cv_draw(lent_here, text_length, TABLE);
    same("draw", "number", a.number, b.number);
    same("draw", "beside", a.beside, b.beside);
    same_blocks("draw");
    diagnose_both(lent_here);
    if (b.number) return;
    ref_written w = ref_write(theirs.table, written, sizeof written);
    same("draw", "text", w.number, 0);
    same("draw", "its text read", ref_read(written, w.length, table).number, 0);
    same_words("draw", "table of its text", ours.table, table, REF_TABLE_WORDS);
}

/* What is known of the answer is the generator's. */
static ref_judged judge_both(word version, log_due due) {
    const uint8_t *log = lent();
    ref_judged b = ref_judge(theirs.table, version, log, text_length);
    given[b.number]++;
    if (b.number == 24) owned[b.own]++;
    if (due.number >= 0 && (due.number != (int)b.number || due.beside != b.beside || due.own != b.own)) {
        printf("the generator counts on %d %zu %u; the reference says %u %zu %u\n", due.number, due.beside, due.own, b.number, b.beside, b.own);
        differ("judge", "answer", due.number, b.number);
    }
    known += due.number >= 0;
    cv_judged a = cv_judge(TABLE, version, log, text_length);
    same("judge", "number", a.number, b.number);
    same("judge", "beside", a.beside, b.beside);
    same("judge", "own", a.own, b.own);
    if (memcmp(log, text, text_length)) differ("judge", "log", 0, 0);
    same_blocks("judge");
    return b;
}

/* The log replayed, and resumed from the state that is there: the state is the log's or stays. */
static void replay_both(word version) {
    const uint8_t *log = lent();
    ref_judged b = ref_replay(theirs.table, version, log, text_length, theirs.state);
    cv_judged a = cv_replay(TABLE, version, log, text_length, STATE);
    same("replay", "number", a.number, b.number);
    same("replay", "beside", a.beside, b.beside);
    same("replay", "own", a.own, b.own);
    same_blocks("replay");
}

static void resume_both(void) {
    const uint8_t *log = lent();
    ref_judged b = ref_resume(theirs.table, theirs.state, log, text_length);
    cv_judged a = cv_resume(TABLE, STATE, log, text_length);
    same("resume", "number", a.number, b.number);
    same("resume", "beside", a.beside, b.beside);
    same("resume", "own", a.own, b.own);
    same_blocks("resume");
    resumed[b.number]++;
}

/* A beginning of a text up to where it is at fault, or of one that is not, is 23 at its own end, or a log itself. */
static void judge_beginning(struct random *r, word version, ref_judged whole) {
    size_t right = whole.number == 23 ? whole.beside : text_length;
    if (whole.number == 10 || whole.number == 25 || text_length > 65536) return;
    text_length = draw(r, right + 1);
    ref_judged b = judge_both(version, (log_due){-1, 0, 0});
    if (b.number == 23) same("judge", "the place of what was cut off", b.beside, text_length);
}

/* A repair of both, into a buffer that ends where no page can be read. */
static ref_repaired repair_into(size_t room) {
    const uint8_t *log = lent();
    uint8_t *mine = ours.buffer + TEXT_ROOM - room, *other = theirs.buffer + TEXT_ROOM - room;
    memset(mine, 0xa5, room);
    memset(other, 0xa5, room);
    ref_repaired b = ref_repair(log, text_length, other, room);
    cv_repaired a = cv_repair(log, text_length, mine, room);
    same("repair", "number", a.number, b.number);
    same("repair", "length", a.length, b.length);
    same("repair", "kept", a.kept, b.kept);
    same("repair", "dropped", a.dropped, b.dropped);
    if (memcmp(mine, other, room)) differ("repair", "buffer", 0, 0);
    if (memcmp(log, text, text_length)) differ("repair", "log", 0, 0);
    given[b.number]++;
    calls++;
    return b;
}

/* A model with which any log is judged. */
static ref_judged judged_alone(const uint8_t *log, size_t length) {
    static const char model[] = "pool(1,start(1,2)|end(2))";
    static word table[REF_TABLE_WORDS];
    if (!table[0]) ref_read((const uint8_t *)model, strlen(model), table);
    return ref_judge(table, REF_VERSION_20, log, length);
}

/* What is known of a repair: what judge says of the text, of the output and of the text's beginning that is in it. */
static ref_repaired repair_both(size_t room) {
    static uint8_t out[REF_TEXT_MOST], again[REF_TEXT_MOST];
    ref_repaired r = repair_into(room), whole = ref_repair((const uint8_t *)text, text_length, out, sizeof out), twice;
    ref_judged j = judged_alone((const uint8_t *)text, text_length);
    bool is_log = j.number != 23, cut_off = j.number == 23 && j.beside == text_length && text_length <= 65536;
    same("repair", "27 where the text is wrong before its end", whole.number == 27 && !is_log && !cut_off, !is_log && !cut_off);
    if (whole.number == 0) same("repair", "5 exactly where there is no room", r.number, room < whole.length ? 5 : 0);
    else same("repair", "the number, whatever the room", r.number, whole.number);
    if (whole.number) return r;
    if (is_log) same("repair", "the same bytes", whole.dropped == 0 && whole.length == text_length && !memcmp(out, text, text_length), 1);
    same("repair", "the beginning", memcmp(out, text, text_length - whole.dropped), 0);
    same("repair", "no 23 of the output", judged_alone(out, whole.length).number != 23, 1);
    twice = ref_repair(out, whole.length, again, sizeof again);
    same("repair", "twice", twice.number == 0 && twice.length == whole.length && twice.kept == whole.kept && !twice.dropped && !memcmp(out, again, twice.length), 1);
    return r;
}

static void check_both(void) {
    cv_verdict a = cv_check(TABLE);
    ref_verdict b = ref_check(theirs.table);
    same("check", "number", a.number, b.number);
    same("check", "beside", a.beside, b.beside);
    same_blocks("check");
}

static ref_verdict nested_both(void) {
    cv_verdict a = cv_nested(TABLE);
    ref_verdict b = ref_nested(theirs.table);
    same("nested", "number", a.number, b.number);
    same("nested", "pool", a.beside, b.beside);
    same_blocks("nested");
    return b;
}

static void fresh_both(word version) {
    same("fresh", "number", cv_fresh(TABLE, version, STATE), ref_fresh(theirs.table, version, theirs.state));
    same_blocks("fresh");
}

static void figures_both(void) {
    same("figures", "number", cv_figures(TABLE, STATE, OUR_RECORDS), ref_figures(theirs.table, theirs.state, THEIR_RECORDS));
    same_blocks("figures");
}

/* Behind a call that looked at a state that fits: each record is what a count over the engine's state gives, and where a step was taken, only its pool's has changed. */
static void agreed(const char *call, unsigned number, const ref_record *before, unsigned pool) {
    const ref_record *records = ours.records + RECORDS - pools;
    if (number == 10 || number == 22 || number == 25 || number == 26) return;
    same(call, "count of records", pools, ours.table[0]);
    for (unsigned p = 0; p < pools; p++) {
        ref_record r = figures_of(ours.state, p);
        same(call, "record", memcmp(&r, records + p, sizeof r), 0);
        same(call, "made, of unfinished and finished", r.made, r.unfinished + r.finished);
        if (before && (number || pool_at(ours.table, p)[0] != pool)) same(call, "another pool's record", memcmp(before + RECORDS - pools + p, records + p, sizeof r), 0);
    }
}

static ref_answer step_both(ref_name n) {
    ref_record before[RECORDS];
    memcpy(before, ours.records, sizeof before);
    cv_answer a = cv_step(TABLE, STATE, OUR_RECORDS, (cv_name){n.pool, n.instance, n.element, n.phase, n.branch, as_ours(n.given)});
    ref_answer b = ref_step(theirs.table, theirs.state, THEIR_RECORDS, n);
    agreed("step", b.number, before, n.pool);
    same("step", "number", a.number, b.number);
    same("step", "traffic", a.traffic, b.traffic);
    same("step", "name", a.name, b.name);
    same_tuple("step", a.tuple, b.tuple);
    same_blocks("step");
    given[b.number]++;
    return b;
}

static unsigned post_both(unsigned name, ref_tuple g) {
    unsigned number = ref_post(theirs.table, theirs.state, name, g);
    same("post", "number", cv_post(TABLE, STATE, name, as_ours(g)), number);
    same_blocks("post");
    return number;
}

static void list_both(size_t k) {
    cv_listed a = cv_list(TABLE, STATE, k);
    ref_listed b = ref_list(theirs.table, theirs.state, k);
    same("list", "number", a.number, b.number);
    same_name("list", a.name, b.name);
    same_blocks("list");
}

static void run_both(unsigned limit) {
    cv_ran a = cv_run(TABLE, STATE, OUR_RECORDS, limit);
    ref_ran b = ref_run(theirs.table, theirs.state, THEIR_RECORDS, limit);
    agreed("run", b.number, NULL, 0);
    same("run", "number", a.number, b.number);
    same("run", "steps", a.steps, b.steps);
    same("run", "left", a.left, b.left);
    same_blocks("run");
}

/* The buffer ends at the page that cannot be read, whatever its length. */
static void write_both(size_t length) {
    uint8_t *mine = ours.buffer + TEXT_ROOM - length, *other = theirs.buffer + TEXT_ROOM - length;
    memset(mine, 0xa5, length);
    memset(other, 0xa5, length);
    cv_written a = cv_write(TABLE, mine, length);
    ref_written b = ref_write(theirs.table, other, length);
    same("write", "number", a.number, b.number);
    same("write", "length", a.length, b.length);
    if (memcmp(mine, other, length)) differ("write", "buffer", 0, 0);
    same_blocks("write");
}

/* A wrong length or no block at all is 10, no text and no buffer are short ones, and nothing is touched. */
static void wrong_lengths(struct random *r) {
    size_t n = draw(r, 140000);
    cv_name name = {0};
    cv_tuple none = {0};
    if (n == CV_TABLE_WORDS || n == CV_STATE_WORDS) return;
    same("check", "wrong length", cv_check(ours.table, n).number, 10);
    same("check", "no block", cv_check(NULL, 0).number, 10);
    same("nested", "wrong length", cv_nested(ours.table, n).number, 10);
    same("nested", "no block", cv_nested(NULL, 0).number, 10);
    same("fresh", "wrong length", cv_fresh(ours.table, n, CV_VERSION_20, STATE), 10);
    same("fresh", "wrong state", cv_fresh(TABLE, CV_VERSION_10, ours.state, n), 10);
    same("fresh", "no block, and another version", cv_fresh(TABLE, 15, NULL, 0), 10);
    same("step", "wrong length", cv_step(TABLE, ours.state, n, OUR_RECORDS, name).number, 10);
    same("post", "wrong length", cv_post(ours.table, n, STATE, 0, none), 10);
    same("list", "wrong length", cv_list(TABLE, ours.state, n, 0).number, 10);
    same("run", "wrong length", cv_run(TABLE, ours.state, n, OUR_RECORDS, 1).number, 10);
    same("poll", "wrong length", cv_poll(TABLE, ours.state, n, OUR_RECORDS, items, CV_POLL_WORDS, 1).number, 10);
    same("poll", "no items lent", cv_poll(TABLE, STATE, OUR_RECORDS, NULL, 0, 0).number, 10);
    same("poll", "too many, and a wrong length", cv_poll(ours.table, n, STATE, OUR_RECORDS, items, CV_POLL_WORDS, CV_ITEMS + 1).number, 22);
    same("figures", "wrong length", cv_figures(ours.table, n, STATE, OUR_RECORDS), 10);
    same("figures", "no state and no records", cv_figures(TABLE, NULL, 0, NULL, 0), 10);
    unsigned number = lent_number(theirs.table, theirs.state);
    if (!number) number = 26;
    same("figures", "no records", cv_figures(TABLE, STATE, NULL, 0), number);
    same("step", "no records", cv_step(TABLE, STATE, NULL, 0, name).number, number);
    same("run", "no records", cv_run(TABLE, STATE, NULL, 0, 1).number, number);
    same("poll", "no records", cv_poll(TABLE, STATE, NULL, 0, items, CV_POLL_WORDS, 0).number, number);
    same("poll", "too many, and no records", cv_poll(TABLE, STATE, NULL, 0, items, CV_POLL_WORDS, CV_ITEMS + 1).number, 22);
    same("read", "wrong length", cv_read((const uint8_t *)text, text_length, ours.table, n).number, 10);
    same("write", "wrong length", cv_write(ours.table, n, ours.buffer, TEXT_ROOM).number, 10);
    same("read", "no text", cv_read(NULL, 0, TABLE).number, 2);
    same("write", "no buffer", cv_write(TABLE, NULL, 0).number, ref_write(theirs.table, theirs.buffer, 0).number);
    same("draw", "wrong length", cv_draw((const uint8_t *)text, text_length, ours.table, n).number, 10);
    same("draw", "no text", cv_draw(NULL, 0, TABLE).number, 20);
    same("diagnose", "no text", cv_diagnose(NULL, 0).number, 20);
    same("judge", "wrong length", cv_judge(ours.table, n, CV_VERSION_10, (const uint8_t *)text, text_length).number, 10);
    same("judge", "no table, and another version", cv_judge(NULL, 0, 15, NULL, 0).number, 10);
    same("judge", "no log", cv_judge(TABLE, CV_VERSION_20, NULL, 0).number, ref_judge(theirs.table, REF_VERSION_20, NULL, 0).number);
    same("replay", "wrong length", cv_replay(ours.table, n, CV_VERSION_20, NULL, 0, STATE).number, 10);
    same("replay", "wrong state", cv_replay(TABLE, CV_VERSION_20, NULL, 0, ours.state, n).number, 10);
    same("replay", "no state, and another version", cv_replay(TABLE, 15, NULL, 0, NULL, 0).number, 10);
    same("resume", "wrong length", cv_resume(ours.table, n, STATE, NULL, 0).number, 10);
    same("resume", "wrong state", cv_resume(TABLE, ours.state, n, NULL, 0).number, 10);
    same("log_begin", "no buffer", cv_log_begin(NULL, 0).number, 5);
    same("log_step", "no buffer", cv_log_step(name, (cv_answer){0}, 1, NULL, 0).number, 5);
    same("log_post", "no buffer", cv_log_post(0, none, 1, NULL, 0).number, 5);
    same("log_end", "no buffer", cv_log_end(NULL, 0).number, 5);
    calls += 39;
    same_blocks("a call with a wrong length or none");
}

/* A word of a block, one of n from a place on, and what it becomes: mostly a small number, or another in its upper half alone, at a place that is in use. */
struct harm { size_t at; word becomes; };

static struct harm harm_to(struct random *r, const word *block, size_t n, size_t from) {
    size_t at = from + draw(r, n);
    for (unsigned k = 0; k < 30 && !block[at]; k++) at = from + draw(r, n);
    if (chance(r, 40)) at = from + draw(r, n);
    word flipped = block[at] ^ 1u << (chance(r, 75) ? 16 + draw(r, 16) : draw(r, 16));
    return (struct harm){at, chance(r, 45) ? draw(r, 20) : chance(r, 70) ? flipped : chance(r, 50) ? some_end(r) : any_word(r)};
}

static struct harm some_harm(struct random *r, bool table) {
    bool anywhere = chance(r, 40);
    unsigned p = draw(r, 2), i = draw(r, 2), e = draw(r, 4);
    word *t = theirs.table, *z = theirs.state;
    if (table && anywhere) return harm_to(r, t, REF_TABLE_WORDS, 0);
    if (table) return harm_to(r, t, ELEMENT_WORDS, element_at(pool_at(t, p), e) - t);
    if (chance(r, 15)) return (struct harm){VERSION, some_version(r)};
    if (chance(r, 25)) return harm_to(r, z, 2 * STORES, SHARED);
    if (anywhere) return harm_to(r, z, REF_STATE_WORDS, 0);
    return harm_to(r, z, INSTANCE_WORDS, instance_at(z, p, i) - z);
}

static void damage_both(struct random *r, bool table) {
    for (unsigned k = 1 + draw(r, 2); k; k--) {
        struct harm h = some_harm(r, table);
        (table ? ours.table : ours.state)[h.at] = (table ? theirs.table : theirs.state)[h.at] = h.becomes;
    }
}

/* An end, or a send, as the endSnd that it may have been before there was none: the table breaks a limit. */
static void damage_end(struct random *r) {
    const word *pool = pool_at(theirs.table, draw(r, theirs.table[0]));
    word *el = (word *)element_at(pool, draw(r, pool[POOL_COUNT]));
    if (el[KIND] != END && el[KIND] != INTER_SND) return;
    el[KIND] = END_SND;
    memset(el + EXITS, 0, (CONDITIONS - EXITS) * sizeof *el);
    memcpy(ours.table, theirs.table, REF_TABLE_WORDS * sizeof *el);
    same("check", "10 for an endSnd", ref_check(theirs.table).number, 10);
}

/* A state near its ends: counts at 254 and 255, queues at 63 and 64; it still fits. */
static void fill_up(struct random *r) {
    for (unsigned p = 0; p < ours.table[0]; p++)
        for (unsigned i = 0; i < ours.state[p]; i++) {
            const word *pool = pool_at(ours.table, p);
            word *h = instance_at(ours.state, p, i);
            for (unsigned e = 0; e < pool[POOL_COUNT]; e++) {
                const word *el = element_at(pool, e);
                for (unsigned j = 0; j < el[ENTRIES]; j++)
                    if (chance(r, 40)) h[el[ENTRIES + 1 + j] - 1] = chance(r, 50) ? 1 : 254 + draw(r, 2);
                if (el[MODE] < NA_C) continue;
                if (chance(r, 40)) h[ACTIVE + el[TASK_NUMBER] - 1] = chance(r, 50) ? 1 : 254 + draw(r, 2);
                if (el[KIND] != TASK && chance(r, 40)) h[READY + el[TASK_NUMBER] - 1] = chance(r, 50) ? 1 : 254 + draw(r, 2);
            }
            for (unsigned d = 0; d < 4; d++)
                if (chance(r, 50)) h[defined_at(d)] = 1, h[value_at(d)] = chance(r, 90) ? draw(r, 4) : some_end(r);
        }
    for (unsigned k = 0; k < STORES; k++)
        if (chance(r, k < 4 ? 50 : 20)) ours.state[SHARED + 2 * k] = 1, ours.state[SHARED + 2 * k + 1] = chance(r, 90) ? draw(r, 4) : some_end(r);
    for (unsigned m = 0; m < NAMES; m++) {
        if (!chance(r, 30)) continue;
        word *q = queue_at(ours.state, m);
        for (unsigned k = q[0], n = 62 + draw(r, 3); k < n; k++) {
            q[0] = k + 1;
            q[1 + SLOT_WORDS * k] = draw(r, 5);
            for (unsigned j = 0; j < q[1 + SLOT_WORDS * k]; j++) q[2 + SLOT_WORDS * k + j] = chance(r, 90) ? draw(r, 3) : some_end(r);
        }
    }
    memcpy(theirs.state, ours.state, REF_STATE_WORDS * sizeof(word));
}

/* Records that do not agree: a word changed, two of them exchanged, more or fewer of them than pools, those of another state. */
static void damage_records(struct random *r) {
    ref_record *all = theirs.records, *first = all + RECORDS - pools, one = *first, old[RECORDS] = {0};
    unsigned which = draw(r, 10), other = draw(r, pools);
    struct harm h = harm_to(r, &first->made, 3 * pools, 0);
    if (which < 5) (&first->made)[h.at] = h.becomes;
    else if (which < 6) *first = first[other], first[other] = one;
    else if (which < 9) {
        memcpy(old, first, pools * sizeof *old);
        pools = draw(r, RECORDS + 1);
        memcpy(all + RECORDS - pools, old, pools * sizeof *old);
    } else fill_up(r);
    memcpy(ours.records, all, RECORDS * sizeof *all);
}

/* A queued message but for one value, or for its upper half alone. */
static void nearly_queued(struct random *r, unsigned name, ref_tuple *g) {
    const word *q = queue_at(theirs.state, name);
    if (q[0] < 1 || q[0] > MESSAGES) return;
    memcpy(g, q + 1 + SLOT_WORDS * draw(r, q[0]), sizeof *g);
    if (g->length < 1 || g->length > VALUES) return;
    word *v = &g->values[draw(r, g->length)];
    *v = chance(r, 50) ? *v ^ 1u << (16 + draw(r, 16)) : draw(r, 4);
}

/* A message of some receiver of a model; NULL where none was met. */
static const word *some_template(struct random *r) {
    for (unsigned tries = 0; tries < 20; tries++) {
        const word *pool = pool_at(theirs.table, draw(r, theirs.table[0] <= POOLS && theirs.table[0] ? theirs.table[0] : POOLS));
        if (pool[POOL_COUNT] < 1 || pool[POOL_COUNT] > ELEMENTS) return NULL;
        const word *el = element_at(pool, draw(r, pool[POOL_COUNT]));
        if (el[KIND] && el[KIND] < KINDS && kinds[el[KIND]].receives) return message_at(el, el[KIND] == EVENT_BASED ? draw(r, 1 + el[EXITS] % BRANCHES) : 0);
    }
    return NULL;
}

/* A message that some template of the model may take: the numbers that it names stand in it. */
static unsigned likely_post(struct random *r, ref_tuple *g) {
    const word *m = some_template(r);
    *g = some_tuple(r);
    if (!m || chance(r, 10)) return chance(r, 95) ? draw(r, chance(r, 90) ? NAMES : 300) : 65536 + draw(r, NAMES);
    if (g->length <= VALUES && m[1] <= VALUES && chance(r, 80)) g->length = m[1];
    for (unsigned j = 0; j < VALUES && chance(r, 95); j++)
        if (item_at(m, j)[0] == SINGLE && item_at(m, j)[LEFT] == 0) g->values[j] = item_at(m, j)[LEFT + 1];
    if (m[0] < NAMES && chance(r, 20)) nearly_queued(r, m[0], g);
    return m[0];
}

/* The items of a poll; a reference plays along on a state of its own, so that most of them are accepted. */
static size_t some_items(struct random *r) {
    static word state[REF_STATE_WORDS];
    ref_record records[POOLS];
    size_t count = chance(r, 90) ? draw(r, 10) : chance(r, 50) ? CV_ITEMS : CV_ITEMS + 1 + draw(r, 70000);
    memcpy(state, theirs.state, sizeof state);
    for (size_t k = 0; k < CV_ITEMS; k++) {
        word *w = items + CV_ITEM_WORDS * k;
        ref_tuple g;
        for (unsigned j = 0; j < CV_ITEM_WORDS; j++) w[j] = chance(r, 50) ? 0 : any_word(r);
        if (k >= count) continue;
        if (chance(r, 50)) w[0] = 1, w[1] = likely_post(r, &g);
        else {
            ref_name n = some_name(r, theirs.table, state);
            word words[] = {chance(r, 90) ? 0 : chance(r, 50) ? 65537 : 2 + draw(r, 65534), n.pool, n.instance, n.element, n.phase, n.branch};
            memcpy(w, words, sizeof words);
            g = n.given;
        }
        memcpy(w + 6, &g, sizeof g);
        if (ref_figures(theirs.table, state, records, theirs.table[0]) || ref_poll(theirs.table, state, records, theirs.table[0], w, 1).number == 10) return count;
    }
    return count;
}

static size_t poll_both(struct random *r) {
    size_t count = some_items(r);
    cv_polled a = cv_poll(TABLE, STATE, OUR_RECORDS, items, CV_POLL_WORDS, count);
    ref_polled b = ref_poll(theirs.table, theirs.state, THEIR_RECORDS, items, count);
    agreed("poll", b.number, NULL, 0);
    same("poll", "number", a.number, b.number);
    same("poll", "accepted", a.accepted, b.accepted);
    same_blocks("poll");
    polled[b.number]++;
    return count;
}

static void one_call(struct random *r) {
    ref_tuple g;
    unsigned name, which = draw(r, 100);
    if (which < 8) poll_both(r);
    else if (which < 50) step_both(some_name(r, theirs.table, theirs.state));
    else if (which < 75) name = likely_post(r, &g), post_both(name, g);
    else if (which < 85) list_both(draw(r, chance(r, 80) ? 6 : 200));
    else if (which < 90) run_both(draw(r, chance(r, 80) ? 4 : 40));
    else if (which < 91) check_both();
    else if (which < 92) figures_both();
    else if (which < 93) nested_both();
    else if (which < 97) write_both(chance(r, 50) ? draw(r, TEXT_ROOM) : text_length + 4 - draw(r, text_length < 4 ? 1 : 8));
    else if (which < 98) fresh_both(some_version(r)), chance(r, 90) ? figures_both() : (void)0;
    else wrong_lengths(r);
}

/* blanks up to about the longest text, or what was the longest at 16 bits */
static size_t lengthened(struct random *r, size_t n) {
    size_t end = (chance(r, 70) ? REF_TEXT_MOST : REF_TEXT_MOST / 2) - 1 + draw(r, 4), at = chance(r, 50) ? n : draw(r, n + 1);
    if (end < n) return n;
    memmove(text + at + end - n, text + at, n - at);
    memset(text + at, ' ', end - n);
    return end;
}

static void compare_case(struct random *r) {
    text_length = model_text(r, text);
    read_rewritten();
    if (chance(r, 25)) text_length = spoiled_text(r, text, text_length);
    if (chance(r, 3)) text_length = lengthened(r, text_length);
    if (read_both()) return;
    fresh_both(chance(r, 50) ? CV_VERSION_10 : CV_VERSION_20);
    if (chance(r, 40)) fill_up(r);
    pools = theirs.table[0];
    figures_both();
    for (unsigned k = 12 + draw(r, 30); k; k--) {
        one_call(r);
        if (chance(r, 6)) fill_up(r), figures_both();
        if (!chance(r, 5)) continue;
        /* damaged, used, and put right again */
        static word table[REF_TABLE_WORDS], state[REF_STATE_WORDS];
        ref_record records[RECORDS];
        size_t all = pools;
        unsigned which = draw(r, 10);
        memcpy(table, ours.table, sizeof table);
        memcpy(state, ours.state, sizeof state);
        memcpy(records, ours.records, sizeof records);
        if (which == 6) damage_end(r);
        else which < 3 ? damage_records(r) : damage_both(r, which < 6);
        for (unsigned j = 3; j; j--) one_call(r);
        memcpy(ours.table, table, sizeof table), memcpy(theirs.table, table, sizeof table);
        memcpy(ours.state, state, sizeof state), memcpy(theirs.state, state, sizeof state);
        memcpy(ours.records, records, sizeof records), memcpy(theirs.records, records, sizeof records);
        pools = all;
    }
}

static void drawing_case(struct random *r) {
    int due;
    text_length = drawing_text(r, text, sizeof text, &due);
    if (chance(r, 10)) damage_both(r, true); /* whatever stood there goes, or stays */
    draw_both(due);
}

static void print_numbers(const char *before, const unsigned *counts) {
    printf("%s", before);
    for (unsigned k = 0; k < 32; k++)
        if (counts[k]) printf(" %u:%u", k, counts[k]);
}

static int compare_drawings(uint64_t cases, uint64_t seed) {
    for (uint64_t k = 0; k < cases; k++) {
        seed_of_case = seed + k;
        struct random r = {seed_of_case};
        drawing_case(&r);
    }
    printf("%llu drawings, no difference; ", (unsigned long long)cases);
    print_numbers("numbers:", given);
    print_numbers("; rules:", rules);
    putchar('\n');
    return 0;
}

/* a log under a version that it was not made for; where that is none, nothing else is looked at */
static void judge_another(word version, log_due due) {
    if (!known_version(version)) due = (log_due){25, 0, 0};
    else if (due.number != 0 || version != CV_VERSION_20) due = (log_due){due.number == 23 ? 23 : -1, due.beside, 0};
    judge_both(version, due);
}

/* a model, and logs for it; now and then the table is damaged */
static void log_case(struct random *r) {
    log_due due;
    bool fills = chance(r, 1);
    text_length = fills ? (size_t)sprintf(text, "%s", worst_model) : model_text(r, text); /* an edge fills up in a loop */
    ref_reading read = ref_read((const uint8_t *)text, text_length, theirs.table);
    if (read.number) return;
    memcpy(ours.table, theirs.table, REF_TABLE_WORDS * sizeof *ours.table);
    for (unsigned k = 0; k < 4; k++) {
        word version = chance(r, 50) ? CV_VERSION_10 : CV_VERSION_20;
        text_length = log_text(r, theirs.table, version, fills, text, sizeof text, &due);
        ref_judged b = judge_both(version, due);
        if (chance(r, 30)) judge_another(some_version(r), due);
        if (version == CV_VERSION_10 && b.number == 0) judge_both(CV_VERSION_20, (log_due){0, 0, 0}); /* 10 only refuses more */
        replay_both(chance(r, 90) ? version : some_version(r));
        resume_both();
        judge_beginning(r, version, b);
        resume_both();
    }
    if (chance(r, 90)) return;
    damage_both(r, chance(r, 50));
    judge_both(some_version(r), (log_due){-1, 0, 0});
    replay_both(some_version(r));
    resume_both();
}

static int compare_logs(uint64_t cases, uint64_t seed) {
    for (uint64_t k = 0; k < cases; k++) {
        seed_of_case = seed + k;
        struct random r = {seed_of_case};
        log_case(&r);
    }
    printf("%llu logs, no difference; the answer of %u was known; ", (unsigned long long)calls, known);
    print_numbers("numbers:", given);
    print_numbers("; of 24's events:", owned);
    print_numbers("; resumed:", resumed);
    putchar('\n');
    return 0;
}

/* A JOURNAL: calls from a fresh state on, with an event for each that is accepted; the state behind each, and where its event ends. */
enum { JOURNALED = 60 };
static struct { unsigned count; word states[JOURNALED + 1][REF_STATE_WORDS]; size_t ends[JOURNALED + 1]; } journal;

/* buffers that end where no page can be read, now and then too short for the piece */
#define OUR_ROOM ours.buffer + TEXT_ROOM - room, room
#define THEIR_ROOM theirs.buffer + TEXT_ROOM - room, room

static size_t some_room(struct random *r) {
    size_t room = chance(r, 10) ? draw(r, 500) : 500 + draw(r, 50);
    memset(ours.buffer + TEXT_ROOM - room, 0x5a, room);
    memset(theirs.buffer + TEXT_ROOM - room, 0x5a, room);
    return room;
}

/* a piece of both, which goes behind the text where it is whole */
static bool same_piece(const char *call, size_t room, cv_written a, ref_written b) {
    const uint8_t *mine = ours.buffer + TEXT_ROOM - room, *other = theirs.buffer + TEXT_ROOM - room;
    same(call, "number", a.number, b.number);
    same(call, "length", a.length, b.length);
    if (memcmp(mine, other, room)) differ(call, "buffer", 0, 0);
    memcpy(text + text_length, other, b.length);
    text_length += b.length;
    calls++;
    return b.number == 0;
}

static bool begin_both(size_t room) { return same_piece("log_begin", room, cv_log_begin(OUR_ROOM), ref_log_begin(THEIR_ROOM)); }

static bool end_both(size_t room) { return same_piece("log_end", room, cv_log_end(OUR_ROOM), ref_log_end(THEIR_ROOM)); }

/* ends of days, years, leap years and of the calendar, and none */
static uint64_t some_moment(struct random *r) {
    static const uint64_t ends[] = {0, 1, 86399999, 86400000, 951782400000, 951868799999, 951868800000, 4107542399999, 4107542400000, 1798761600000, 253402300799999, 253402300800000, UINT64_MAX};
    if (chance(r, 30)) return ends[draw(r, sizeof ends / sizeof *ends)];
    return chance(r, 80) ? (uint64_t)any_word(r) * 59000 + draw(r, 59000) : (uint64_t)any_word(r) << 32 | any_word(r);
}

static bool post_piece(size_t room, unsigned name, ref_tuple g, uint64_t moment) {
    return same_piece("log_post", room, cv_log_post(name, as_ours(g), moment, OUR_ROOM), ref_log_post(name, g, moment, THEIR_ROOM));
}

static bool step_piece(size_t room, ref_name n, ref_answer a, uint64_t moment) {
    cv_name name = {n.pool, n.instance, n.element, n.phase, n.branch, as_ours(n.given)};
    cv_answer answer = {a.number, a.traffic, a.name, as_ours(a.tuple)};
    return same_piece("log_step", room, cv_log_step(name, answer, moment, OUR_ROOM), ref_log_step(n, a, moment, THEIR_ROOM));
}

/* a call of both, and its event where it is accepted; of a refused one the pieces are compared too */
static void journal_call(struct random *r) {
    size_t before = text_length;
    uint64_t moment = some_moment(r);
    unsigned number;
    if (chance(r, 40)) {
        ref_tuple g;
        unsigned name = likely_post(r, &g);
        number = post_both(name, g);
        while (!post_piece(some_room(r), name, g, moment)) {}
    } else {
        ref_name n = some_name(r, theirs.table, theirs.state);
        ref_answer a = step_both(n);
        number = a.number;
        while (!step_piece(some_room(r), n, a, moment)) {}
    }
    if (number) text_length = before;
    else journal.count++;
    journal.ends[journal.count] = text_length;
    memcpy(journal.states[journal.count], theirs.state, sizeof *journal.states);
}

/* the events from one to another as a log of their own */
static void journal_of(struct random *r, const char *events, unsigned from, unsigned to) {
    text_length = 0;
    while (!begin_both(some_room(r))) {}
    memcpy(text + text_length, events + journal.ends[from], journal.ends[to] - journal.ends[from]);
    text_length += journal.ends[to] - journal.ends[from];
    while (!end_both(some_room(r))) {}
}

static void is_state(const char *call, unsigned k) { same_words(call, "state of the calls", ours.state, journal.states[k], REF_STATE_WORDS); }

/* cut off at a byte: no event is lost that was whole, none comes that was not */
static void cut_journal(struct random *r, word version) {
    static uint8_t out[REF_TEXT_MOST];
    unsigned whole = 0;
    text_length = draw(r, text_length + 1);
    ref_repaired b = repair_into(TEXT_ROOM);
    if (b.number == 27) {
        same("repair", "27 before the trace is open", text_length < journal.ends[0], 1);
        return;
    }
    while (whole < journal.count && journal.ends[whole + 1] <= text_length + 1) whole++;
    same("repair", "the events kept", b.kept, whole);
    ref_repair((const uint8_t *)text, text_length, out, sizeof out);
    memcpy(text, out, text_length = b.length);
    replay_both(version);
    is_state("replay", whole);
}

static void journal_case(struct random *r) {
    static char events[DRAWING_ROOM];
    word version = chance(r, 50) ? CV_VERSION_10 : CV_VERSION_20;
    text_length = model_text(r, text);
    if (read_both()) return;
    pools = theirs.table[0];
    fresh_both(version);
    figures_both();
    journal.count = 0, text_length = 0;
    while (!begin_both(some_room(r))) {}
    journal.ends[0] = text_length;
    memcpy(journal.states[0], theirs.state, sizeof *journal.states);
    for (unsigned k = 0; k < 80 && journal.count < JOURNALED; k++) journal_call(r);
    memcpy(events, text, text_length);
    journaled += journal.count;
    journal_of(r, events, 0, journal.count);
    replay_both(version);
    is_state("replay", journal.count);
    cut_journal(r, version);
    unsigned half = draw(r, journal.count + 1);
    journal_of(r, events, 0, half);
    replay_both(version);
    is_state("replay", half);
    journal_of(r, events, half, journal.count);
    resume_both();
    is_state("resume", journal.count);
    resume_both();
    journal_of(r, events, 0, journal.count);
}

/* a journal, for those who ask whether it is XES */
static int print_journal(uint64_t of_case) {
    struct random r = {of_case};
    while (journal.count == 0) journal_case(&r);
    fwrite(text, 1, text_length, stdout);
    return 0;
}

static int compare_journals(uint64_t cases, uint64_t seed) {
    for (uint64_t k = 0; k < cases; k++) {
        seed_of_case = seed + k;
        struct random r = {seed_of_case};
        journal_case(&r);
    }
    printf("%llu calls in journals, no difference; %u events", (unsigned long long)calls, journaled);
    print_numbers("; resumed:", resumed);
    putchar('\n');
    return 0;
}

/* a log, its line ends and all, and beginnings of it, most of them at a tag or a quote */
static void repair_case(struct random *r) {
    log_due due;
    text_length = model_text(r, text);
    if (ref_read((const uint8_t *)text, text_length, theirs.table).number) return;
    text_length = log_text(r, theirs.table, REF_VERSION_20, false, text, sizeof text, &due);
    for (unsigned k = 0; k < 6; k++) {
        static uint8_t out[REF_TEXT_MOST];
        ref_repaired whole = ref_repair((const uint8_t *)text, text_length, out, sizeof out);
        size_t length = whole.number ? draw(r, TEXT_ROOM) : whole.length;
        repair_both(chance(r, 60) ? TEXT_ROOM : chance(r, 70) ? length - (length && chance(r, 50)) : draw(r, TEXT_ROOM));
        if (k == 2 && text_length < 1000 && chance(r, 10)) { /* near the limit: blanks before the trace */
            size_t end = 65536 - draw(r, 30), at = text_length;
            for (size_t j = 0; j + 6 < text_length; j++)
                if (!memcmp(text + j, "<trace", 6)) at = j;
            memmove(text + at + end - text_length, text + at, text_length - at);
            memset(text + at, ' ', end - text_length);
            text_length = end;
            continue;
        }
        if (!text_length) break;
        size_t at = text_length - draw(r, chance(r, 50) ? text_length : text_length < 40 ? text_length : 40);
        while (chance(r, 60) && at && at < text_length && !strchr("<>\"' /", text[at])) at++;
        text_length = at < text_length ? at + draw(r, 2) : at;
    }
}

static int compare_repairs(uint64_t cases, uint64_t seed) {
    for (uint64_t k = 0; k < cases; k++) {
        seed_of_case = seed + k;
        struct random r = {seed_of_case};
        repair_case(&r);
    }
    printf("%llu repairs", (unsigned long long)calls);
    print_numbers(", no difference; numbers:", given);
    putchar('\n');
    return 0;
}

/* Of an instance of a nested pool, in the engine's state: no edge holds two tokens, and each task's two counts together are at most 1. */
static void holds_one(const word *h) {
    for (unsigned e = 0; e < EDGES; e++) same("nested", "tokens on an edge", h[e] > 1, 0);
    for (unsigned n = 0; n < TASKS; n++) same("nested", "counts of a task", h[ACTIVE + n] + h[READY + n] > 1, 0);
}

/* THE HISTORY, from the engine's answers. A poll and a run stand in it as their items and steps, given one by one to a copy of the state, which comes out the same. */
static word alone[REF_STATE_WORDS];
static cv_record alone_records[POOLS];
#define ALONE ours.table, CV_TABLE_WORDS, alone, CV_STATE_WORDS

/* A consuming step: the pool with its number is one, and of the instances' words only those of the instance it names have changed; of a startRcv, the one it makes. */
static void belongs_to_one(const word *before, const word *after, ref_name n) {
    unsigned named = 0;
    for (unsigned p = 0; p < ours.table[0]; p++) {
        bool is = pool_at(ours.table, p)[0] == n.pool;
        named += is;
        for (unsigned i = 0; i < INSTANCES; i++) {
            unsigned at = POOLS + POOL_INSTANCES * p + INSTANCE_WORDS * i;
            if (!is || i != n.instance) same("consuming step", "another instance", memcmp(before + at, after + at, INSTANCE_WORDS * sizeof(word)), 0);
        }
        bool makes = is && element_at(pool_at(ours.table, p), n.element)[KIND] == START_RCV;
        same("consuming step", "instances made", after[p], before[p] + makes);
        if (makes) same("consuming step", "the instance it makes", n.instance, before[p]);
    }
    same("consuming step", "pools of its number", named, 1);
}

/* one step on the copy, told to the accounts: its number */
static word step_alone(ref_name n) {
    static word before[REF_STATE_WORDS];
    memcpy(before, alone, sizeof before);
    cv_answer a = cv_step(ALONE, alone_records, ours.table[0], (cv_name){n.pool, n.instance, n.element, n.phase, n.branch, as_ours(n.given)});
    ref_answer told = {a.number, a.traffic, a.name, {a.tuple.length, {a.tuple.values[0], a.tuple.values[1], a.tuple.values[2], a.tuple.values[3]}}};
    account_answer(told);
    if (!told.number && told.traffic == CV_CONSUMED) belongs_to_one(before, alone, n);
    return a.number;
}

static word post_alone(word name, ref_tuple g) {
    word number = cv_post(ALONE, name, as_ours(g));
    if (!number) account_post(name, g);
    return number;
}

static void poll_alone(size_t count) {
    for (size_t k = 0; k < count && count <= CV_ITEMS; k++) {
        const word *w = items + CV_ITEM_WORDS * k;
        ref_tuple g = {w[6], {w[7], w[8], w[9], w[10]}};
        if (w[0] == 1 ? post_alone(w[1], g) : step_alone((ref_name){w[1], w[2], w[3], w[4], w[5], g})) return;
    }
}

static void run_alone(unsigned limit) {
    for (; limit; limit--) {
        cv_listed l = cv_list(ALONE, 0);
        ref_name n;
        memcpy(&n, &l.name, sizeof n);
        if (l.number || step_alone(n)) return;
    }
}

/* what every history comes to: all accounts balance, and no pool has more instances than its limit */
static void accounted(void) {
    same_words("history", "state of the calls one by one", ours.state, alone, REF_STATE_WORDS);
    const struct account *x = unbalanced(ours.state);
    if (x) {
        printf("name %u, tuple of %u: posted %u, sent %u, queued %u, consumed %u\n", x->name, x->tuple.length, x->posted, x->sent, x->queued, x->consumed);
        differ("history", "accounts", x->posted + x->sent, x->queued + x->consumed);
    }
    for (unsigned p = 0; p < ours.table[0]; p++) same("history", "instances above the limit", ours.state[p] > limit_of(pool_at(ours.table, p)), 0);
}

/* one call of a history: steps, posts, polls and runs, refused ones among them; the pool that a step named, else 0 */
static unsigned history_call(struct random *r) {
    ref_tuple g;
    unsigned which = draw(r, 100), name, limit;
    if (ref_list(theirs.table, theirs.state, 0).number == 6 && chance(r, 70)) which = 60; /* nothing can move */
    if (which < 60) {
        ref_name n = some_name(r, theirs.table, theirs.state);
        step_both(n), step_alone(n);
        return n.pool;
    }
    if (which < 85) name = likely_post(r, &g), post_both(name, g), post_alone(name, g);
    else if (which < 92) poll_alone(poll_both(r));
    else limit = draw(r, 30), run_both(limit), run_alone(limit);
    return 0;
}

/* From a fresh state: what is promised of each nested pool, whatever the others are, and of every history. */
static void fresh_session(struct random *r) {
    bool nested[POOLS];
    for (unsigned p = 0; p < theirs.table[0]; p++) nested[p] = is_nested(pool_at(theirs.table, p));
    fresh_both(chance(r, 50) ? CV_VERSION_10 : CV_VERSION_20);
    pools = theirs.table[0];
    figures_both();
    memcpy(alone, ours.state, sizeof alone);
    memcpy(alone_records, ours.records + RECORDS - pools, pools * sizeof *alone_records);
    open_accounts();
    for (unsigned k = 20 + draw(r, 60); k; k--) {
        unsigned would_pass = given[18], pool = history_call(r);
        for (unsigned p = 0; p < pools; p++) {
            if (!nested[p]) continue;
            if (pool_at(theirs.table, p)[0] == pool) same("nested", "18", given[18], would_pass);
            for (unsigned i = 0; i < ours.state[p]; i++) holds_one(instance_at(ours.state, p, i));
        }
        if (k == 1 || chance(r, 20)) accounted();
    }
    struct account sum = accounts_sum();
    totals.posted += sum.posted, totals.sent += sum.sent, totals.queued += sum.queued, totals.consumed += sum.consumed;
}

static void nested_case(struct random *r) {
    int due;
    unsigned of;
    text_length = nested_text(r, text, &due, &of);
    read_rewritten();
    if (read_both()) return;
    ref_verdict v = nested_both();
    nestings[v.number]++;
    if (due >= 0) same("nested", "what the generator counts on", v.number, due), same("nested", "its pool", v.beside, of);
    known += due >= 0;
    fresh_session(r);
}

static void print_totals(void) { printf("all accounts balance: posted %u, sent %u, queued %u, consumed %u", totals.posted, totals.sent, totals.queued, totals.consumed); }

static int compare_nestings(uint64_t cases, uint64_t seed) {
    for (uint64_t k = 0; k < cases; k++) {
        seed_of_case = seed + k;
        struct random r = {seed_of_case};
        nested_case(&r);
    }
    printf("%llu models, nested or nearly, and %llu calls, no difference; the answer of %u was known; ", (unsigned long long)cases, (unsigned long long)calls, known);
    print_numbers("numbers of nested:", nestings);
    print_numbers("; of readings:", readings);
    print_numbers("; of steps:", given);
    printf("; "), print_totals();
    putchar('\n');
    return 0;
}

static int compare_accounts(uint64_t cases, uint64_t seed) {
    for (uint64_t k = 0; k < cases; k++) {
        seed_of_case = seed + k;
        struct random r = {seed_of_case};
        text_length = model_text(&r, text);
        if (read_both() == 0) fresh_session(&r);
    }
    printf("%llu histories of %llu calls, no difference; ", (unsigned long long)cases, (unsigned long long)calls);
    print_totals();
    print_numbers("; numbers of steps:", given);
    putchar('\n');
    return 0;
}

/* Every beginning of a log: 23 at its length, unless it is a log itself; repaired, once its trace is open; the events kept never fall. */
static int compare_cuts(const char *name) {
    FILE *file = fopen(name, "rb");
    if (!file) return perror(name), 2;
    size_t all = fread(text, 1, sizeof text, file), kept = 0, repaired = 0;
    fclose(file);
    for (text_length = 0; text_length <= all; text_length++) {
        ref_judged j = judged_alone((const uint8_t *)text, text_length);
        if (j.number == 23) same("judge", "the place of what was cut off", j.beside, text_length);
        ref_repaired r = repair_both(TEXT_ROOM);
        if (repaired) same("repair", "no 27 behind the trace's start tag", r.number, 0);
        if (r.number) continue;
        same("repair", "the events kept do not fall", r.kept < kept, 0);
        repaired++, kept = r.kept;
    }
    printf("%zu beginnings of %s, %zu of them repaired, no difference; %zu events\n", all + 1, strrchr(name, '/') ? strrchr(name, '/') + 1 : name, repaired, kept);
    return 0;
}

static double since(clock_t start) { return (clock() - start) * 1000.0 / CLOCKS_PER_SEC; }

/* a line of a text that was read by both: what of, its bytes, the number, processor time of the reference and of the engine */
static void told(const char *call, const char *name, unsigned number, double reference, double engine) {
    printf("%s\t%s\t%zu\t%u\t%.1f\t%.1f\n", call, name, text_length, number, reference, engine);
    fflush(stdout);
}

static void time_drawing(const char *name) {
    clock_t start = clock();
    ref_reading b = ref_draw((const uint8_t *)text, text_length, theirs.table);
    double reference = since(start);
    start = clock();
    cv_reading a = cv_draw((const uint8_t *)text, text_length, TABLE);
    told("draw", name, a.number, reference, since(start));
    same("draw", "number", a.number, b.number);
    same("draw", "beside", a.beside, b.beside);
}

static void time_diagnosis(const char *name) {
    clock_t start = clock();
    ref_diagnosis b = ref_diagnose((const uint8_t *)text, text_length);
    double reference = since(start);
    start = clock();
    cv_diagnosis a = cv_diagnose((const uint8_t *)text, text_length);
    told("diagnose", name, a.number, reference, since(start));
    same("diagnose", "number", a.number, b.number);
    same("diagnose", "rule", a.rule, b.rule);
    same("diagnose", "place", a.place, b.place);
}

static void time_text(const char *name) {
    clock_t start = clock();
    ref_reading b = ref_read((const uint8_t *)text, text_length, theirs.table);
    double reference = since(start);
    start = clock();
    cv_reading a = cv_read((const uint8_t *)text, text_length, TABLE);
    told("read", name, a.number, reference, since(start));
    same("read", "number", a.number, b.number);
    same("read", "beside", a.beside, b.beside);
}

static void time_log(const char *name) {
    clock_t start = clock();
    ref_judged b = ref_judge(theirs.table, REF_VERSION_20, (const uint8_t *)text, text_length);
    double reference = since(start);
    start = clock();
    cv_judged a = cv_judge(TABLE, CV_VERSION_20, (const uint8_t *)text, text_length);
    told("judge", name, a.number, reference, since(start));
    same("judge", "number", a.number, b.number);
    same("judge", "beside", a.beside, b.beside);
    same("judge", "own", a.own, b.own);
}

static void time_replay(const char *name) {
    clock_t start = clock();
    ref_judged b = ref_replay(theirs.table, REF_VERSION_20, (const uint8_t *)text, text_length, theirs.state);
    double reference = since(start);
    start = clock();
    cv_judged a = cv_replay(TABLE, CV_VERSION_20, (const uint8_t *)text, text_length, STATE);
    told("replay", name, a.number, reference, since(start));
    same("replay", "number", a.number, b.number);
    same("replay", "beside", a.beside, b.beside);
}

static void time_repair(const char *name) {
    clock_t start = clock();
    ref_repaired b = ref_repair((const uint8_t *)text, text_length, theirs.buffer, TEXT_ROOM);
    double reference = since(start);
    start = clock();
    cv_repaired a = cv_repair((const uint8_t *)text, text_length, ours.buffer, TEXT_ROOM);
    told("repair", name, a.number, reference, since(start));
    same("repair", "number", a.number, b.number);
    same("repair", "kept", a.kept, b.kept);
    same("repair", "dropped", a.dropped, b.dropped);
}

static void time_nesting(unsigned branches) {
    text_length = worst_nesting(branches, text);
    same("read", "number", ref_read((const uint8_t *)text, text_length, theirs.table).number, 0);
    memcpy(ours.table, theirs.table, REF_TABLE_WORDS * sizeof *ours.table);
    char name[32];
    sprintf(name, "a loop of %u branches", branches);
    clock_t start = clock();
    ref_verdict b = ref_nested(theirs.table);
    double reference = since(start);
    start = clock();
    cv_verdict a = cv_nested(TABLE);
    told("nested", name, a.number, reference, since(start));
    same("nested", "number", a.number, b.number);
    same("nested", "pool", a.beside, b.beside);
}

static void counted(const char *call, const char *name, unsigned number) {
    char label[160];
    snprintf(label, sizeof label, "%s\t%s\t%zu\t%u", call, name, text_length, number);
    count_to(label);
}

/* the engine's call alone, for who counts its instructions */
static void count_drawing(const char *name) {
    count_from();
    cv_reading a = cv_draw((const uint8_t *)text, text_length, TABLE);
    counted("draw", name, a.number);
}

/* a diagnosis is for people, and the header's bound is none of it */
static void count_diagnosis(const char *name) { (void)name; }

static void count_text(const char *name) {
    count_from();
    cv_reading a = cv_read((const uint8_t *)text, text_length, TABLE);
    counted("read", name, a.number);
}

static void count_log(const char *name) {
    count_from();
    cv_judged a = cv_judge(TABLE, CV_VERSION_20, (const uint8_t *)text, text_length);
    counted("judge", name, a.number);
}

static void count_replay(const char *name) {
    count_from();
    cv_judged a = cv_replay(TABLE, CV_VERSION_20, (const uint8_t *)text, text_length, STATE);
    counted("replay", name, a.number);
}

static void count_repair(const char *name) {
    count_from();
    cv_repaired a = cv_repair((const uint8_t *)text, text_length, ours.buffer, TEXT_ROOM);
    counted("repair", name, a.number);
}

/* the texts that hold as much of one thing as fits, each in the calls that read it; repairs of the logs as they are, and without their last bytes */
static void each_worst(void (*drawing)(const char *), void (*diagnosis)(const char *), void (*log)(const char *), void (*replay)(const char *), void (*repair)(const char *), void (*notation)(const char *)) {
    const char *name;
    for (unsigned k = 0; (name = worst_text(k, text, &text_length)); k++) drawing(name), diagnosis(name);
    ref_read((const uint8_t *)worst_model, strlen(worst_model), theirs.table);
    memcpy(ours.table, theirs.table, REF_TABLE_WORDS * sizeof *ours.table);
    for (unsigned k = 0; (name = worst_log(k, text, &text_length)); k++) {
        char cut[80];
        snprintf(cut, sizeof cut, "%s, cut off", name);
        log(name), replay(name), repair(name), text_length -= 3, repair(cut);
    }
    for (unsigned k = 0; (name = worst_notation(k, text, &text_length)); k++) notation(name);
}

static int time_worst(void) {
    each_worst(time_drawing, time_diagnosis, time_log, time_replay, time_repair, time_text);
    for (unsigned branches = 2; branches < BRANCHES; branches++) time_nesting(branches);
    return 0;
}

static int count_worst(void) {
    each_worst(count_drawing, count_diagnosis, count_log, count_replay, count_repair, count_text);
    return 0;
}

static int print_drawing(uint64_t of_case) {
    struct random r = {of_case};
    int due;
    fwrite(text, 1, drawing_text(&r, text, sizeof text, &due), stdout);
    return 0;
}

static void print_values(ref_tuple g) {
    if (!g.length) putchar('-');
    for (unsigned j = 0; j < g.length && j < VALUES_TOLD; j++) printf(j ? ",%u" : "%u", j < VALUES ? g.values[j] : 0);
}

static void print_tuple(ref_tuple g) {
    print_values(g);
    putchar('\n');
}

static void print_batch(const word *w, size_t count) {
    printf(count ? "batch " : "batch\n");
    for (size_t k = 0; k < count; k++, w += CV_ITEM_WORDS) {
        ref_tuple g;
        memcpy(&g, w + 6, sizeof g);
        if (w[0] == 1) printf("post %u ", w[1]);
        else printf("step %u %u %u %u %u ", w[1], w[2], w[3], w[4], w[5]);
        print_values(g);
        putchar(k + 1 < count ? ';' : '\n');
    }
}

/* A log to judge, to replay, to resume with or to repair; the state, where there is no model for one. */
static void print_log(struct random *r) {
    static char log[DRAWING_ROOM];
    size_t n = 0;
    bool repaired = chance(r, 30);
    log_due due;
    word version = chance(r, 50) ? REF_VERSION_10 : REF_VERSION_20;
    if (ref_check(theirs.table).number == 0) n = log_text(r, theirs.table, version, false, log, sizeof log, &due);
    for (size_t k = 0; k < n; k++)
        if (log[k] == '\n') log[k] = ' ';
    if (repaired && n) printf("repair %.*s\n", (int)(chance(r, 30) ? n : draw(r, n + 1)), log);
    if (n && !repaired) {
        word asked = chance(r, 80) ? version : some_version(r) % 65536;
        unsigned which = draw(r, 3);
        if (which == 0) printf("judge %u %.*s\n", asked, (int)n, log);
        if (which == 1) printf("replay %u %.*s\n", asked, (int)n, log), ref_replay(theirs.table, asked, (const uint8_t *)log, n, theirs.state);
        if (which == 2) printf("resume %.*s\n", (int)n, log), ref_resume(theirs.table, theirs.state, (const uint8_t *)log, n);
    }
    if (!n) puts("state");
}

/* The records as the consoles have them, but where they were set by hand. */
static bool by_hand;

static void recount(void) {
    if (by_hand) return;
    pools = theirs.table[0] <= POOLS ? theirs.table[0] : POOLS;
    ref_figures(theirs.table, theirs.state, THEIR_RECORDS);
}

/* A line for the consoles; the reference plays along, so that most steps named are accepted ones. */
static void session_line(struct random *r) {
    static word extra[CV_POLL_WORDS + CV_ITEM_WORDS];
    unsigned which = draw(r, 100), name;
    ref_tuple g;
    recount();
    if (which < 45) {
        ref_name n = some_name(r, theirs.table, theirs.state);
        printf("step %u %u %u %u %u ", n.pool, n.instance, n.element, n.phase, n.branch);
        print_tuple(n.given);
        ref_step(theirs.table, theirs.state, THEIR_RECORDS, n);
    } else if (which < 70) {
        name = likely_post(r, &g);
        printf("post %u ", name);
        print_tuple(g);
        ref_post(theirs.table, theirs.state, name, g);
    } else if (which < 75) {
        size_t count = some_items(r);
        if (count > CV_ITEMS + 1) count = CV_ITEMS + 1;
        if (count > CV_ITEMS) memcpy(extra, items, sizeof items), memcpy(extra + CV_POLL_WORDS, items, sizeof *items * CV_ITEM_WORDS);
        print_batch(count > CV_ITEMS ? extra : items, count);
        ref_poll(theirs.table, theirs.state, THEIR_RECORDS, items, count);
    } else if (which < 80) printf("list %u\n", draw(r, chance(r, 80) ? 6 : 200));
    else if (which < 88) {
        unsigned limit = draw(r, chance(r, 80) ? 4 : 40);
        printf("run %u\n", limit);
        ref_run(theirs.table, theirs.state, THEIR_RECORDS, limit);
    } else if (which < 89) puts("figures");
    else if (which < 90) puts("nested");
    else if (which < 91) puts("write");
    else if (which < 94) print_log(r);
    else if (which < 98) puts("state");
    else if (which < 99) {
        word version = chance(r, 30) ? REF_VERSION_20 : some_version(r) % 65536;
        if (version == REF_VERSION_20 && chance(r, 50)) puts("fresh");
        else printf("fresh %u\n", version);
        ref_fresh(theirs.table, version, theirs.state);
    } else puts(chance(r, 30) ? "list 1 " : chance(r, 50) ? "stap" : chance(r, 50) ? "fresh 010" : chance(r, 50) ? "judge <log><trace/></log>" : "replay <log><trace/></log>");
}

/* A line that reads a model: a text or, now and then, a drawing, which is diagnosed before. */
static bool print_model(struct random *r) {
    bool drawing = chance(r, 15);
    int due;
    unsigned of;
    if (drawing) text_length = drawing_text(r, text, sizeof text, &due);
    if (!drawing) text_length = chance(r, 30) ? nested_text(r, text, &due, &of) : model_text(r, text);
    if (!drawing && chance(r, 25)) text_length = spoiled_text(r, text, text_length);
    for (size_t k = 0; k < text_length; k++)
        if (text[k] == '\n') text[k] = ' ';
    for (unsigned k = 0; k <= drawing; k++) {
        printf(k < drawing ? "diagnose " : drawing ? "draw " : "read ");
        fwrite(text, 1, text_length, stdout);
        putchar('\n');
    }
    return drawing;
}

/* a word of the table or the state of the consoles set, by its command */
static void set_word(bool table, struct harm h) {
    printf("%s %zu %u\n", table ? "table" : "state", h.at, h.becomes);
    (table ? theirs.table : theirs.state)[h.at] = h.becomes;
}

/* the counts by which a state is told */
static struct harm harm_to_count(struct random *r, bool table) {
    size_t at = table ? 0 : chance(r, 50) ? draw(r, POOLS) : QUEUES + QUEUE_WORDS * draw(r, NAMES) + draw(r, 2);
    return (struct harm){at, chance(r, 50) ? some_end(r) : draw(r, 70)};
}

/* records that do not agree, by their commands, and then right again */
static void print_records(struct random *r) {
    recount();
    unsigned p = draw(r, 6), k = draw(r, 4), all = pools;
    by_hand = true;
    if (chance(r, 60)) {
        word v = chance(r, 60) ? draw(r, 5) : some_end(r);
        printf("record %u %u %u\n", p, k, v);
        if (p < pools && k < 3) (&theirs.records[RECORDS - pools + p].made)[k] = v;
    } else {
        unsigned n = draw(r, 7);
        printf("records %u\n", n);
        if (n < 6) pools = n;
    }
    for (unsigned lines = 1 + draw(r, 4); lines; lines--) session_line(r);
    printf("records %u\nfigures\n", all);
    by_hand = false;
}

/* words set, lines that tell what is there, and the words put right again; or the table empty until the next model */
static void print_damage(struct random *r) {
    static const char *const telling[] = {"state", "check", "again", "write", "list 0", "run 3", "write 0", "write 65535", "figures", "figures", "batch", "nested"};
    bool table = chance(r, 50);
    struct harm was[2];
    if (chance(r, 5)) puts("clear"), memset(theirs.table, 0, REF_TABLE_WORDS * sizeof(word));
    for (unsigned k = 0; k < 2; k++) {
        struct harm h = chance(r, 20) ? harm_to_count(r, table) : some_harm(r, table);
        was[k] = (struct harm){h.at, (table ? theirs.table : theirs.state)[h.at]};
        set_word(table, h);
    }
    for (unsigned k = 1 + draw(r, 4); k; k--) chance(r, 60) ? (void)puts(telling[draw(r, 12)]) : session_line(r);
    for (unsigned k = 2; k--;) set_word(table, was[k]);
}

/* It begins with a model of its own, so that nothing of an earlier session is left. */
static void print_session(struct random *r) {
    static const char first[] = "pool(1,start(1,2)|end(2))";
    printf("read %s\n", first);
    ref_read((const uint8_t *)first, strlen(first), theirs.table);
    ref_fresh(theirs.table, REF_VERSION_20, theirs.state);
    for (unsigned models = 1 + draw(r, 2); models; models--) {
        bool drawing = print_model(r);
        ref_reading read = drawing ? ref_draw((const uint8_t *)text, text_length, theirs.table) : ref_read((const uint8_t *)text, text_length, theirs.table);
        if (read.number == 0) ref_fresh(theirs.table, REF_VERSION_20, theirs.state);
        if (chance(r, 40)) puts("fresh 10"), ref_fresh(theirs.table, REF_VERSION_10, theirs.state);
        for (unsigned k = 20 + draw(r, 40); k; k--) chance(r, 2) ? print_damage(r) : chance(r, 2) ? print_records(r) : session_line(r);
    }
}

static int compare_calls(uint64_t cases, uint64_t seed) {
    for (uint64_t k = 0; k < cases; k++) {
        seed_of_case = seed + k;
        struct random r = {seed_of_case};
        compare_case(&r);
    }
    printf("%llu calls in %llu cases, no difference; ", (unsigned long long)calls, (unsigned long long)cases);
    print_numbers("numbers of readings:", readings);
    print_numbers("; of steps:", given);
    print_numbers("; of polls:", polled);
    putchar('\n');
    return 0;
}

static uint64_t number(const char *word) { return strtoull(word, NULL, 10); }

/* seeds of cases under two seeds of a run differ */
static uint64_t seeded(const char *word) { return number(word) * 1000003; }

int main(int count, char **words) {
    ours = lend_all();
    theirs = lend_all();
    lent_text = lend(DRAWING_ROOM);
    if (count == 4 && !strcmp(words[1], "calls")) return compare_calls(number(words[2]), seeded(words[3]));
    if (count == 4 && !strcmp(words[1], "drawings")) return compare_drawings(number(words[2]), seeded(words[3]));
    if (count == 4 && !strcmp(words[1], "logs")) return compare_logs(number(words[2]), seeded(words[3]));
    if (count == 4 && !strcmp(words[1], "repairs")) return compare_repairs(number(words[2]), seeded(words[3]));
    if (count == 4 && !strcmp(words[1], "journals")) return compare_journals(number(words[2]), seeded(words[3]));
    if (count == 4 && !strcmp(words[1], "nestings")) return compare_nestings(number(words[2]), seeded(words[3]));
    if (count == 4 && !strcmp(words[1], "accounts")) return compare_accounts(number(words[2]), seeded(words[3]));
    if (count == 3 && !strcmp(words[1], "cuts")) return compare_cuts(words[2]);
    if (count == 3 && !strcmp(words[1], "journal")) return print_journal(number(words[2]));
    if (count == 3 && !strcmp(words[1], "drawing")) return print_drawing(number(words[2]));
    if (count == 2 && !strcmp(words[1], "worst")) return time_worst();
    if (count == 3 && !strcmp(words[1], "worst") && !strcmp(words[2], "counts")) return count_worst();
    if (count != 5 || strcmp(words[1], "sessions")) {
        fprintf(stderr, "usage: compare calls CASES SEED, compare drawings CASES SEED, compare drawing CASE, compare logs CASES SEED, compare repairs CASES SEED, compare journals CASES SEED, compare journal CASE, compare nestings CASES SEED, compare accounts CASES SEED, compare cuts FILE, compare worst [counts], or compare sessions FIRST COUNT SEED\n");
        return 2;
    }
    for (uint64_t k = number(words[2]), last = k + number(words[3]); k < last; k++) {
        struct random r = {seeded(words[4]) + k};
        print_session(&r);
    }
    return 0;
}
