/* The console's commands over the reference: a session through this and through the engine's console must print the same. With the word `drawing` it takes one
   drawing, whole, instead; with `log`, the name of a model's file and a version, one log, which is judged; with `repair`, one log, which is repaired. */
#include "layout.h"
#include <stdio.h>
#include <stdlib.h>

enum { LINE_MOST = 80000, ARGUMENTS = 8 };

/* a text, drawing or log has at most as many bytes */
enum { WHOLE = 65536 };

static word table[REF_TABLE_WORDS], state[REF_STATE_WORDS];
static bool loaded;

/* the records of the route desk: one more than a table has pools, and how many of them are lent */
enum { KEPT = 5, RECORD_WORDS = 3 };
static ref_record records[KEPT];
static unsigned lent;

static unsigned at_most(word n, unsigned most) { return n < most ? n : most; }

/* counted anew where table and state fit */
static word recount(void) { return ref_figures(table, state, records, lent); }

/* as many as there are pools, where a table or a state is made */
static void hold(void) {
    lent = at_most(table[0], KEPT);
    recount();
}

static word make_fresh(word version) {
    word number = ref_fresh(table, version, state);
    if (!number) hold();
    return number;
}

struct text { const char *s; size_t n; };

static bool is(struct text w, const char *s) { return w.n == strlen(s) && memcmp(w.s, s, w.n) == 0; }

/* a number 0 to most without leading zeros */
static bool up_to(struct text w, word most, word *out) {
    uint64_t v = 0;
    if (w.n == 0 || w.n > 10 || (w.n > 1 && w.s[0] == '0')) return false;
    for (size_t i = 0; i < w.n; i++) {
        if (w.s[i] < '0' || w.s[i] > '9') return false;
        v = v * 10 + (w.s[i] - '0');
    }
    *out = v;
    return v <= most;
}

static bool number_of(struct text w, word *out) { return up_to(w, NUMBER_MOST, out); }
static bool value_of(struct text w, word *out) { return up_to(w, GREATEST, out); }

/* `-`, or values joined by commas: the first four are kept, all are counted */
static bool tuple_of(struct text w, ref_tuple *g) {
    memset(g, 0, sizeof *g);
    if (is(w, "-")) return true;
    for (size_t from = 0;; from++) {
        size_t to = from;
        word v;
        while (to < w.n && w.s[to] != ',') to++;
        if (!value_of((struct text){w.s + from, to - from}, &v)) return false;
        if (g->length < VALUES) g->values[g->length] = v;
        g->length++;
        if (to == w.n) return true;
        from = to;
    }
}

static void print_tuple(const ref_tuple *g, const char *none) {
    if (!g->length) fputs(none, stdout);
    for (unsigned j = 0; j < g->length; j++) printf(j ? ",%u" : "%u", g->values[j]);
}

static void print_traffic(const ref_answer *a) {
    if (!a->traffic) {
        putchar('-');
        return;
    }
    printf("%c%u:", a->traffic == 1 ? '?' : '!', a->name);
    print_tuple(&a->tuple, "");
}

static void print_place(const ref_name *n) { printf("%u %u %u %u %u ", n->pool, n->instance, n->element, n->phase, n->branch); }

static void print_done(unsigned number) { number ? printf("refused %u\n", number) : printf("ok\n"); }

static void do_run(uint16_t limit) {
    static word before[REF_STATE_WORDS];
    memcpy(before, state, sizeof state);
    ref_ran r = ref_run(table, state, records, lent, limit);
    if (r.number) {
        print_done(r.number);
        return;
    }
    for (unsigned k = 0; k < r.steps; k++) {
        ref_listed next = ref_list(table, before, 0);
        ref_answer a = take_step(table, before, next.name);
        print_place(&next.name);
        print_traffic(&a);
        putchar('\n');
    }
    printf("steps %u left %u\n", r.steps, r.left);
}

/* flag k and value k stand stride words behind those before them */
static void print_pairs(const word *flags, const word *values, unsigned stride, unsigned n, unsigned first) {
    bool any = false;
    for (unsigned k = 0; k < n; k++)
        if (flags[stride * k]) printf("%s%u:%u", any ? "," : "", k + first, values[stride * k]), any = true;
    if (!any) putchar('-');
}

/* where one is defined */
static void print_stores(void) {
    bool any = false;
    for (unsigned k = 0; k < STORES; k++) any |= state[SHARED + 2 * k] != 0;
    if (!any) return;
    fputs("stores ", stdout);
    print_pairs(state + SHARED, state + SHARED + 1, 2, STORES, 0);
    putchar('\n');
}

/* what doesn't fit is told as far as the layout goes */
static void do_state(void) {
    if (state[VERSION] == REF_VERSION_10) puts("version 10");
    for (unsigned p = 0; p < at_most(table[0], POOLS); p++)
        for (unsigned i = 0; i < at_most(state[p], INSTANCES); i++) {
            const word *h = instance_at(state, p, i);
            printf("instance %u %u tokens ", pool_at(table, p)[0], i);
            print_pairs(h, h, 1, EDGES, 1);
            fputs(" active ", stdout);
            print_pairs(h + ACTIVE, h + ACTIVE, 1, TASKS, 1);
            fputs(" ready ", stdout);
            print_pairs(h + READY, h + READY, 1, TASKS, 1);
            fputs(" fields ", stdout);
            print_pairs(h + defined_at(0), h + value_at(0), 2, FIELDS, 0);
            putchar('\n');
        }
    print_stores();
    for (unsigned m = 0; m < NAMES; m++) {
        const word *q = queue_at(state, m);
        if (!q[0]) continue;
        printf("queue %u", m);
        for (unsigned k = 0; k < at_most(q[0], MESSAGES); k++) {
            ref_tuple g;
            memcpy(&g, q + 1 + SLOT_WORDS * k, sizeof g);
            g.length = at_most(g.length, VALUES);
            putchar(' ');
            print_tuple(&g, "-");
        }
        putchar('\n');
    }
    puts("end");
}

static void do_read(const char *text, size_t n, bool drawing) {
    ref_reading r = drawing ? ref_draw((const uint8_t *)text, n, table) : ref_read((const uint8_t *)text, n, table);
    if (r.number) {
        printf("refused %u %zu\n", r.number, r.beside);
        return;
    }
    loaded = true;
    print_done(make_fresh(REF_VERSION_20));
}

/* needs no model */
static void do_diagnose(const char *text, size_t n) {
    ref_diagnosis d = ref_diagnose((const uint8_t *)text, n);
    d.number ? printf("refused %u %zu %zu\n", d.number, d.rule, d.place) : printf("ok\n");
}

static void print_judged(ref_judged j) {
    if (!j.number) puts("lawful");
    else if (j.number == 23) printf("refused 23 %zu\n", j.beside);
    else if (j.number == 24) printf("refused 24 %zu %u\n", j.beside, j.own);
    else print_done(j.number);
}

static void do_judge(word version, const char *text, size_t n) { print_judged(ref_judge(table, version, (const uint8_t *)text, n)); }

/* the records are counted anew where the state is another */
static void do_replay(word version, const char *text, size_t n) {
    ref_judged j = ref_replay(table, version, (const uint8_t *)text, n, state);
    print_judged(j);
    if (!j.number) hold();
}

static void do_resume(const char *text, size_t n) {
    ref_judged j = ref_resume(table, state, (const uint8_t *)text, n);
    print_judged(j);
    if (!j.number) hold();
}

/* the version, a blank, and the log: every byte behind it */
static bool judge_line(const char *s, size_t n, void (*done)(word version, const char *text, size_t n)) {
    word version;
    const char *blank = memchr(s, ' ', n);
    if (!blank || !number_of((struct text){s, blank - s}, &version)) return false;
    loaded ? done(version, blank + 1, s + n - blank - 1) : (void)puts("no model");
    return true;
}

/* needs no model */
static void do_repair(const char *text, size_t n) {
    static uint8_t out[WHOLE];
    ref_repaired r = ref_repair((const uint8_t *)text, n, out, sizeof out);
    if (r.number) {
        print_done(r.number);
        return;
    }
    printf("kept %zu dropped %zu length %zu\n", r.kept, r.dropped, r.length);
    fwrite(out, 1, r.length, stdout);
    putchar('\n');
}

static void do_write(size_t room) {
    static uint8_t text[NUMBER_MOST];
    ref_written w = ref_write(table, text, room);
    if (w.number) print_done(w.number);
    fwrite(text, 1, w.length, stdout);
}

static void do_check(void) {
    ref_verdict v = ref_check(table);
    v.number ? printf("refused %u %u\n", v.number, v.beside) : printf("ok\n");
}

static void do_nested(void) {
    ref_verdict v = ref_nested(table);
    if (!v.number) puts("nested");
    else if (v.number == 29) printf("refused 29 %u\n", v.beside);
    else print_done(v.number);
}

static void do_figures(void) {
    word number = recount();
    if (number) {
        print_done(number);
        return;
    }
    for (unsigned p = 0; p < table[0]; p++) printf("figures %u %u %u %u\n", pool_at(table, p)[0], records[p].made, records[p].unfinished, records[p].finished);
    puts("end");
}

/* the text written, read into a second table and written from there */
static void do_again(void) {
    static uint8_t first[REF_TEXT_MOST], second[REF_TEXT_MOST];
    static word other[REF_TABLE_WORDS];
    ref_written w = ref_write(table, first, sizeof first);
    if (w.number) {
        print_done(w.number);
        return;
    }
    ref_reading r = ref_read(first, w.length, other);
    if (r.number) printf("refused %u %zu\n", r.number, r.beside);
    else if (memcmp(table, other, sizeof other)) puts("table differs");
    else if (ref_write(other, second, sizeof second).length != w.length || memcmp(first, second, w.length)) puts("text differs");
    else printf("same %zu\n", w.length);
}

/* word I of a block becomes V */
static bool set_word(struct text *w, word *block, unsigned words, bool lent) {
    word v[2];
    if (!number_of(w[1], &v[0]) || !value_of(w[2], &v[1]) || v[0] >= words) return false;
    if (!lent) return true;
    block[v[0]] = v[1];
    return puts("ok"), true;
}

/* one item of a batch, as the words of a step or a post; only 64 are kept */
static bool item_of(struct text *w, unsigned n, word *item) {
    word words[REF_ITEM_WORDS] = {0};
    unsigned numbers = n == 3 && is(w[0], "post") ? 1 : n == 7 && is(w[0], "step") ? 5 : 0;
    ref_tuple g;
    if (!numbers || !tuple_of(w[1 + numbers], &g)) return false;
    for (unsigned k = 0; k < numbers; k++)
        if (!number_of(w[1 + k], &words[1 + k])) return false;
    words[0] = numbers == 1;
    memcpy(words + 6, &g, sizeof g);
    if (item) memcpy(item, words, sizeof words);
    return true;
}

static unsigned words_of(const char *s, size_t n, struct text *w);

/* false: malformed */
static bool do_batch(const char *s, size_t n, bool none) {
    static word items[REF_ITEMS * REF_ITEM_WORDS];
    size_t count = 0;
    for (size_t from = 0; !none; from++) {
        struct text w[ARGUMENTS];
        size_t to = from;
        while (to < n && s[to] != ';') to++;
        unsigned k = words_of(s + from, to - from, w);
        if (!item_of(w, k, count < REF_ITEMS ? items + REF_ITEM_WORDS * count : NULL)) return false;
        count++;
        if (to == n) break;
        from = to;
    }
    if (!loaded) return true;
    ref_polled p = ref_poll(table, state, records, lent, items, count);
    printf("accepted %zu refused %u\n", p.accepted, p.number);
    return true;
}

/* 0: no such command; 1: well formed, and done if a model was read */
static int command(struct text *w, unsigned n) {
    word v[5];
    ref_tuple g;
    if (is(w[0], "step") && n == 7) {
        for (unsigned k = 0; k < 5; k++)
            if (!number_of(w[1 + k], &v[k])) return 0;
        if (!tuple_of(w[6], &g)) return 0;
        if (!loaded) return 1;
        ref_answer a = ref_step(table, state, records, lent, (ref_name){v[0], v[1], v[2], v[3], v[4], g});
        if (a.number) return print_done(a.number), 1;
        fputs("ok ", stdout);
        print_traffic(&a);
        putchar('\n');
    } else if (is(w[0], "post") && n == 3) {
        if (!number_of(w[1], v) || !tuple_of(w[2], &g)) return 0;
        if (loaded) print_done(ref_post(table, state, v[0], g));
    } else if (is(w[0], "list") && n == 2) {
        if (!number_of(w[1], v)) return 0;
        if (!loaded) return 1;
        ref_listed r = ref_list(table, state, v[0]);
        if (r.number) return print_done(r.number), 1;
        print_place(&r.name);
        print_tuple(&r.name.given, "-");
        putchar('\n');
    } else if (is(w[0], "run") && n == 2) {
        if (!number_of(w[1], v)) return 0;
        if (loaded) do_run(v[0]);
    } else if (n == 1 && is(w[0], "write")) {
        if (loaded) do_write(NUMBER_MOST);
    } else if (n == 2 && is(w[0], "write")) {
        if (!number_of(w[1], v)) return 0;
        if (loaded) do_write(v[0]);
    } else if (n == 1 && is(w[0], "check")) {
        if (loaded) do_check();
    } else if (n == 1 && is(w[0], "again")) {
        if (loaded) do_again();
    } else if (n == 1 && is(w[0], "clear")) {
        memset(table, 0, sizeof table);
        loaded = true;
        hold();
        puts("ok");
    } else if (n == 3 && is(w[0], "table")) {
        if (!set_word(w, table, REF_TABLE_WORDS, true)) return 0;
        loaded = true;
        hold();
    } else if (n == 3 && is(w[0], "state")) {
        if (!set_word(w, state, REF_STATE_WORDS, loaded)) return 0;
        if (loaded) recount();
    } else if (n == 4 && is(w[0], "record")) {
        if (!number_of(w[1], v) || v[0] >= KEPT || !number_of(w[2], v + 1) || v[1] >= RECORD_WORDS || !value_of(w[3], v + 2)) return 0;
        if (loaded) (&records[v[0]].made)[v[1]] = v[2], puts("ok");
    } else if (n == 2 && is(w[0], "records")) {
        if (!number_of(w[1], v) || v[0] > KEPT) return 0;
        if (loaded) lent = v[0], puts("ok");
    } else if (n == 1 && is(w[0], "fresh")) {
        if (loaded) print_done(make_fresh(REF_VERSION_20));
    } else if (n == 2 && is(w[0], "fresh")) {
        if (!number_of(w[1], v)) return 0;
        if (loaded) print_done(make_fresh(v[0]));
    } else if (n == 1 && is(w[0], "nested")) {
        if (loaded) do_nested();
    } else if (n == 1 && is(w[0], "figures")) {
        if (loaded) do_figures();
    } else if (n == 1 && is(w[0], "state")) {
        if (loaded) do_state();
    } else return 0;
    return 1;
}

/* the words of a line, one blank between them; as many as there is room for */
static unsigned words_of(const char *s, size_t n, struct text *w) {
    unsigned count = 0;
    for (size_t from = 0; count < ARGUMENTS;) {
        size_t to = from;
        while (to < n && s[to] != ' ') to++;
        w[count++] = (struct text){s + from, to - from};
        if (to == n) break;
        from = to + 1;
    }
    return count;
}

static void do_line(const char *s, size_t n) {
    struct text w[ARGUMENTS];
    if (n == 0 || s[0] == '#') return;
    if (n > LINE_MOST) {
        puts("bad line");
        return;
    }
    if (n >= 5 && memcmp(s, "read ", 5) == 0) {
        do_read(s + 5, n - 5, false);
        return;
    }
    if (n >= 5 && memcmp(s, "draw ", 5) == 0) {
        do_read(s + 5, n - 5, true);
        return;
    }
    if (n >= 6 && memcmp(s, "judge ", 6) == 0) {
        if (!judge_line(s + 6, n - 6, do_judge)) puts("bad line");
        return;
    }
    if (n >= 7 && memcmp(s, "replay ", 7) == 0) {
        if (!judge_line(s + 7, n - 7, do_replay)) puts("bad line");
        return;
    }
    if (n >= 7 && memcmp(s, "resume ", 7) == 0) {
        loaded ? do_resume(s + 7, n - 7) : (void)puts("no model");
        return;
    }
    if (n >= 7 && memcmp(s, "repair ", 7) == 0) {
        do_repair(s + 7, n - 7);
        return;
    }
    if (n >= 9 && memcmp(s, "diagnose ", 9) == 0) {
        do_diagnose(s + 9, n - 9);
        return;
    }
    bool batch = n >= 6 && memcmp(s, "batch ", 6) == 0, empty = n == 5 && memcmp(s, "batch", 5) == 0;
    if (batch || empty ? !do_batch(s + 6, batch ? n - 6 : 0, empty) : !command(w, words_of(s, n, w))) puts("bad line");
    else if (!loaded) puts("no model");
}

/* one drawing, whole: ok and its text, or what it is refused with */
static int one_drawing(void) {
    static char text[65536 + 16];
    size_t n = fread(text, 1, sizeof text, stdin);
    do_read(text, n, true);
    if (loaded) do_write(NUMBER_MOST);
    return 0;
}

/* one log, whole, under the model of a file: what the console answers */
static int one_log(const char *model, word version) {
    static char text[WHOLE + 1];
    FILE *file = fopen(model, "rb");
    if (!file) return perror(model), 2;
    size_t n = fread(text, 1, sizeof text, file);
    fclose(file);
    ref_reading r = ref_read((const uint8_t *)text, n, table);
    if (r.number) return printf("refused %u %zu\n", r.number, r.beside), 0;
    do_judge(version, text, fread(text, 1, sizeof text, stdin));
    return 0;
}

/* one log, whole, that may have ended in the middle */
static int one_repair(void) {
    static char text[WHOLE + 1];
    do_repair(text, fread(text, 1, sizeof text, stdin));
    return 0;
}

int main(int count, char **words) {
    if (count == 2 && !strcmp(words[1], "drawing")) return one_drawing();
    if (count == 2 && !strcmp(words[1], "repair")) return one_repair();
    if (count == 4 && !strcmp(words[1], "log")) return one_log(words[2], strtoul(words[3], NULL, 10));
    char *line = NULL;
    size_t room = 0;
    for (ssize_t n; (n = getline(&line, &room, stdin)) >= 0;) do_line(line, n && line[n - 1] == '\n' ? (size_t)n - 1 : (size_t)n);
    free(line);
    return 0;
}
