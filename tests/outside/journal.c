/* A seeded generator of logs: what the reference did under a model, written as one tool or another would write it; some are spoiled. What is known of the
   answer is said, so that the reference is held to it. */
#include "generate.h"
#include "xml.h"
#include <stdarg.h>
#include <stdio.h>

enum { LINES = 1000, LINE_ROOM = 120, LONG = 50000 };

/* turns of a loop of two steps after which an edge of it holds 255 tokens, and some more */
enum { FILLED = 560 };

/* What is wrong about one event as it is written, its line, or what stands beside it or in its place; or about the trace. */
enum fault { NO_FAULT, NO_NAME, OTHER_TYPE, OTHER_KEY, SECOND_NAME, NO_VALUE, NO_LINE, TOO_DEEP, TEXT_INSIDE, STRANGER_INSIDE, TEXT_BEFORE, STRANGER_BEFORE,
             EMPTY_EVENT, NO_TRACE, SECOND_TRACE, FAULTS };

struct line { char text[LINE_ROOM]; char sign; ref_tuple tuple; ref_name step; unsigned name; bool post; };

struct journal {
    struct random *r;
    struct line lines[LINES];
    unsigned count, at; /* at: the event that is at fault, or the one past the last */
    enum fault fault;
    log_due due;
    /* how it is written */
    char *text;
    size_t n, room, end; /* end: where the text ends early, or 0 */
    const char *prefix, *gap;
    bool plain, steady; /* steady: the first listed step, as long as there is one */
    char quote;
};

#define ONE_OF(j, list) (list)[draw((j)->r, sizeof(list) / sizeof *(list))]

static const log_due unknown = {-1, 0, 0};

/* WHAT WAS DONE. */
static void print_message(char *o, unsigned name, const ref_tuple *g) {
    o += sprintf(o, "%u:", name);
    for (unsigned k = 0; k < g->length && k < VALUES; k++) o += sprintf(o, k ? ",%u" : "%u", (unsigned)g->values[k]);
}

/* the line's text from what it says */
static void spell(struct line *l) {
    char *o = l->text;
    if (l->post) o += sprintf(o, "post ");
    else {
        const ref_name *s = &l->step;
        o += sprintf(o, "%u %u %u %u %u %c", (unsigned)s->pool, (unsigned)s->instance, (unsigned)s->element, (unsigned)s->phase, (unsigned)s->branch, l->sign);
    }
    if (l->post || l->sign != '-') print_message(o, l->name, &l->tuple);
}

/* a message that some receiver of the model may take */
static void some_post(struct journal *j, const word *table, struct line *l) {
    const word *pool = pool_at(table, draw(j->r, table[0])), *el = element_at(pool, draw(j->r, pool[POOL_COUNT])), *m = message_at(el, draw(j->r, 2));
    l->tuple = some_tuple(j->r);
    if (chance(j->r, 80)) l->tuple.length = m[1];
    if (l->tuple.length > VALUES) l->tuple.length = VALUES;
    l->name = chance(j->r, 90) ? m[0] : draw(j->r, NAMES);
    l->post = true;
}

/* the next accepted step or post; false where there was none this time */
static bool do_next(struct journal *j, const word *table, word *state, struct line *l) {
    memset(l, 0, sizeof *l);
    ref_listed next = ref_list(table, state, j->steady ? 0 : draw(j->r, chance(j->r, 60) ? 2 : 12));
    if (next.number == 6) next = ref_list(table, state, 0);
    if (next.number || (!j->steady && chance(j->r, 35))) {
        some_post(j, table, l);
        return ref_post(table, state, l->name, l->tuple) == 0;
    }
    ref_answer a = take_step(table, state, next.name);
    l->step = next.name;
    l->sign = "-?!"[a.traffic];
    l->name = a.name, l->tuple = a.tuple;
    return a.number == 0;
}

static void do_all(struct journal *j, const word *table, word version, bool filling) {
    static word state[REF_STATE_WORDS];
    unsigned turns = filling ? FILLED : chance(j->r, 70) ? draw(j->r, 14) : chance(j->r, 95) ? draw(j->r, 60) : LINES - 10;
    ref_fresh(table, version, state);
    j->steady = filling || chance(j->r, 10);
    for (j->count = 0; turns; turns--)
        if (do_next(j, table, state, &j->lines[j->count])) spell(&j->lines[j->count++]);
}

static bool is_end(const word *table, const struct line *l) {
    for (unsigned p = 0; p < table[0] && !l->post; p++)
        if (pool_at(table, p)[0] == l->step.pool) return element_at(pool_at(table, p), l->step.element)[KIND] == END;
    return false;
}

/* A site's log from the days of endSnd: the ends that came with the sends are not in it. What an end takes nobody else does, so the rest stays lawful while its edge has room. */
static void leave_out_ends(struct journal *j, const word *table) {
    unsigned kept = 0;
    for (unsigned k = 0; k < j->count; k++)
        if (!is_end(table, &j->lines[k])) j->lines[kept++] = j->lines[k];
    j->count = kept;
}

/* WHAT IS UNTRUE, or not done in turn. */
static log_due at_fault(struct journal *j, unsigned own) { return (log_due){24, j->at, own}; }

static log_due spoil_name(struct journal *j, struct line *l) {
    unsigned was = l->name;
    l->name = chance(j->r, 80) ? draw(j->r, NAMES) : draw(j->r, 65536);
    return l->name == was ? j->due : at_fault(j, 0);
}

/* a step that sent or did nothing is said to have consumed, or the other way round: it is named with values it does not take, or without those it takes */
static log_due spoil_sign(struct journal *j, struct line *l) {
    char was = l->sign;
    l->sign = ONE_OF(j, "-?!-?!");
    if (!l->sign || l->sign == was) return l->sign = was, j->due;
    if (was == '-') l->name = draw(j->r, NAMES), l->tuple = some_tuple(j->r), l->tuple.length %= VALUES + 1;
    return at_fault(j, (was == '?' || l->sign == '?') && l->tuple.length ? 14 : 0);
}

static log_due spoil_values(struct journal *j, struct line *l) {
    ref_tuple was = l->tuple;
    if (chance(j->r, 40)) l->tuple.length = (l->tuple.length + 1 + draw(j->r, VALUES)) % (VALUES + 1);
    else if (l->tuple.length) l->tuple.values[draw(j->r, l->tuple.length)] += 1;
    if (l->sign != '!') return unknown;
    return memcmp(&was, &l->tuple, sizeof was) ? at_fault(j, 0) : j->due;
}

/* numbers that no model has */
static log_due spoil_step(struct journal *j, struct line *l) {
    ref_name *s = &l->step;
    unsigned some = chance(j->r, 50) ? 0 : draw(j->r, 65000);
    switch (draw(j->r, 5)) {
    case 0: s->pool = 10 + some; break;
    case 1: s->instance = INSTANCES + 1 + some; break;
    case 2: s->element = ELEMENTS + some; break;
    case 3: s->phase = 4 + some; break;
    default: s->branch = BRANCHES + some;
    }
    return at_fault(j, 11);
}

static void insert_line(struct journal *j, struct line l) {
    memmove(j->lines + j->at + 1, j->lines + j->at, (j->count - j->at) * sizeof l);
    j->lines[j->at] = l;
    j->count++;
}

static log_due spoil_post(struct journal *j) {
    struct line l = {.post = true, .name = NAMES + (chance(j->r, 50) ? 0 : draw(j->r, 65000))};
    l.tuple.length = draw(j->r, 3);
    spell(&l);
    if (chance(j->r, 50)) strcpy(l.text, chance(j->r, 50) ? "post 3:1,2,3,4,5" : "post 15:0,0,0,0,0,0,0,0");
    insert_line(j, l);
    return at_fault(j, 19);
}

/* an event left out, doubled, exchanged for the next; many posts to one queue */
static log_due spoil_order(struct journal *j) {
    struct line l = j->lines[j->at];
    switch (draw(j->r, 10)) {
    case 0:
    case 1:
    case 2:
        memmove(j->lines + j->at, j->lines + j->at + 1, (j->count - j->at - 1) * sizeof l);
        j->count--;
        break;
    case 3:
    case 4: insert_line(j, l); break;
    case 5:
        for (unsigned k = 0; k < 66 && j->count < LINES - 4; k++) {
            struct line post = {.post = true, .name = 15};
            spell(&post), insert_line(j, post);
        }
        break;
    default:
        if (j->at + 1 == j->count) return j->due;
        j->lines[j->at] = j->lines[j->at + 1], j->lines[j->at + 1] = l;
    }
    return unknown;
}

/* one instance more of a pool that has made as many as it may, where a message for it is queued */
static bool one_more(const word *table, const word *state, ref_name *name) {
    for (unsigned p = 0; p < table[0]; p++) {
        const word *pool = pool_at(table, p);
        for (unsigned e = 0; e < pool[POOL_COUNT] && state[p] == limit_of(pool); e++) {
            const word *el = element_at(pool, e), *q = queue_at((word *)state, message_at(el, 0)[0]);
            if (el[KIND] != START_RCV || !q[0]) continue;
            *name = (ref_name){.pool = pool[0], .instance = state[p], .element = e};
            memcpy(&name->given, q + 1, sizeof name->given);
            return true;
        }
    }
    return false;
}

/* any step, named in the state that the events before left */
static log_due spoil_turn(struct journal *j, const word *table, word version) {
    static word state[REF_STATE_WORDS];
    struct line l = {.sign = '-'};
    ref_fresh(table, version, state);
    for (unsigned k = 0; k < j->at; k++) {
        struct line *x = &j->lines[k];
        ref_name step = x->step;
        if (x->sign == '?') step.given = x->tuple;
        if (x->post) ref_post(table, state, x->name, x->tuple);
        else take_step(table, state, step);
    }
    if (chance(j->r, 50) || !one_more(table, state, &l.step)) l.step = some_name(j->r, table, state);
    l.tuple = l.step.given;
    uint32_t numbers = l.step.pool | l.step.instance | l.step.element | l.step.phase | l.step.branch;
    if (l.tuple.length > VALUES || numbers > 65535) return j->due; /* a line could not say it */
    if (l.tuple.length || chance(j->r, 20)) l.sign = '?', l.name = draw(j->r, NAMES);
    spell(&l), insert_line(j, l);
    unsigned own = take_step(table, state, l.step).number;
    return own ? at_fault(j, own) : unknown;
}

static log_due spoil_line(struct journal *j, const word *table, word version) {
    if (j->count >= LINES - 4) return j->due;
    j->at = j->count < FILLED ? draw(j->r, j->count + 1) : j->count - 1 - draw(j->r, 30);
    unsigned which = draw(j->r, 100);
    if (j->at == j->count && (which >= 40 || j->steady)) return j->due;
    if (which < 5) return spoil_post(j);
    if (which < 40 && !j->steady) return spoil_turn(j, table, version);
    while (which >= 80 && j->at + 1 < j->count && j->lines[j->at].sign != '!') j->at++; /* one that sent */
    struct line *l = &j->lines[j->at];
    if (which < 50 || l->post || j->steady) return spoil_order(j);
    log_due due = which < 55 ? spoil_step(j, l) : which < 70 && l->sign != '-' ? spoil_name(j, l) : which < 80 ? spoil_sign(j, l) : spoil_values(j, l);
    spell(l);
    return due;
}

/* a line that is none */
static void spoil_text(struct journal *j, struct line *l) {
    static const char *const none[] = {"", "hello", "steps 7 left 0", "1 0 0 0 0", "1 0 0 0 0 ", "1 0 0 0 0 - ", " 1 0 0 0 0 -", "01 0 0 0 0 -",
                                       "1 0 0 0 0 --", "1 0 0 0 -", "1 0 0 0 0 0 -", "1 0 0 0 0 !3", "1 0 0 0 0 !:7", "1 0 0 0 0 !3:7,",
                                       "1 0 0 0 0 !3:,7", "1 0 0 0 0 ?3:07", "1 0 0 0 0 3:7", "1  0 0 0 0 -", "1\t0 0 0 0 -", "1 0 0 0 0 &#45;",
                                       "65536 0 0 0 0 -", "1 0 0 0 65536 -", "1 0 0 0 0 !65536:", "1 0 0 0 0 !3:4294967296",
                                       "1 0 0 0 0 !3:99999999999999999999", "post", "post ", "post 3", "post 3:-", "post 3:1 ", "Post 3:1",
                                       "post 65536:", "post 03:", "post  3:", "post 3: 1", "post 3:1;2", "post 3:4294967296", "+1 0 0 0 0 -",
                                       "1 0 0 0 0 -\n", "1,0,0,0,0,-", "1 0 0 0 0 !3:\xd9\xa3", "post 3:18446744073709551617", "post 65537:1",
                                       "4294967297 0 0 0 0 -"};
    snprintf(l->text, LINE_ROOM, "%s", ONE_OF(j, none));
}

/* HOW IT IS WRITTEN. */
static void put(struct journal *j, const char *form, ...) {
    va_list words;
    va_start(words, form);
    int n = vsnprintf(j->text + j->n, j->room - j->n, form, words);
    va_end(words);
    j->n = j->n + n < j->room ? j->n + n : j->room - 1;
}

static bool now(struct journal *j, unsigned percent) { return !j->plain && j->n < LONG && chance(j->r, percent); }

/* between elements: blanks, comments, instructions */
static void put_gap(struct journal *j) {
    static const char *const gaps[] = {"<!-- a & b < c -->", "<!---->", "<?tool a?>", "<?t?>", "<?xml-stylesheet x ?? ?>", " ", "\r\n",
                                       "<!--<event>-->"};
    put(j, "%s", j->gap);
    if (now(j, 4)) put(j, "%s", ONE_OF(j, gaps));
}

static void put_end(struct journal *j, const char *name) { put(j, "</%s%s%s>", j->prefix, name, now(j, 3) ? " " : ""); }

/* an attribute of a tag; the place of its opening quote */
static size_t put_value(struct journal *j, const char *name, const char *value) {
    char quote = strchr(value, '\'') ? '"' : strchr(value, '"') || now(j, 20) ? '\'' : j->quote;
    put(j, now(j, 4) ? "\r\n\t%s" : " %s", name);
    put(j, now(j, 3) ? " = " : "=");
    size_t place = j->n;
    put(j, "%c%s%c", quote, value, quote);
    return place;
}

/* an attribute that says nothing here, or something nested, so many deep */
static void put_nested(struct journal *j, unsigned depth) {
    static const char *const lists[] = {"list", "values", "string", "x:event", "trace", "log", "int"}, *const texts[] = {"", "text", "&lt;&#65;", "<![CDATA[</event>]]>", "]]", "\xc3\xa4", "<!-- -->"};
    static const char *names[20];
    for (unsigned d = 0; d < depth; d++) {
        names[d] = d ? ONE_OF(j, lists) : "list";
        put(j, "<%s%s key=\"concept:name\" value=\"%u\">%s", j->prefix, names[d], d, ONE_OF(j, texts));
    }
    while (depth--) put(j, "</%s%s>", j->prefix, names[depth]);
}

static void put_other(struct journal *j) {
    static const char *const others[] = {"<date key=\"time:timestamp\" value=\"2026-11-15T20:31:08.000+01:00\"/>",
                                         "<string key='lifecycle:transition' value='complete'/>",
                                         "<string key=\"org:resource\" value=\"a &amp; b\"/>", "<id key=\"concept:name\" value=\"x\"/>",
                                         "<string value=\"1 0 0 0 0 -\"/>", "<int key='n' value='3'><string key=\"concept:name\" value=\"y\"/></int>",
                                         "<string key=\"concept:nam\" value=\"z\"/>", "<string key=\"concept:name \" value=\"z\"/>",
                                         "<string key=\"Concept:name\"/>", "<String key=\"concept:name\"/>",
                                         "<boolean key=\"b\" value=\"true\"></boolean>", "<string key=\"concept&#58;name\" value=\"z\"/>",
                                         "<string x:key=\"concept:name\" value=\"z\"/>", "<float key=\"f\" value=\"1.0\"/>",
                                         "<global scope=\"event\"><string key=\"concept:name\" value=\"w\"/></global>"};
    put_gap(j);
    if (chance(j->r, 85)) put(j, "%s", ONE_OF(j, others));
    else put_nested(j, 1 + draw(j->r, chance(j->r, 80) ? 4 : 16));
}

/* the tag of an event's line: where its key's and its value's quotes stand, and its end */
static void put_name(struct journal *j, const char *tag, const char *key, const char *line, size_t places[3]) {
    bool swapped = now(j, 25), empty = !now(j, 15);
    put(j, "<%s%s", j->prefix, tag);
    if (now(j, 10)) put_value(j, "x:value", "1 0 0 0 0 -");
    if (swapped && line) places[1] = put_value(j, "value", line);
    if (key) places[0] = put_value(j, "key", key);
    if (now(j, 10)) put_value(j, "xmlns:value", "a>b");
    if (!swapped && line) places[1] = put_value(j, "value", line);
    if (now(j, 5)) put(j, " ");
    places[2] = j->n;
    put(j, empty ? "/>" : ">");
    if (empty) return;
    if (now(j, 50)) put(j, "text &#9; <![CDATA[x]]>");
    if (now(j, 50)) put(j, "<string key=\"concept:name\" value=\"nested\"/>");
    put_end(j, tag);
}

/* what is 23, and its place */
static void note(struct journal *j, size_t place) { j->due = (log_due){23, place, 0}; }

static void put_stranger(struct journal *j, bool inside) {
    static const char *const none[] = {"x", "&amp;", "<![CDATA[]]>", "\x80", "]", "\x01", "&", ">"}, *const strangers[] = {"<log/>", "<trace>", "<x:log ", "<trace/>"};
    put_gap(j);
    note(j, j->n);
    if (j->fault == TEXT_INSIDE || j->fault == TEXT_BEFORE) {
        put(j, "%s ", ONE_OF(j, none));
        if (!strchr("<&", j->text[j->due.beside]) && chance(j->r, 20)) j->end = j->due.beside + 1; /* one byte of it is enough */
    } else put(j, "%s", inside && chance(j->r, 30) ? "<event>" : ONE_OF(j, strangers));
}

static void put_event(struct journal *j, unsigned k) {
    enum fault fault = k == j->at ? j->fault : NO_FAULT;
    const char *line = j->lines[k].text;
    size_t places[3], ignored[3];
    if (fault == TEXT_BEFORE || fault == STRANGER_BEFORE) put_stranger(j, false);
    put_gap(j);
    if (fault == EMPTY_EVENT) {
        put(j, "<%sevent", j->prefix);
        note(j, j->n);
        put(j, "/>");
        return;
    }
    put(j, "<%sevent%s>", j->prefix, now(j, 5) ? " key=\"concept:name\" value='x'" : "");
    if (fault == TEXT_INSIDE || fault == STRANGER_INSIDE) put_stranger(j, true);
    while (now(j, 25)) put_other(j);
    if (fault == TOO_DEEP) put_gap(j), put_nested(j, 16);
    put_gap(j);
    switch (fault) {
    case NO_NAME: break;
    case OTHER_TYPE: put_name(j, "id", "concept:name", line, ignored); break;
    case OTHER_KEY: put_name(j, "string", chance(j->r, 50) ? "concept:Name" : chance(j->r, 50) ? "name" : NULL, line, ignored); break;
    default:
        put_name(j, "string", "concept:name", fault == NO_VALUE ? NULL : line, places);
        if (fault == NO_VALUE) note(j, places[2]);
        if (fault == NO_LINE) note(j, places[1]);
    }
    if (fault == SECOND_NAME) {
        put_gap(j), put_name(j, "string", "concept:name", chance(j->r, 50) ? line : chance(j->r, 50) ? "x" : NULL, places);
        note(j, places[0]);
    }
    if (fault == TOO_DEEP) { /* one more, at the seventeenth */
        put_gap(j);
        for (unsigned d = 0; d < DEEPEST; d++) put(j, "<a>");
        note(j, j->n);
        put(j, chance(j->r, 50) ? "<a/>" : "<string key=\"concept:name\" value=\"x\">");
        for (unsigned d = 0; d < DEEPEST; d++) put(j, "</a>");
    }
    while (now(j, 15)) put_other(j);
    put_gap(j);
    if (fault == NO_NAME || fault == OTHER_TYPE || fault == OTHER_KEY) note(j, j->n);
    put_end(j, "event");
}

static void put_head(struct journal *j) {
    static const char *const heads[] = {"<extension name=\"Concept\" prefix=\"concept\" uri=\"http://www.xes-standard.org/concept.xesext\"/>",
                                        "<global scope=\"trace\"><string key=\"concept:name\" value=\"__INVALID__\"/></global>",
                                        "<global scope='event'><string key='concept:name' value='9 9 9 9 9 -'/></global>",
                                        "<classifier name=\"Activity\" keys=\"concept:name\"/>", "<string key=\"concept:name\" value=\"junction\"/>",
                                        "<list key=\"l\"><values><event/><trace></trace></values></list>", "<values/>", "<a>b</a>"};
    while (now(j, 50)) put_gap(j), put(j, "%s", ONE_OF(j, heads));
}

static void put_trace(struct journal *j) {
    bool empty = !j->count && chance(j->r, 50);
    put_gap(j);
    put(j, "<%strace%s", j->prefix, empty ? "/>" : ">");
    if (empty) return;
    put_head(j);
    while (now(j, 30)) put_other(j);
    for (unsigned k = 0; k < j->count; k++) put_event(j, k);
    while (now(j, 15)) put_other(j);
    put_gap(j);
    put_end(j, "trace");
}

/* the log, and where its root ends */
static size_t put_whole(struct journal *j) {
    if (now(j, 10)) put(j, "\xef\xbb\xbf");
    if (now(j, 50)) put(j, "<?xml version=\"1.0\" encoding=\"%s\"?>", chance(j->r, 50) ? "UTF-8" : "iso-8859-1");
    if (!j->plain) put_gap(j);
    put(j, "<%slog%s>", j->prefix, now(j, 60) ? " xes.version=\"1849.2016\"\r\n xmlns='http://www.xes-standard.org/'" : "");
    put_head(j);
    if (j->fault != NO_TRACE) put_trace(j);
    put_head(j);
    put_gap(j);
    if (j->fault == NO_TRACE || j->fault == SECOND_TRACE) note(j, j->n);
    if (j->fault == SECOND_TRACE) put(j, "<%s%s>", j->prefix, chance(j->r, 50) ? "trace" : chance(j->r, 50) ? "trace/" : "event");
    put_end(j, "log");
    size_t root = j->n;
    if (!j->plain) put_gap(j);
    return root;
}

/* THE TEXT spoiled. */
static void insert(struct journal *j, size_t at, const char *piece) {
    size_t m = strlen(piece);
    if (j->n + m >= j->room) return;
    memmove(j->text + at + m, j->text + at, j->n - at);
    memcpy(j->text + at, piece, m);
    j->n += m;
}

static void take_out(struct journal *j, size_t at, size_t m) {
    if (m > j->n - at) m = j->n - at;
    memmove(j->text + at, j->text + at + m, j->n - at - m);
    j->n -= m;
}

/* at the next place of some bytes from a place on, or at that place where there are none */
static size_t next_of(struct journal *j, size_t at, const char *bytes) {
    j->text[j->n] = 0;
    const char *found = memchr(j->text + at, 0, j->n - at) ? NULL : strstr(j->text + at, bytes);
    return found ? (size_t)(found - j->text) : at;
}

/* the text ends in a reference, that could become a right one or not, or right behind it: behind a tag the first is the end's place */
static log_due cut_reference(struct journal *j, size_t root) {
    static const char *const cuts[] = {"&", "&1", "&.", "&-", "&#a", "&#xg", "&a#", "&l", "&#", "&#x", "&#x4", "&lt", "&nbsp", "&#99999999", "&#xd800", "&#0", "&:_\xff", "&##"};
    static const char *const whole[] = {"&l;", "&1;", "&#xg;", "&#;", "& ", "&1 ", "&a#\t", "&lt"};
    size_t at = draw(j->r, root);
    while (at && j->text[at] != '"' && j->text[at] != '\'' && j->text[at] != '>') at--; /* in a value, most likely, or between tags */
    bool ends = chance(j->r, 80), known = ends && at && j->text[at] == '>' && j->due.number >= 0;
    j->n = ++at;
    insert(j, at, ends ? ONE_OF(j, cuts) : ONE_OF(j, whole));
    return known && (j->due.number != 23 || j->due.beside >= at) ? (log_due){23, j->n, 0} : unknown;
}

static log_due cut_off(struct journal *j, size_t at, size_t root) {
    bool early = j->due.number == 23 && j->due.beside < at;
    if (j->due.number < 0 || early || at >= root) return j->n = at, unknown;
    return j->n = at, (log_due){23, at, 0};
}

static log_due spoil_bytes(struct journal *j, size_t root) {
    static const char *const pieces[] = {"<", ">", "/", "&", ";", "\"", "'", "=", "<a>", "</a>", "<a/>", "<!--", "-->", "--", "<![CDATA[", "]]>",
                                         "<?", "?>", "<?xml ?>", "<!DOCTYPE log>", "&lt;", "&x;", "&#0;", "&#x41;", " ", "\r", "\t", "\x01", "\x1f",
                                         "\x7f", "\xff", ":", "key=\"concept:name\"", " key=\"concept:name\"", " value=\"1 0 0 0 0 -\"", "<event/>",
                                         "<trace/>", "<log/>", "1", "0", "-", "!", "?", ",", "<!", "x", "</", "</event>", "</trace>", "<event>",
                                         "post ", "</log>", "<string key=\"concept:name\" value=\"post 3:\"/>", "<?XML?>", "&#"};
    static const char *const marks[] = {"value=", "key=", "<", "</event", "concept:name", " -", "\"", "event", "/>", "trace", "!", "post", "log"};
    size_t at = draw(j->r, j->n);
    if (chance(j->r, 60)) at = next_of(j, at, ONE_OF(j, marks));
    switch (draw(j->r, 10)) {
    case 0: return root && chance(j->r, 40) ? cut_reference(j, root < j->n ? root : j->n) : cut_off(j, draw(j->r, j->n), root);
    case 1: return cut_off(j, draw(j->r, j->n), root);
    case 2:
        for (at = XML_MOST + draw(j->r, 2); j->n < at;) j->text[j->n++] = ' ';
        return j->due.number == 23 ? unknown : j->due;
    case 3: j->text[at] = draw(j->r, 256); break;
    case 4: j->text[at] ^= 32; break;
    case 5: take_out(j, at, 1); break;
    case 6: take_out(j, at, draw(j->r, 70)); break;
    case 8: /* something behind a name in a tag */
        at = next_of(j, at, "</");
        while (at < j->n && !strchr("> \r\n\t=", j->text[at])) at++;
        insert(j, at, chance(j->r, 50) ? " x" : " ");
        break;
    case 7:
        if (j->due.number < 0 || j->due.number == 23) break;
        if (chance(j->r, 50)) return insert(j, root, chance(j->r, 50) ? "x" : "<log/>"), (log_due){23, root, 0};
        return insert(j, root, "<!-- -->"), j->due;
    default: insert(j, at, ONE_OF(j, pieces));
    }
    return unknown;
}

size_t log_text(struct random *r, const word *table, word version, bool filling, char *text, size_t room, log_due *due) {
    static const char *const prefixes[] = {"", "", "", "xes:", "x:y:", "_.:"}, *const gaps[] = {"", "\n", "\r\n", " ", "\n\t", "\t"};
    static struct journal journal;
    struct journal *j = &journal;
    *j = (struct journal){.r = r, .text = text, .room = room};
    j->prefix = ONE_OF(j, prefixes), j->gap = ONE_OF(j, gaps), j->quote = chance(r, 80) ? '"' : '\'', j->plain = chance(r, 20);
    do_all(j, table, version, filling);
    if (j->count <= COUNT_MOST && chance(r, 15)) leave_out_ends(j, table);
    if (chance(r, 50)) j->due = spoil_line(j, table, version);
    if (j->due.number == 24 && chance(r, 10)) spoil_line(j, table, version), j->due = unknown;
    if (chance(r, 30)) { /* 23 goes before 24 */
        j->at = draw(r, j->count + 1), j->fault = draw(r, FAULTS);
        if (j->fault == NO_LINE && j->at < j->count) spoil_text(j, &j->lines[j->at]);
    }
    size_t root = put_whole(j);
    if (j->end) root = j->n = j->end;
    for (unsigned k = chance(r, 30) ? 1 + draw(r, 2) : 0; k && j->n; k--) j->due = spoil_bytes(j, root);
    *due = j->n > XML_MOST ? (log_due){23, 0, 0} : j->due;
    return j->n;
}
