/* Logs: a text of XES judged as document 02's fourth request says. First one walk over the whole text, which notes each event's line and stops at the first
   place where it is no such log (23); then the lines, one by one, from the fresh state (24). */
#include "layout.h"
#include "xml.h"

/* an event has its two tags and a string with its two attributes: more than 50 bytes */
enum { EVENTS = XML_MOST / 50, LINE_NUMBERS = 5, LINE_NUMBER_MOST = 65535 };
#define LINE_VALUE_MOST 4294967295u

/* where an element stands that is read into */
enum level { LOG, TRACE, EVENT };

struct log {
    struct xml xml;
    unsigned traces, events;
    struct span lines[EVENTS];
    /* the names of the root and the trace; whether the trace is an empty tag; where its start tag or the last whole event ends */
    struct span root, trace;
    bool empty_trace;
    size_t whole;
};

/* A LINE. */
struct line { bool post; uint32_t numbers[LINE_NUMBERS]; uint8_t sign; uint32_t name; ref_tuple tuple; };

struct cursor { const uint8_t *at, *end; };

static bool sees(const struct cursor *c, uint8_t b) { return c->at < c->end && *c->at == b; }

static bool takes(struct cursor *c, uint8_t b) {
    if (!sees(c, b)) return false;
    c->at++;
    return true;
}

/* a decimal number without leading zeros */
static bool takes_number(struct cursor *c, uint64_t most, uint32_t *out) {
    const uint8_t *from = c->at;
    uint64_t v = 0;
    while (c->at < c->end && is_digit(*c->at) && v <= most) v = v * 10 + *c->at++ - '0';
    *out = (uint32_t)v;
    return c->at > from && v <= most && (*from != '0' || c->at == from + 1);
}

/* `M:V`: the values joined by commas, possibly none, up to the line's end; all are counted, and those that a message can have are kept */
static bool takes_message(struct cursor *c, struct line *l) {
    uint32_t v;
    if (!takes_number(c, LINE_NUMBER_MOST, &l->name) || !takes(c, ':')) return false;
    if (c->at == c->end) return true;
    do {
        if (!takes_number(c, LINE_VALUE_MOST, &v)) return false;
        if (l->tuple.length < VALUES) l->tuple.values[l->tuple.length] = v;
        l->tuple.length++;
    } while (takes(c, ','));
    return c->at == c->end;
}

/* `P I E F B T`, T being `-`, `!M:V` or `?M:V`; or `post M:V` */
static bool is_line(const uint8_t *s, size_t n, struct line *l) {
    struct cursor c = {s, s + n};
    memset(l, 0, sizeof *l);
    l->post = n >= 5 && memcmp(s, "post ", 5) == 0;
    if (l->post) return c.at += 5, takes_message(&c, l);
    for (unsigned k = 0; k < LINE_NUMBERS; k++)
        if (!takes_number(&c, LINE_NUMBER_MOST, &l->numbers[k]) || !takes(&c, ' ')) return false;
    if (c.at == c.end) return false;
    l->sign = *c.at++;
    if (l->sign == '-') return c.at == c.end;
    return (l->sign == '!' || l->sign == '?') && takes_message(&c, l);
}

/* THE LOG. What stands in an element that is skipped, and its end tag; the element is as deep as depth says. */
static bool skipped(struct xml *w, struct span name, unsigned depth) {
    for (;;) {
        struct span found = {0, 0, false};
        size_t at = w->at;
        uint32_t code;
        bool empty;
        if (at == w->n) return cut(w);
        if (w->s[at] != '<') {
            if (ends_text(w, at)) return fault(w, at);
            w->at++;
            if (w->s[at] == '&' && !reference(w, at, &code)) return false;
            continue;
        }
        switch (opening_at(w, at, &found)) {
        case CUT_OFF: return cut(w);
        case WRONG: return broken(w, at, stop_of(w, at));
        case END_TAG: return end_tag(w, name, found);
        case COMMENT:
            if (!until(w, at + 4, "-->")) return false;
            break;
        case CDATA:
            if (!until(w, at + 9, "]]>")) return false;
            break;
        case INSTRUCTION:
            if (!instruction(w, found)) return false;
            break;
        case START_TAG:
            if (depth == DEEPEST) return fault(w, at);
            if (!tag(w, found.to, NULL, &empty) || (!empty && !skipped(w, found, depth + 1))) return false;
        }
    }
}

/* an event's `concept:name`, its tag being whole: a second one, no value, no line */
static bool named(struct log *g, unsigned *names, struct span key, bool empty) {
    struct xml *w = &g->xml;
    struct span value = value_of(w, "value");
    struct line line;
    if ((*names)++) return fault(w, key.from - 1);
    if (!value.there) return fault(w, w->at - 1 - empty);
    if (!is_line(w->s + value.from, value.to - value.from, &line)) return fault(w, value.from - 1);
    g->lines[g->events] = value;
    return true;
}

static bool inside(struct log *g, struct span name, enum level level);

/* an element in the log, the trace or an event */
static bool child(struct log *g, struct span name, enum level level, unsigned *names) {
    struct xml *w = &g->xml;
    struct span local = behind_colon(w, name);
    size_t at = w->at;
    bool trace = is(w, local, "trace"), event = is(w, local, "event"), due = level == LOG ? trace && !g->traces : level == TRACE && event, empty;
    if (!due && (trace || event || is(w, local, "log"))) return fault(w, at);
    if (!tag(w, name.to, NULL, &empty)) return false;
    if (!due) {
        struct span key = value_of(w, "key");
        if (level == EVENT && is(w, local, "string") && is(w, key, "concept:name") && !named(g, names, key, empty)) return false;
        return empty || skipped(w, name, 1);
    }
    if (empty && event) return fault(w, w->at - 2);
    g->traces += trace;
    if (trace) g->trace = name, g->empty_trace = empty, g->whole = w->at;
    if (!empty && !inside(g, name, trace ? TRACE : EVENT)) return false;
    g->events += event;
    if (event) g->whole = w->at;
    return true;
}

/* what stands in the log, the trace or an event, and its end tag */
static bool inside(struct log *g, struct span name, enum level level) {
    struct xml *w = &g->xml;
    unsigned names = 0;
    for (;;) {
        struct span found = {0, 0, false};
        size_t at = w->at = over_blanks(w, w->at);
        if (at == w->n) return cut(w);
        if (w->s[at] != '<') return no_markup(w, at);
        switch (opening_at(w, at, &found)) {
        case CUT_OFF: return cut(w);
        case WRONG: return broken(w, at, stop_of(w, at));
        case CDATA: return fault(w, at);
        case COMMENT:
            if (!until(w, at + 4, "-->")) return false;
            break;
        case INSTRUCTION:
            if (!instruction(w, found)) return false;
            break;
        case START_TAG:
            if (!child(g, found, level, &names)) return false;
            break;
        case END_TAG:
            if ((level == LOG && !g->traces) || (level == EVENT && !names)) return fault(w, at);
            return end_tag(w, name, found);
        }
    }
}

static bool is_log(struct log *g, const uint8_t *text, size_t length) {
    struct xml *w = &g->xml;
    struct span name;
    bool empty;
    g->traces = g->events = 0;
    if (!begun(w, text, length) || !around(w, "log", &name) || !tag(w, name.to, NULL, &empty)) return false;
    if (empty) return fault(w, w->at - 2);
    g->root = name;
    return inside(g, name, LOG) && around(w, NULL, &name);
}

/* LAWFUL. What a line says was sent or consumed is true of an accepted step. */
static bool is_true(const struct line *l, const ref_answer *a) {
    static const uint8_t signs[] = {'-', '?', '!'};
    if (l->sign != signs[a->traffic]) return false;
    if (!a->traffic) return true;
    if (l->name != a->name || l->tuple.length != a->tuple.length) return false;
    for (unsigned j = 0; j < a->tuple.length; j++)
        if (l->tuple.values[j] != a->tuple.values[j]) return false;
    return true;
}

/* one line done: whether it is lawful, and the number that its step or post got */
static bool done(const word *t, word *z, const struct line *l, unsigned *own) {
    if (l->post) return *own = ref_post(t, z, l->name, l->tuple), *own == 0;
    ref_name name = {l->numbers[0], l->numbers[1], l->numbers[2], l->numbers[3], l->numbers[4], {0}};
    if (l->sign == '?') name.given = l->tuple;
    ref_answer a = take_step(t, z, name);
    *own = a.number;
    return !a.number && is_true(l, &a);
}

/* a log's events, one by one, from a state on */
static ref_judged judged_on(const word *t, word *z, const uint8_t *text, size_t length) {
    static struct log g;
    if (length > XML_MOST) return (ref_judged){23, 0, 0};
    if (!is_log(&g, text, length)) return (ref_judged){23, g.xml.place, 0};
    for (unsigned k = 0; k < g.events; k++) {
        struct line line;
        unsigned own;
        is_line(text + g.lines[k].from, g.lines[k].to - g.lines[k].from, &line);
        if (!done(t, z, &line, &own)) return (ref_judged){24, k, own};
    }
    return (ref_judged){0, 0, 0};
}

/* REPLAYED, from the fresh state of a version; judged, with nothing kept; resumed, from the state that is lent. */
ref_judged ref_replay(const word *t, word version, const uint8_t *text, size_t length, word *z) {
    static word state[REF_STATE_WORDS];
    unsigned number = ref_fresh(t, version, state);
    ref_judged j = number ? (ref_judged){number, 0, 0} : judged_on(t, state, text, length);
    if (!j.number) memcpy(z, state, sizeof state);
    return j;
}

ref_judged ref_judge(const word *t, word version, const uint8_t *text, size_t length) {
    static word state[REF_STATE_WORDS];
    return ref_replay(t, version, text, length, state);
}

ref_judged ref_resume(const word *t, word *z, const uint8_t *text, size_t length) {
    static word state[REF_STATE_WORDS];
    unsigned number = lent_number(t, z);
    if (number) return (ref_judged){number, 0, 0};
    memcpy(state, z, sizeof state);
    ref_judged j = judged_on(t, state, text, length);
    if (!j.number) memcpy(z, state, sizeof state);
    return j;
}

/* REPAIRED. */
static size_t put_end_tag(const struct log *g, struct span name, uint8_t *out, size_t n) {
    size_t m = name.to - name.from;
    memcpy(out + n, "</", 2), memcpy(out + n + 2, g->xml.s + name.from, m), out[n + 2 + m] = '>';
    return n + m + 3;
}

ref_repaired ref_repair(const uint8_t *text, size_t length, uint8_t *out, size_t room) {
    static struct log g;
    static uint8_t repaired[3 * XML_MOST];
    size_t n = length, kept_bytes = length;
    if (length > XML_MOST) return (ref_repaired){27, 0, 0, 0};
    if (is_log(&g, text, length)) memcpy(repaired, text, n);
    else {
        if (g.xml.place < length || !g.traces) return (ref_repaired){27, 0, 0, 0};
        n = kept_bytes = g.whole;
        memcpy(repaired, text, n);
        if (!g.empty_trace) n = put_end_tag(&g, g.trace, repaired, n);
        n = put_end_tag(&g, g.root, repaired, n);
    }
    if (n > room || n > XML_MOST) return (ref_repaired){5, 0, 0, 0};
    memcpy(out, repaired, n);
    return (ref_repaired){0, n, g.events, length - kept_bytes};
}
