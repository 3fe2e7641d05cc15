/* XML as document 02 takes it, in drawings and in logs alike: what stands at each place, from left to right, and the first place at fault. */
#include "xml.h"
#include <string.h>

bool fault(struct xml *w, size_t place) {
    w->place = place;
    return false;
}

bool cut(struct xml *w) { return fault(w, w->n); }

static bool is_blank(uint8_t b) { return b == ' ' || b == '\t' || b == '\r' || b == '\n'; }
bool is_control(uint8_t b) { return b < 32 && !is_blank(b); }
static bool is_letter(uint8_t b) { return (b >= 'a' && b <= 'z') || (b >= 'A' && b <= 'Z') || b == '_' || b == ':' || b >= 128; }
bool is_digit(uint8_t b) { return b >= '0' && b <= '9'; }
static bool in_name(uint8_t b) { return is_letter(b) || is_digit(b) || b == '-' || b == '.'; }

static size_t name_end(const struct xml *w, size_t at) {
    while (at < w->n && in_name(w->s[at])) at++;
    return at;
}

bool is(const struct xml *w, struct span x, const char *word) {
    return x.there && x.to - x.from == strlen(word) && memcmp(w->s + x.from, word, x.to - x.from) == 0;
}

bool ends_text(const struct xml *w, size_t at) { return is_control(w->s[at]) || (w->n - at >= 3 && memcmp(w->s + at, "]]>", 3) == 0); }

bool equal(const struct xml *w, struct span x, struct span y) {
    return x.there && y.there && x.to - x.from == y.to - y.from && memcmp(w->s + x.from, w->s + y.from, x.to - x.from) == 0;
}

struct span behind_colon(const struct xml *w, struct span x) {
    for (size_t k = x.from; k < x.to; k++)
        if (w->s[k] == ':') x.from = k + 1;
    return x;
}

enum opening opening_at(const struct xml *w, size_t at, struct span *name) {
    static const char *const openings[] = {"--", "[CDATA["};
    size_t left = w->n - at - 1;
    if (left == 0) return CUT_OFF;
    uint8_t b = w->s[at + 1];
    if (b == '!') {
        for (unsigned k = 0; k < 2; k++) {
            size_t all = strlen(openings[k]), seen = all < left - 1 ? all : left - 1;
            if (memcmp(w->s + at + 2, openings[k], seen) == 0) return seen < all ? CUT_OFF : k ? CDATA : COMMENT;
        }
        return WRONG;
    }
    size_t from = at + 1 + (b == '?' || b == '/');
    if (from == w->n) return CUT_OFF;
    if (!is_letter(w->s[from])) return WRONG;
    *name = (struct span){from, name_end(w, from), true};
    if (name->to == w->n) return CUT_OFF;
    return b == '?' ? INSTRUCTION : b == '/' ? END_TAG : START_TAG;
}

bool broken(struct xml *w, size_t at, size_t k) { return fault(w, is_control(w->s[k]) ? k : at); }

/* `--` closes a comment or is wrong there */
bool until(struct xml *w, size_t at, const char *close) {
    size_t m = strlen(close);
    for (;; at++) {
        if (at == w->n) return cut(w);
        if (is_control(w->s[at])) return fault(w, at);
        if (w->n - at >= m && memcmp(w->s + at, close, m) == 0) break;
        if (m == 3 && close[0] == '-' && w->n - at >= 3 && memcmp(w->s + at, "--", 2) == 0) return broken(w, at, at + 2);
    }
    w->at = at + m;
    return true;
}

bool instruction(struct xml *w, struct span target) {
    const uint8_t *s = w->s + target.from;
    if (target.to - target.from == 3 && (s[0] | 32) == 'x' && (s[1] | 32) == 'm' && (s[2] | 32) == 'l')
        if (!is(w, target, "xml") || w->at != w->first) return fault(w, w->at);
    if (w->s[target.to] == '?') {
        if (target.to + 1 == w->n) return cut(w);
        if (w->s[target.to + 1] != '>') return broken(w, target.to, target.to + 1);
    } else if (!is_blank(w->s[target.to])) return fault(w, target.to);
    return until(w, target.to, "?>");
}

static bool allowed(uint32_t c) {
    return c == 9 || c == 10 || c == 13 || (c >= 0x20 && c <= 0xd7ff) || (c >= 0xe000 && c <= 0xfffd) || (c >= 0x10000 && c <= 0x10ffff);
}

size_t stop_of(const struct xml *w, size_t at) {
    size_t best = at + 1 + (w->s[at + 1] == '?' || w->s[at + 1] == '/' || w->s[at + 1] == '!');
    static const char *const openings[] = {"<!--", "<![CDATA["};
    for (unsigned k = 0; k < 2; k++) {
        size_t same = 0;
        while (at + same < w->n && openings[k][same] && w->s[at + same] == (uint8_t)openings[k][same]) same++;
        if (at + same > best) best = at + same;
    }
    return best;
}

static bool numbered(struct xml *w, size_t at, uint32_t *code) {
    size_t k = at + 2, begin;
    unsigned base = 10;
    uint32_t c = 0;
    if (k < w->n && w->s[k] == 'x') base = 16, k++;
    for (begin = k; k < w->n; k++) {
        uint8_t b = w->s[k], l = b | 32;
        if (is_digit(b)) c = c * base + b - '0';
        else if (base == 16 && l >= 'a' && l <= 'f') c = c * base + l - 'a' + 10;
        else break;
        if (c > 0x110000) c = 0x110000;
    }
    if (w->s[k] != ';' || k == begin) return broken(w, at, k);
    if (!allowed(c)) return fault(w, at);
    *code = c;
    w->at = k + 1;
    return true;
}

/* letters, digits, `#`, `.`, `-`, `_`, `:` and bytes from 128, and nothing else, up to the end */
static bool runs_out(const struct xml *w, size_t at) {
    while (at < w->n && (in_name(w->s[at]) || w->s[at] == '#')) at++;
    return at == w->n;
}

bool reference(struct xml *w, size_t at, uint32_t *code) {
    static const struct { const char *name; uint8_t code; } known[] = {{"lt", '<'}, {"gt", '>'}, {"amp", '&'}, {"quot", '"'}, {"apos", '\''}};
    if (runs_out(w, at + 1)) return cut(w);
    if (w->s[at + 1] == '#') return numbered(w, at, code);
    if (!is_letter(w->s[at + 1])) return broken(w, at, at + 1);
    struct span name = {at + 1, name_end(w, at + 1), true};
    if (w->s[name.to] != ';') return broken(w, at, name.to);
    for (unsigned k = 0; k < 5; k++)
        if (is(w, name, known[k].name)) {
            *code = known[k].code;
            w->at = name.to + 1;
            return true;
        }
    return fault(w, at);
}

bool no_markup(struct xml *w, size_t at) {
    uint32_t code;
    return (w->s[at] != '&' || reference(w, at, &code)) && fault(w, at);
}

size_t over_blanks(const struct xml *w, size_t at) {
    while (at < w->n && is_blank(w->s[at])) at++;
    return at;
}

/* a value from its quote on */
static bool value_at(struct xml *w, size_t at, struct span *value) {
    uint8_t quote = w->s[at];
    uint32_t code;
    *value = (struct span){at + 1, 0, true};
    for (at++;;) {
        if (at == w->n) return cut(w);
        uint8_t b = w->s[at];
        if (b == quote) break;
        if (b == '<' || is_control(b)) return fault(w, at);
        if (b == '&') {
            if (!reference(w, at, &code)) return false;
            at = w->at;
        } else at++;
    }
    value->to = at;
    w->at = at + 1;
    return true;
}

static bool attribute(struct xml *w, attribute_judge judge) {
    struct attribute *a = &w->attributes[w->attribute_count];
    a->name = (struct span){w->at, name_end(w, w->at), true};
    if (a->name.to == w->n) return cut(w);
    for (unsigned k = 0; k < w->attribute_count; k++)
        if (equal(w, w->attributes[k].name, a->name)) return fault(w, w->at);
    size_t at = over_blanks(w, a->name.to);
    if (at == w->n) return cut(w);
    if (w->s[at] != '=') return fault(w, at);
    at = over_blanks(w, at + 1);
    if (at == w->n) return cut(w);
    if (w->s[at] != '"' && w->s[at] != '\'') return fault(w, at);
    if (!value_at(w, at, &a->value)) return false;
    if (judge && !judge(w, a)) return false;
    w->attribute_count++;
    return true;
}

bool tag(struct xml *w, size_t from, attribute_judge judge, bool *empty) {
    w->attribute_count = 0;
    for (w->at = from;;) {
        size_t at = over_blanks(w, w->at);
        bool apart = at > w->at;
        if (at == w->n) return cut(w);
        uint8_t b = w->s[at];
        *empty = b == '/';
        if (*empty && at + 1 == w->n) return cut(w);
        if (*empty && w->s[at + 1] != '>') return broken(w, at, at + 1);
        if (*empty || b == '>') {
            w->at = at + 1 + *empty;
            return true;
        }
        if (!apart || !is_letter(b)) return fault(w, at);
        w->at = at;
        if (!attribute(w, judge)) return false;
    }
}

bool end_tag(struct xml *w, struct span begun, struct span name) {
    if (!equal(w, begun, name)) return fault(w, w->at);
    size_t at = over_blanks(w, name.to);
    if (at == w->n) return cut(w);
    if (w->s[at] != '>') return fault(w, at);
    w->at = at + 1;
    return true;
}


bool around(struct xml *w, const char *root, struct span *name) {
    for (;;) {
        size_t at = w->at = over_blanks(w, w->at);
        struct span found = {0, 0, false};
        if (at == w->n) return root ? cut(w) : true;
        if (w->s[at] != '<') return no_markup(w, at);
        switch (opening_at(w, at, &found)) {
        case CUT_OFF: return cut(w);
        case COMMENT:
            if (!until(w, at + 4, "-->")) return false;
            break;
        case INSTRUCTION:
            if (!instruction(w, found)) return false;
            break;
        case START_TAG:
            *name = found;
            if (root && is(w, behind_colon(w, found), root)) return true;
            return fault(w, at);
        case WRONG: return broken(w, at, stop_of(w, at));
        default: return fault(w, at);
        }
    }
}

bool begun(struct xml *w, const uint8_t *s, size_t n) {
    static const uint8_t mark[] = {0xef, 0xbb, 0xbf};
    size_t seen = n < 3 ? n : 3;
    w->s = s, w->n = n;
    w->at = w->place = w->first = 0;
    if (!seen || memcmp(s, mark, seen)) return true;
    if (seen < 3) return cut(w);
    w->first = w->at = 3;
    return true;
}

struct span value_of(const struct xml *w, const char *name) {
    for (unsigned k = 0; k < w->attribute_count; k++)
        if (is(w, w->attributes[k].name, name)) return w->attributes[k].value;
    return (struct span){0, 0, false};
}
