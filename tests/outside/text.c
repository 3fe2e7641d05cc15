/* The notation: reading a text into a table, and writing a table's text. */
#include "layout.h"

enum form { WORD, SIGN, ASSIGN_SIGN, TEXT_END, OTHER };

struct reader {
    const uint8_t *s;
    size_t n, at, next; /* the token in hand: its first byte, and the byte behind it */
    enum form form;
    unsigned number; /* of the refusal, at the place refused */
    size_t refused;
    bool unranged; /* a number outside its range is noted, the first one, and read on */
};

enum { NO_TOKEN, A_SIGN, BLANK, LETTER, DIGIT };

/* what a byte is, in any token or between them; a letter or `_` and a digit go on a word */
static const uint8_t bytes[256] = {
    [' '] = BLANK, ['\t'] = BLANK, ['\n'] = BLANK, ['a' ... 'z'] = LETTER, ['A' ... 'Z'] = LETTER, ['_'] = LETTER, ['0' ... '9'] = DIGIT,
    ['|'] = A_SIGN, ['('] = A_SIGN, [')'] = A_SIGN, ['{'] = A_SIGN, ['}'] = A_SIGN, [','] = A_SIGN, ['<'] = A_SIGN, ['>'] = A_SIGN,
    ['?'] = A_SIGN, ['+'] = A_SIGN, ['-'] = A_SIGN, ['='] = A_SIGN, [':'] = A_SIGN,
};

static bool is_digit(uint8_t b) { return bytes[b] == DIGIT; }
static bool is_word(uint8_t b) { return bytes[b] >= LETTER; }

/* the next token, from a place on */
static void advance(struct reader *r, size_t from) {
    const uint8_t *s = r->s + from, *end = r->s + r->n;
    while (s < end && bytes[*s] == BLANK) s++;
    r->at = s - r->s;
    if (s == end) r->form = TEXT_END;
    else if (is_word(*s)) {
        r->form = WORD;
        do s++;
        while (s < end && is_word(*s));
    } else if (*s == ':' && s + 1 < end && s[1] == '=') r->form = ASSIGN_SIGN, s += 2;
    else r->form = bytes[*s++] == A_SIGN ? SIGN : OTHER;
    r->next = s - r->s;
}

static bool refuse(struct reader *r, unsigned number) {
    r->number = number;
    r->refused = r->at;
    return false;
}

static bool at_sign(const struct reader *r, uint8_t s) { return r->form == SIGN && r->s[r->at] == s; }

static bool pass(struct reader *r) {
    advance(r, r->next);
    return true;
}

static bool sign(struct reader *r, uint8_t s) { return at_sign(r, s) ? pass(r) : refuse(r, 2); }

static bool at_bytes(const struct reader *r, const char *w, size_t n) { return r->form == WORD && r->next - r->at == n && memcmp(r->s + r->at, w, n) == 0; }

static inline bool at_word(const struct reader *r, const char *w) { return at_bytes(r, w, strlen(w)); }

/* digits from a place of the token on: -1 where they are no number, above the greatest value as one above it */
static int64_t numeral(const struct reader *r, size_t from) {
    if (r->form != WORD || from >= r->next || (r->s[from] == '0' && r->next - from > 1)) return -1;
    int64_t v = 0;
    for (; from < r->next; from++) {
        if (!is_digit(r->s[from])) return -1;
        v = v * 10 + (r->s[from] - '0');
        if (v > GREATEST) v = GREATEST + INT64_C(1);
    }
    return v;
}

static bool ranged(struct reader *r, int64_t v, int64_t least, int64_t most, word *out) {
    if (v < 0) return refuse(r, 2);
    if (v < least || v > most) {
        if (!r->unranged) return refuse(r, 3);
        if (!r->number) refuse(r, 3);
    }
    *out = v;
    return pass(r);
}

static bool number(struct reader *r, int64_t least, int64_t most, word *out) { return ranged(r, numeral(r, r->at), least, most, out); }

/* a letter of a field: `d` of the instance's own, `s` of a store */
static bool at_letter(const struct reader *r) { return r->form == WORD && (r->s[r->at] == 'd' || r->s[r->at] == 's'); }

static bool field(struct reader *r, word *out) {
    unsigned first = r->form == WORD && r->s[r->at] == 's' ? FIELDS : 0;
    if (!ranged(r, at_letter(r) ? numeral(r, r->at + 1) : -1, 0, FIELDS - 1, out)) return false;
    *out += first;
    return true;
}

static bool operand(struct reader *r, word *x) {
    x[0] = at_letter(r);
    return x[0] ? field(r, x + 1) : number(r, 0, GREATEST, x + 1);
}

static bool expression(struct reader *r, word *x) {
    if (!operand(r, x + LEFT)) return false;
    x[0] = at_sign(r, '+') ? PLUS : at_sign(r, '-') ? MINUS : SINGLE;
    return x[0] == SINGLE || (pass(r) && operand(r, x + RIGHT));
}

static bool template_item(struct reader *r, word *x) {
    if (!at_sign(r, '?')) return expression(r, x);
    x[0] = BIND, x[LEFT] = 1;
    return pass(r) && field(r, x + LEFT + 1);
}

static bool condition(struct reader *r, word *x, bool defaults) {
    if (r->form != WORD) return refuse(r, 2);
    x[0] = at_word(r, "true") ? ALWAYS : defaults && at_word(r, "default") ? DEFAULT : 0;
    if (x[0]) return pass(r);
    if (!operand(r, x + LEFT)) return false;
    x[0] = at_sign(r, '=') ? EQUALS : at_sign(r, '<') ? BELOW : 0;
    return x[0] ? pass(r) && operand(r, x + RIGHT) : refuse(r, 2);
}

unsigned condition_of(const uint8_t *text, size_t length, word *x, size_t *place) {
    struct reader r = {.s = text, .n = length, .unranged = true};
    advance(&r, 0);
    if (condition(&r, x, true) && r.form != TEXT_END) refuse(&r, 2);
    *place = r.refused;
    return r.number;
}

/* The items of lists, each read into the words of its element el, as item k of a list or of branch b's message; a branch is an item of its form. */
enum item { AN_ENTRY, AN_EXIT, A_TEMPLATE_ITEM, A_MESSAGE_ITEM, AN_ASSIGNMENT, A_BRANCH };

static bool branch(struct reader *r, word *el, unsigned b);

static bool item(struct reader *r, word *el, enum item which, unsigned b, unsigned k) {
    word *x;
    switch (which) {
    case AN_ENTRY: return number(r, 1, EDGES, el + ENTRIES + 1 + k);
    case AN_EXIT: return number(r, 1, EDGES, el + EXITS + 1 + k);
    case A_TEMPLATE_ITEM: return template_item(r, (word *)item_at(message_at(el, b), k));
    case A_MESSAGE_ITEM: return expression(r, (word *)item_at(message_at(el, b), k));
    case AN_ASSIGNMENT:
        x = (word *)assignment_at(el, k);
        if (!field(r, x)) return false;
        return (r->form == ASSIGN_SIGN ? pass(r) : refuse(r, 2)) && expression(r, x + 1);
    case A_BRANCH: return branch(r, el, k);
    }
    return false;
}

static bool starts(const struct reader *r, enum item which) {
    bool is_number = numeral(r, r->at) >= 0, is_field = at_letter(r) && numeral(r, r->at + 1) >= 0;
    switch (which) {
    case AN_ENTRY:
    case AN_EXIT: return is_number;
    case A_TEMPLATE_ITEM: return is_number || is_field || at_sign(r, '?');
    case A_MESSAGE_ITEM: return is_number || is_field;
    case AN_ASSIGNMENT: return is_field;
    default: return at_sign(r, '(');
    }
}

/* items with commas between them, at least and at most so many; their count goes to a word */
static bool items(struct reader *r, word *el, enum item which, unsigned b, unsigned least, unsigned most, word *count) {
    for (unsigned k = 0;; k++) {
        if (k == most) return refuse(r, starts(r, which) ? 3 : 2);
        if (!item(r, el, which, b, k)) return false;
        if (at_sign(r, ',')) {
            pass(r);
            continue;
        }
        if (k + 1 < least) return refuse(r, 2);
        *count = k + 1;
        return true;
    }
}

static bool list(struct reader *r, word *el, enum item which, unsigned b, char open, char close, unsigned least, unsigned most, word *count) {
    if (!sign(r, open)) return false;
    if (least == 0 && at_sign(r, close)) {
        *count = 0;
        return pass(r);
    }
    return items(r, el, which, b, least, most, count) && sign(r, close);
}

static bool mode(struct reader *r, word *out) {
    *out = at_word(r, "a") ? ATOMIC : at_word(r, "na_c") ? NA_C : at_word(r, "na_nc") ? NA_NC : 0;
    return *out ? pass(r) : refuse(r, 2);
}

/* The part of a form that a letter stands for, of branch b where it stands in one. */
static bool part(struct reader *r, word *el, const char *letter, bool in_branch, unsigned b) {
    word *m = (word *)message_at(el, b);
    bool first = letter == kinds[el[KIND]].body;
    switch (*letter) {
    case 'e': return el[ENTRIES] = 1, number(r, 1, EDGES, el + ENTRIES + 1);
    case 'f': return el[EXITS] = b + 1, number(r, 1, EDGES, el + EXITS + 1 + b);
    case 'E': return list(r, el, first ? AN_ENTRY : AN_EXIT, 0, '{', '}', FEWEST, BRANCHES, el + (first ? ENTRIES : EXITS));
    case 'm': return number(r, 0, NAMES - 1, m);
    case 'T': return list(r, el, A_TEMPLATE_ITEM, b, '<', '>', 0, VALUES, m + 1);
    case 'X': return list(r, el, A_MESSAGE_ITEM, b, '<', '>', 0, VALUES, m + 1);
    case 'n': return number(r, 1, TASKS, el + TASK_NUMBER);
    case 'k': return mode(r, el + MODE);
    case 'C': return condition(r, (word *)condition_at(el, b), in_branch);
    default: return list(r, el, AN_ASSIGNMENT, 0, '{', '}', 0, ASSIGNMENTS, el + ASSIGNED);
    }
}

/* The text of a form up to its end: letters, branches, and signs as they stand. */
static bool parts(struct reader *r, word *el, const char *form, const char *end, bool in_branch, unsigned b) {
    word branches;
    for (; form < end; form++) {
        if (*form == '(') {
            if (!items(r, el, A_BRANCH, 0, FEWEST, BRANCHES, &branches)) return false;
            form = strchr(form, ')') + strlen(",..");
        } else if (bytes[(uint8_t)*form] == LETTER ? !part(r, el, form, in_branch, b) : !sign(r, *form)) return false;
    }
    return true;
}

static bool branch(struct reader *r, word *el, unsigned b) {
    const char *open = strchr(kinds[el[KIND]].body, '(');
    return sign(r, '(') && parts(r, el, open + 1, strchr(open, ')'), true, b) && sign(r, ')');
}

static unsigned kind_here(const struct reader *r) {
    for (unsigned k = 1; k < KINDS; k++)
        if (at_bytes(r, kinds[k].keyword, kinds[k].length)) return k;
    return 0;
}

static bool element(struct reader *r, word *el) {
    unsigned k = kind_here(r);
    if (!k) return refuse(r, 2);
    el[KIND] = k;
    pass(r);
    return sign(r, '(') && parts(r, el, kinds[k].body, kinds[k].end, false, 0) && sign(r, ')');
}

static bool pool(struct reader *r, word *pool) {
    bool many = at_word(r, "miPool");
    if (!many && !at_word(r, "pool")) return refuse(r, 2);
    pass(r);
    if (!sign(r, '(') || !number(r, 1, 9, pool) || !sign(r, ',')) return false;
    for (unsigned e = 0;; e++) {
        if (e == ELEMENTS) return refuse(r, kind_here(r) ? 3 : 2);
        if (!element(r, (word *)element_at(pool, e))) return false;
        pool[POOL_COUNT] = e + 1;
        if (!at_sign(r, '|')) break;
        pass(r);
    }
    if (many && (!sign(r, ',') || !number(r, 1, INSTANCES, pool + POOL_LIMIT))) return false;
    return sign(r, ')');
}

static bool model(struct reader *r, word *t) {
    for (unsigned p = 0;; p++) {
        if (p == POOLS) return refuse(r, at_word(r, "pool") || at_word(r, "miPool") ? 3 : 2);
        if (!pool(r, (word *)pool_at(t, p))) return false;
        t[0] = p + 1;
        if (!at_sign(r, '|')) break;
        pass(r);
    }
    return r->form == TEXT_END || refuse(r, 2);
}

static uint64_t mentioned(const word *pool) {
    uint64_t edges = 0;
    for (unsigned e = 0; e < pool[POOL_COUNT]; e++) {
        const word *el = element_at(pool, e);
        for (unsigned j = 0; j < el[ENTRIES]; j++) edges |= UINT64_C(1) << el[ENTRIES + 1 + j];
        for (unsigned j = 0; j < el[EXITS]; j++) edges |= UINT64_C(1) << el[EXITS + 1 + j];
    }
    return edges;
}

/* the lowest edge that is not among some: 49 where there is none */
static unsigned lowest_unused(uint64_t edges) {
    unsigned f = 1;
    while (f <= EDGES && edges >> f & 1) f++;
    return f;
}

static bool rewritten_pool(word *pool) {
    uint64_t edges = mentioned(pool);
    for (unsigned e = 0, n = pool[POOL_COUNT]; e < n; e++) {
        word *send = (word *)element_at(pool, e), *end = (word *)element_at(pool, pool[POOL_COUNT]);
        unsigned f = lowest_unused(edges);
        if (send[KIND] != END_SND) continue;
        if (f > EDGES || pool[POOL_COUNT] == ELEMENTS) return false;
        edges |= UINT64_C(1) << f;
        send[KIND] = INTER_SND, send[EXITS] = 1, send[EXITS + 1] = f;
        end[KIND] = END, end[ENTRIES] = 1, end[ENTRIES + 1] = f;
        pool[POOL_COUNT]++;
    }
    return true;
}

bool rewritten(word *t) {
    for (unsigned p = 0; p < t[0]; p++)
        if (!rewritten_pool((word *)pool_at(t, p))) return false;
    return true;
}

ref_reading ref_read(const uint8_t *text, size_t length, word *t) {
    if (length > REF_TEXT_MOST) return (ref_reading){1, 0};
    word read[REF_TABLE_WORDS];
    memset(read, 0, sizeof read);
    struct reader r = {.s = text, .n = length};
    advance(&r, 0);
    if (!model(&r, read)) return (ref_reading){r.number, r.refused};
    unsigned k = lowest_broken(read);
    if (k) return (ref_reading){4, k};
    if (!rewritten(read)) return (ref_reading){28, 0};
    memcpy(t, read, sizeof read);
    return (ref_reading){0, 0};
}

/* WRITING into a buffer that is long enough for every valid table. */
static uint8_t *put_text(uint8_t *o, const char *w) {
    size_t n = strlen(w);
    memcpy(o, w, n);
    return o + n;
}

static uint8_t *put_number(uint8_t *o, word v) {
    uint8_t digits[10];
    unsigned n = 0;
    do digits[n++] = '0' + v % 10;
    while (v /= 10);
    while (n) *o++ = digits[--n];
    return o;
}

static uint8_t *put_field(uint8_t *o, word field) {
    *o++ = field < FIELDS ? 'd' : 's';
    return put_number(o, field % FIELDS);
}

static uint8_t *put_operand(uint8_t *o, const word *x) { return x[0] ? put_field(o, x[1]) : put_number(o, x[1]); }

static uint8_t *put_pair(uint8_t *o, const word *x, char sign) {
    o = put_operand(o, x + LEFT);
    *o++ = sign;
    return put_operand(o, x + RIGHT);
}

static uint8_t *put_item(uint8_t *o, const word *x) {
    if (x[0] == PLUS) return put_pair(o, x, '+');
    if (x[0] == MINUS) return put_pair(o, x, '-');
    if (x[0] == BIND) *o++ = '?';
    return put_operand(o, x + LEFT);
}

static uint8_t *put_condition(uint8_t *o, const word *x) {
    if (x[0] == ALWAYS) return put_text(o, "true");
    if (x[0] == DEFAULT) return put_text(o, "default");
    return put_pair(o, x, x[0] == EQUALS ? '=' : '<');
}

static uint8_t *put_items(uint8_t *o, const word *m) {
    *o++ = '<';
    for (unsigned j = 0; j < m[1]; j++) {
        if (j) *o++ = ',';
        o = put_item(o, item_at(m, j));
    }
    *o++ = '>';
    return o;
}

static uint8_t *put_list(uint8_t *o, const word *list) {
    for (unsigned j = 0; j < list[0]; j++) {
        *o++ = j ? ',' : '{';
        o = put_number(o, list[1 + j]);
    }
    *o++ = '}';
    return o;
}

static uint8_t *put_assignments(uint8_t *o, const word *el) {
    *o++ = '{';
    for (unsigned j = 0; j < el[ASSIGNED]; j++) {
        const word *x = assignment_at(el, j);
        if (j) *o++ = ',';
        o = put_field(o, x[0]);
        o = put_text(o, ":=");
        o = put_item(o, x + 1);
    }
    *o++ = '}';
    return o;
}

static uint8_t *put_part(uint8_t *o, const word *el, const char *letter, unsigned b) {
    static const char *const modes[] = {"", "a", "na_c", "na_nc"};
    switch (*letter) {
    case 'e': return put_number(o, el[ENTRIES + 1]);
    case 'f': return put_number(o, el[EXITS + 1 + b]);
    case 'E': return put_list(o, el + (letter == kinds[el[KIND]].body ? ENTRIES : EXITS));
    case 'm': return put_number(o, message_at(el, b)[0]);
    case 'T':
    case 'X': return put_items(o, message_at(el, b));
    case 'n': return put_number(o, el[TASK_NUMBER]);
    case 'k': return put_text(o, modes[el[MODE]]);
    case 'C': return put_condition(o, condition_at(el, b));
    default: return put_assignments(o, el);
    }
}

static uint8_t *put_parts(uint8_t *o, const word *el, const char *form, const char *end, unsigned b) {
    for (; form < end; form++) {
        if (*form == ',') *o++ = ',';
        else if (bytes[(uint8_t)*form] == LETTER) o = put_part(o, el, form, b);
        else if (*form != '(') *o++ = *form;
        else {
            const char *close = strchr(form, ')');
            for (unsigned k = 0; k < el[EXITS]; k++) {
                o = put_text(o, k ? ",(" : "(");
                o = put_parts(o, el, form + 1, close, k);
                *o++ = ')';
            }
            form = close + strlen(",..");
        }
    }
    return o;
}

static uint8_t *put_element(uint8_t *o, const word *el) {
    const struct kind *k = &kinds[el[KIND]];
    o = put_text(o, k->keyword);
    *o++ = '(';
    o = put_parts(o, el, k->body, k->end, 0);
    *o++ = ')';
    return o;
}

ref_written ref_write(const word *t, uint8_t *buffer, size_t length) {
    if (!valid(t)) return (ref_written){10, 0};
    uint8_t text[REF_TEXT_MOST], *o = text;
    for (unsigned p = 0; p < t[0]; p++) {
        const word *pool = pool_at(t, p);
        if (p) *o++ = '|';
        o = put_text(o, pool[POOL_LIMIT] ? "miPool(" : "pool(");
        o = put_number(o, pool[0]);
        for (unsigned e = 0; e < pool[POOL_COUNT]; e++) {
            *o++ = e ? '|' : ',';
            o = put_element(o, element_at(pool, e));
        }
        if (pool[POOL_LIMIT]) {
            *o++ = ',';
            o = put_number(o, pool[POOL_LIMIT]);
        }
        *o++ = ')';
    }
    *o++ = '\n';
    size_t n = o - text;
    if (n > length) return (ref_written){5, 0};
    memcpy(buffer, text, n);
    return (ref_written){0, n};
}
