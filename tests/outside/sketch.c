/* A seeded generator of drawings: a sketch of pools, nodes and flows, spoiled in one way or not at all, then written as one tool or another would. It says what
   number the drawing must get, where that is known, so that the reference is tried too. */
#include "generate.h"
#include <stdarg.h>
#include <stdio.h>

enum { SKETCH_NODES = 500, SKETCH_FLOWS = 900, SKETCH_MESSAGES = 200, SKETCH_PARTS = 24, SKETCH_PROCESSES = 8, BIG = 40000 };
enum { OF_FLOW = 1000, OF_MESSAGE = 2000, OF_PART = 3000, OF_PROCESS = 4000, OF_NOTHING = 5000 }; /* ids: a node's is its place */

struct node { const char *tag, *attribute; unsigned process, messages, terminates; int fallback; bool splits, behind; };
struct flow { int from, to; unsigned process; const char *condition; };
struct part { int process; const char *maximum; unsigned many; };

struct sketch {
    struct random *r;
    struct node nodes[SKETCH_NODES];
    struct flow flows[SKETCH_FLOWS], messages[SKETCH_MESSAGES];
    struct part parts[SKETCH_PARTS];
    unsigned node_count, flow_count, message_count, part_count, process_count, collaborations;
    int open[SKETCH_FLOWS]; /* nodes, as often as an exit of theirs leads nowhere yet */
    unsigned opens, elements, tasks, edges, budget; /* of the process in hand; message flows still to be used */
    bool over, collection;
    int doubled, twin;    /* an id written as another's */
    const char *stranger; /* an element put at some place where elements are read */
    unsigned stranger_depth, stranger_at, places;
};

static bool any(const struct sketch *k, unsigned percent) { return chance(k->r, percent); }
static unsigned below(const struct sketch *k, unsigned n) { return draw(k->r, n); }
#define ONE_OF(k, list) ((list)[below(k, sizeof(list) / sizeof *(list))])

static int new_node(struct sketch *k, unsigned process, const char *tag) {
    k->nodes[k->node_count] = (struct node){.tag = tag, .process = process, .fallback = -1};
    k->elements++;
    return k->node_count++;
}

static int new_flow(struct sketch *k, int from, int to) {
    static const char *const conditions[] = {"true", "d0=1", "d1<d2", " 7 < d15 ", "65535=0", "65536=0", "d0=4294967295", "4294967294<4294967295", "d3\t=\nd4", "0<1", "", " \n ", "true ", "d10=d11", "s0=1", "s15<d15", "d0=s0", " s3\t=\ns4"};
    struct node *a = &k->nodes[from];
    int f = k->flow_count++;
    k->flows[f] = (struct flow){.from = from, .to = to, .process = a->process};
    k->edges++;
    if (!a->splits || strcmp(a->tag, "exclusiveGateway")) return f;
    if (any(k, 80)) k->flows[f].condition = ONE_OF(k, conditions);
    if (a->fallback < 0 && any(k, 20)) a->fallback = f;
    return f;
}

static void enter(struct sketch *k, int to) {
    unsigned at = below(k, k->opens);
    int from = k->open[at];
    k->open[at] = k->open[--k->opens];
    new_flow(k, from, to);
}

static void add_activity(struct sketch *k, unsigned p) {
    static const char *const tags[] = {"task", "sendTask", "receiveTask", "intermediateCatchEvent", "intermediateThrowEvent"};
    unsigned which = k->budget ? below(k, 5) : 0;
    if (which < 3 && k->tasks >= TASKS && !k->over) return;
    int n = new_node(k, p, tags[which]);
    k->tasks += which < 3, k->budget -= which > 0;
    k->nodes[n].messages = which > 2;
    enter(k, n);
    k->open[k->opens++] = n;
}

static void add_split(struct sketch *k, unsigned p) {
    static const char *const tags[] = {"parallelGateway", "exclusiveGateway", "eventBasedGateway"};
    unsigned branches = 2 + (any(k, 80) ? below(k, 2) : below(k, k->over ? 9 : 7)), which = below(k, k->budget >= branches ? 3 : 2);
    int g = new_node(k, p, tags[which]);
    k->nodes[g].splits = true;
    enter(k, g);
    for (unsigned b = 0; b < branches; b++) {
        if (which < 2) {
            k->open[k->opens++] = g;
            continue;
        }
        int c = new_node(k, p, "intermediateCatchEvent");
        k->nodes[c].messages = 1, k->nodes[c].behind = true;
        new_flow(k, g, c);
        k->elements--, k->edges--, k->budget--;
        k->open[k->opens++] = c;
    }
}

static void add_join(struct sketch *k, unsigned p) {
    static const char *const tags[] = {"parallelGateway", "exclusiveGateway"};
    unsigned most = k->opens < BRANCHES ? k->opens : BRANCHES, entries = most < 2 ? 1 : 2 + below(k, most - 1);
    bool loop = entries < 2 || any(k, 20);
    int j = new_node(k, p, ONE_OF(k, tags)), s;
    if (entries + loop > BRANCHES) entries--;
    for (unsigned e = 0; e < entries; e++) enter(k, j);
    if (loop && any(k, 10)) { /* it enters itself, and nothing leaves it */
        new_flow(k, j, j);
        return;
    }
    k->open[k->opens++] = j;
    if (!loop) return;
    s = new_node(k, p, ONE_OF(k, tags));
    k->nodes[s].splits = true;
    k->opens--;
    new_flow(k, j, s);
    new_flow(k, s, j);
    k->open[k->opens++] = s;
}

/* about as many elements or edges as there may be: gateways that split and join, tasks */
static void fill_process(struct sketch *k, unsigned p) {
    unsigned elements = 29 + below(k, 4), edges = 45 + below(k, 4);
    while (k->opens && k->elements + k->opens + 2 <= elements && k->edges + k->opens + 3 <= edges) {
        unsigned room = edges - k->edges - k->opens - 1, branches = 2 + below(k, room < BRANCHES ? room - 1 : BRANCHES - 1);
        int g = new_node(k, p, "parallelGateway"), j;
        k->nodes[g].splits = true;
        enter(k, g);
        j = new_node(k, p, "parallelGateway");
        while (branches--) new_flow(k, g, j);
        k->open[k->opens++] = j;
        for (unsigned n = below(k, 4); n && k->elements + k->opens < elements && k->edges + k->opens < edges; n--) add_activity(k, p);
    }
}

static void sketch_process(struct sketch *k, unsigned p, bool many) {
    bool full = !k->over && any(k, 6);
    unsigned size = any(k, 80) ? below(k, 8) : below(k, k->over ? 60 : 20);
    k->opens = k->elements = k->tasks = k->edges = 0;
    int s = new_node(k, p, "startEvent");
    if (k->budget && (many || any(k, 40))) k->nodes[s].messages = 1, k->budget--;
    else k->edges++;
    k->open[k->opens++] = s;
    while (size-- && k->opens && k->node_count < SKETCH_NODES - 200) {
        if (!k->over && (k->elements + k->opens + 10 > ELEMENTS || k->edges + k->opens + 10 > EDGES)) break;
        unsigned which = below(k, 10);
        if (which < 3) add_join(k, p);
        else if (which < 5) add_split(k, p);
        else add_activity(k, p);
    }
    if (full) fill_process(k, p);
    while (k->opens) {
        int e = new_node(k, p, "endEvent");
        if (k->budget && any(k, full ? 60 : 20)) k->nodes[e].messages = 1, k->budget--;
        else if (any(k, 20)) k->nodes[e].terminates = 1;
        enter(k, e);
    }
}

static bool sends(const struct node *n) {
    return !strcmp(n->tag, "sendTask") || (n->messages && (!strcmp(n->tag, "endEvent") || !strcmp(n->tag, "intermediateThrowEvent")));
}

static bool receives(const struct node *n) { return !strcmp(n->tag, "receiveTask") || (n->messages && !sends(n)); }

static int outsider(struct sketch *k) {
    for (unsigned tries = 0; tries < 8; tries++) {
        unsigned q = below(k, k->part_count);
        if (k->parts[q].process < 0) return OF_PART + q;
    }
    k->parts[k->part_count] = (struct part){.process = -1};
    return OF_PART + k->part_count++;
}

/* every sender and receiver gets its message flow: to one of another process, or to and from outside */
static void sketch_messages(struct sketch *k) {
    bool met[SKETCH_NODES] = {false};
    for (unsigned a = 0; a < k->node_count; a++) {
        if (!sends(&k->nodes[a])) continue;
        int to = -1;
        for (unsigned b = 0; b < k->node_count && to < 0; b++)
            if (receives(&k->nodes[b]) && !met[b] && k->nodes[b].process != k->nodes[a].process && any(k, 60)) met[b] = true, to = b;
        if (to < 0) to = outsider(k);
        k->messages[k->message_count++] = (struct flow){.from = a, .to = to};
    }
    for (unsigned b = 0; b < k->node_count; b++)
        if (receives(&k->nodes[b]) && !met[b]) {
            int from = outsider(k);
            k->messages[k->message_count++] = (struct flow){.from = from, .to = b};
        }
    for (unsigned n = k->over && any(k, 40) ? below(k, 20) : 0; n; n--) {
        int from = outsider(k), to = outsider(k);
        k->messages[k->message_count++] = (struct flow){.from = from, .to = to};
    }
    for (unsigned n = k->message_count; n > 1; n--) {
        unsigned j = below(k, n);
        struct flow x = k->messages[j];
        k->messages[j] = k->messages[n - 1], k->messages[n - 1] = x;
    }
}

static void sketch_whole(struct sketch *k) {
    static const char *const limits[] = {"1", "2", "3", "16"};
    k->process_count = 1 + (any(k, 60) ? below(k, 2) : below(k, k->over ? 5 : 4));
    k->budget = k->over ? 40 : 16;
    bool pools = any(k, 80);
    k->collaborations = pools;
    for (unsigned p = 0; p < k->process_count; p++) {
        bool many = pools && any(k, 40) && k->budget;
        if (pools) k->parts[k->part_count++] = (struct part){.process = p, .many = many, .maximum = many && any(k, 70) ? ONE_OF(k, limits) : NULL};
        sketch_process(k, p, many);
    }
    for (unsigned q = k->part_count; pools && q > 1; q--) {
        unsigned j = below(k, q);
        struct part x = k->parts[j];
        k->parts[j] = k->parts[q - 1], k->parts[q - 1] = x;
    }
    if (pools) sketch_messages(k);
    else /* nobody outside: what would send or receive is plain */
        for (unsigned n = 0; n < k->node_count; n++) {
            struct node *x = &k->nodes[n];
            if (!strcmp(x->tag, "sendTask") || !strcmp(x->tag, "receiveTask") || !strcmp(x->tag, "intermediateThrowEvent")) x->tag = "task", x->messages = 0;
            else if (!strcmp(x->tag, "startEvent") || !strcmp(x->tag, "endEvent")) x->messages = 0;
        }
}

static bool is_task(const struct node *n) { return !strcmp(n->tag, "task") || !strcmp(n->tag, "sendTask") || !strcmp(n->tag, "receiveTask"); }

/* whether a catch event is left that nobody can send to */
static bool unheard(const struct sketch *k) {
    for (unsigned n = 0; n < k->node_count; n++)
        if (!k->collaborations && k->nodes[n].messages) return true;
    return false;
}

/* what a process has; sends: its message end events; listed: the longest list of entries or exits */
struct size { unsigned elements, tasks, edges, sends, listed; };

static struct size size_of(const struct sketch *k, unsigned p) {
    struct size s = {0};
    for (unsigned n = 0; n < k->node_count; n++) {
        const struct node *x = &k->nodes[n];
        unsigned in = 0, out = 0;
        if (x->process != p) continue;
        for (unsigned f = 0; f < k->flow_count; f++) in += k->flows[f].to == (int)n, out += k->flows[f].from == (int)n;
        s.elements += !x->behind, s.tasks += is_task(x), s.edges += !strcmp(x->tag, "startEvent") && !x->messages, s.sends += !strcmp(x->tag, "endEvent") && x->messages;
        if (in > s.listed) s.listed = in;
        if (out > s.listed) s.listed = out;
    }
    for (unsigned f = 0; f < k->flow_count; f++) s.edges += k->flows[f].process == p && !k->nodes[k->flows[f].to].behind;
    return s;
}

static bool excessive_process(const struct sketch *k, unsigned p) {
    struct size s = size_of(k, p);
    return s.elements > ELEMENTS || s.tasks > TASKS || s.edges > EDGES || s.listed > BRANCHES;
}

/* whether a message end event finds no edge or no element number free */
static bool crowded(const struct sketch *k) {
    for (unsigned p = 0; p < k->process_count; p++) {
        struct size s = size_of(k, p);
        if (s.sends && (s.elements + s.sends > ELEMENTS || s.edges + s.sends > EDGES)) return true;
    }
    return false;
}

static bool excessive(const struct sketch *k) {
    for (unsigned p = 0; p < k->process_count; p++)
        if (excessive_process(k, p)) return true;
    for (unsigned m = NAMES; m < k->message_count; m++)
        if (k->messages[m].from < OF_FLOW || k->messages[m].to < OF_FLOW) return true;
    return k->process_count > POOLS;
}

/* SPOILED, one fault each; each gives the number that is due where nothing else is wrong, 0 where the sketch has nothing to spoil, -1 where that depends. */
static int spoil_references(struct sketch *k, unsigned which) {
    static const int wrong[] = {OF_NOTHING, OF_FLOW, OF_MESSAGE, OF_PROCESS, OF_PART};
    bool message = k->message_count && any(k, 40);
    struct flow *f = message ? &k->messages[below(k, k->message_count)] : &k->flows[below(k, k->flow_count)];
    int *end = any(k, 50) ? &f->from : &f->to;
    switch (which) {
    case 0: return *end = wrong[below(k, message ? 4 : 5)], 21;
    case 1: return *end = below(k, k->node_count), -1;
    case 2: return k->doubled = below(k, k->node_count), k->twin = any(k, 50) ? OF_FLOW + (int)below(k, k->flow_count) : OF_PROCESS, 21;
    case 3: return f = &k->flows[k->flow_count++], f->from = below(k, k->node_count), f->to = below(k, k->node_count), f->process = below(k, k->process_count), -1;
    case 4: return k->flows[below(k, k->flow_count)] = k->flows[k->flow_count - 1], k->flow_count--, -1;
    case 5:
        if (!k->message_count) return 0;
        k->messages[below(k, k->message_count)] = k->messages[k->message_count - 1], k->message_count--;
        return -1;
    default:
        if (!k->message_count) return 0;
        f = &k->messages[below(k, k->message_count)];
        k->messages[k->message_count++] = *f;
        return f->from < OF_FLOW || f->to < OF_FLOW ? 21 : -1;
    }
}

/* a pool of many instances whose start receives nothing */
static int made_many(struct sketch *k) {
    for (unsigned j = 0; j < k->part_count; j++)
        for (unsigned n = 0; n < k->node_count && k->parts[j].process >= 0 && !k->parts[j].many; n++) {
            const struct node *x = &k->nodes[n];
            if ((int)x->process == k->parts[j].process && !strcmp(x->tag, "startEvent") && !x->messages) return k->parts[j].many = 1, 4;
        }
    return 0;
}

/* a message flow inside one pool: two flows exchange their targets */
static int turned_inwards(struct sketch *k) {
    for (unsigned a = 0; a < k->message_count; a++)
        for (unsigned b = 0; b < k->message_count; b++) {
            struct flow *x = &k->messages[a], *y = &k->messages[b];
            if (x->from >= OF_FLOW || y->to >= OF_FLOW || k->nodes[x->from].process != k->nodes[y->to].process) continue;
            int to = x->to;
            return x->to = y->to, y->to = to, 4;
        }
    return 0;
}

static int spoil_pools(struct sketch *k, unsigned which) {
    static const char *const outside[] = {"0", "17", "65536", "65537", "4294967297", "18446744073709551617", "99999999999999999999"};
    static const char *const no_number[] = {"01", "x", "", " 1", "1 ", "+1", "&#49;", "-1", "1.0", "00"};
    struct part *q = NULL;
    for (unsigned j = 0; j < k->part_count; j++)
        if (k->parts[j].process >= 0 && (k->parts[j].many || which > 1)) q = &k->parts[j];
    if (!q) return 0;
    switch (which) {
    case 0: return q->maximum = ONE_OF(k, outside), 3;
    case 1: return q->maximum = ONE_OF(k, no_number), 20;
    case 2: return q->many = 2, 21;
    case 3: return made_many(k);
    case 4: return q->process = -1, 21;
    case 5: return k->parts[k->part_count++] = *q, 21;
    case 6: return k->collaborations = 2, 21;
    case 7: return turned_inwards(k);
    default: return q->process = SKETCH_PROCESSES, 21;
    }
}

/* A sequence flow that leaves an exclusive split and is not its default, or any other. */
static struct flow *some_flow(struct sketch *k, bool guarded) {
    for (unsigned tries = 0; tries < 60; tries++) {
        unsigned f = below(k, k->flow_count);
        const struct node *a = &k->nodes[k->flows[f].from];
        bool is = a->splits && !strcmp(a->tag, "exclusiveGateway");
        if (is == guarded && a->fallback != (int)f) return &k->flows[f];
    }
    return NULL;
}

static int spoil_conditions(struct sketch *k, unsigned which) {
    static const char *const outside[] = {"d16=1", "1=d99", "4294967296<d0", "d0=4294967297", "d0<42949672950", "18446744073709551616=d0", "d65536=1", "d4294967296=0", "d256=d16", "s16=1", "d0<s16", "s65536=s0"};
    static const char *const no_condition[] = {"d0", "d0>1", "1+1=2", "d01=1", "00=1", "default=1", "tru", "True", "d0==1", "d0=1 d1", "1<2<3", "d=1", "\x01" "d0=1",
                                                "d0=1\x80", "?d0=1", "s=1", "s01=1", "S0=1", "s0", "s0:=1", "?s0=1"};
    struct flow *f = some_flow(k, which < 3 || which == 5);
    if (!f) return 0;
    struct node *a = &k->nodes[f->from];
    switch (which) {
    case 0: return f->condition = ONE_OF(k, outside), 3;
    case 1: return f->condition = ONE_OF(k, no_condition), f->condition[0] == 1 ? 20 : 21;
    case 2:
        for (unsigned j = 0; j < k->flow_count; j++)
            if (k->flows[j].from == f->from) k->flows[j].condition = "default";
        return 4;
    case 3: return f->condition = any(k, 50) ? "true" : "d0=1", 21;
    case 4: return f->condition = " ", 0;
    default: return a->fallback = any(k, 50) ? OF_NOTHING : -2, 21; /* -2: the first node */
    }
}

static int spoil_nodes(struct sketch *k, unsigned which) {
    static const char *const attributes[] = {" instantiate=\"true\"", " isForCompensation=\"true\"", " isCollection='1'", " eventGatewayType=\"Parallel\"",
                                             " startQuantity=\"2\"", " completionQuantity=\"01\"", " instantiate=\"False\"", " startQuantity=\"\""};
    static const char *const tags[] = {"userTask", "subProcess", "inclusiveGateway", "complexGateway", "boundaryEvent", "callActivity", "Task",
                                       "tasks", "dataStoreReference", "scriptTask"};
    struct node *n = &k->nodes[below(k, k->node_count)];
    bool event = strstr(n->tag, "Event") != NULL;
    switch (which) {
    case 0: return n->attribute = ONE_OF(k, attributes), 21;
    case 1: return n->tag = ONE_OF(k, tags), 21;
    case 2: return event && strcmp(n->tag, "eventBasedGateway") ? (n->messages = 2, 21) : 0;
    case 3: return event && strcmp(n->tag, "endEvent") ? (n->terminates = 1, 21) : 0;
    case 4: return n->messages && strncmp(n->tag, "inter", 5) == 0 ? (n->messages = 0, 21) : 0;
    case 5: return n->behind ? (n->tag = "receiveTask", n->messages = 0, 21) : 0;
    case 6: return is_task(n) ? (n->tag = "parallelGateway", 21) : 0;
    case 7: return n->messages ? 0 : (n->messages = 1, 21);
    default: /* a second start, or a start that nothing starts */
        if (k->node_count + 2 > SKETCH_NODES) return 0;
        int a = new_node(k, n->process, "startEvent"), b = new_node(k, n->process, "endEvent");
        new_flow(k, a, b);
        return 4;
    }
}

/* what is skipped wherever it stands */
static const char *const skipped[] = {
    "documentation", "extensionElements", "BPMNDiagram", "import", "extension", "relationship", "message", "itemDefinition", "category", "interface",
    "resource", "error", "escalation", "signal", "dataStore", "endPoint", "partnerEntity", "partnerRole", "correlationProperty", "textAnnotation",
    "association", "group", "interfaceRef", "endPointRef", "laneSet", "dataObject", "dataObjectReference", "property", "ioSpecification", "ioBinding",
    "auditing", "monitoring", "supports", "supportedInterfaceRef", "correlationSubscription", "categoryValueRef", "incoming", "outgoing",
    "dataInputAssociation", "dataOutputAssociation", "dataInput", "dataOutput", "inputSet", "outputSet", "resourceRole", "performer", "humanPerformer",
    "potentialOwner",
};

static int spoil_structure(struct sketch *k) {
    static const char *const strangers[] = {"userTask", "timerEventDefinition", "dataStoreReference", "multiInstanceLoopCharacteristics", "x", "definitions",
                                            "Documentation", "lane", "signalEventDefinition", "incomings", "BPMNPlane", "performers", "dataStores", "flowNodeRef"};
    unsigned which = below(k, 100);
    k->stranger_depth = 1 + below(k, 3);
    k->stranger_at = below(k, 20);
    if (which < 25) return spoil_references(k, below(k, 7));
    if (which < 45) return spoil_pools(k, below(k, 9));
    if (which < 60) return spoil_conditions(k, below(k, 6));
    if (which < 85) return spoil_nodes(k, below(k, 9));
    if (which < 89) return k->stranger = ONE_OF(k, strangers), 21;
    if (which < 90) return k->collection = true, 21;
    k->stranger = ONE_OF(k, skipped);
    if (which < 95) return k->stranger_depth = 15 + below(k, 2), 0;
    return k->stranger_depth = 17, 20;
}

/* WRITTEN, as some tool would. */
struct pen { struct sketch *k; char *text; size_t n, room; const char *prefix, *gap, *id, *reference; bool plain; char quote; };

static void put(struct pen *o, const char *form, ...) {
    va_list words;
    va_start(words, form);
    int n = vsnprintf(o->text + o->n, o->room - o->n, form, words);
    va_end(words);
    o->n = o->n + n < o->room ? o->n + n : o->room - 1;
}

static bool now(struct pen *o, unsigned percent) { return !o->plain && o->n < BIG && any(o->k, percent); }

static void put_nested(struct pen *o, const char *tag, unsigned depth) {
    put(o, "<%s%s>", o->prefix, tag);
    for (unsigned d = 2; d < depth; d++) put(o, "<v:%c a=\"%u\">", 'a' + d % 3, d);
    if (depth > 1) put(o, any(o->k, 50) ? "<leaf/>" : "<leaf>&#x20;</leaf>");
    for (unsigned d = depth - 1; d > 1; d--) put(o, "</v:%c>", 'a' + d % 3);
    put(o, "</%s%s>", o->prefix, tag);
}

/* between elements: blanks, comments, instructions, text, and what tools put there; at one place the stranger */
static void put_gap(struct pen *o, bool inside) {
    static const char *const gaps[] = {"<!-- a & b < c -->", "<!---->", "<?tool a?>", "<?t?>", "<?xml-model x ?? ?>"};
    static const char *const texts[] = {"text", "&amp;", "<![CDATA[<task id=\"]]>", "]]", "&#8364;", "\xc3\xa4", ">", "<![CDATA[]]]]>"};
    put(o, "%s", o->gap);
    if (now(o, 4)) put(o, "%s", ONE_OF(o->k, gaps));
    if (!inside) return;
    if (now(o, 3)) put(o, "%s", ONE_OF(o->k, texts));
    if (now(o, 6)) put_nested(o, ONE_OF(o->k, skipped), 1 + below(o->k, any(o->k, 90) ? 4 : 15)); /* one less than is right, as it may stand in a stranger */
    if (o->k->stranger && o->k->places++ == o->k->stranger_at) {
        put_nested(o, o->k->stranger, o->k->stranger_depth);
        o->k->stranger = NULL;
    }
}

struct pair { const char *name; char value[40]; };

static void name_of(struct pen *o, char *out, int id, bool reference) {
    snprintf(out, 40, "%s%s%d", reference ? o->reference : "", o->id, !reference && id == o->k->doubled ? o->k->twin : id);
}

/* an id, here always the first attribute, may be left out where nothing refers to it */
static unsigned without_id(struct pen *o, struct pair *pairs, unsigned n, unsigned percent) {
    if (o->k->doubled >= 0 || !now(o, percent)) return n;
    memmove(pairs, pairs + 1, (n - 1) * sizeof *pairs);
    return n - 1;
}

static bool is_default(const struct sketch *k, int flow) {
    for (unsigned n = 0; n < k->node_count; n++)
        if (k->nodes[n].fallback == flow) return true;
    return false;
}

static void put_attributes(struct pen *o, struct pair *pairs, unsigned n) {
    static const char *const more[] = {"name", "x:id", "isExecutable", "gatewayDirection", "x:default", "camunda:sourceRef", "isInterrupting", "color"};
    static const char *const values[] = {"", "a>b", "&lt;", "d0=1", "\xe4", "&#10;", "false", "'"};
    if (now(o, 30)) pairs[n].name = ONE_OF(o->k, more), snprintf(pairs[n++].value, 40, "%s", ONE_OF(o->k, values));
    for (unsigned left = n; left; left--) {
        unsigned at = now(o, 40) ? below(o->k, left) : 0;
        char quote = strchr(pairs[at].value, '\'') ? '"' : now(o, 20) ? '\'' : o->quote;
        put(o, now(o, 5) ? "\r\n\t%s" : " %s", pairs[at].name);
        put(o, now(o, 3) ? " = %c%s%c" : "=%c%s%c", quote, pairs[at].value, quote);
        memmove(pairs + at, pairs + at + 1, (left - 1 - at) * sizeof *pairs);
    }
}

/* a start tag; the caller ends it */
static void put_tag(struct pen *o, const char *tag, struct pair *pairs, unsigned n, const char *attribute) {
    put_gap(o, true);
    put(o, "<%s%s", o->prefix, tag);
    put_attributes(o, pairs, n);
    put(o, "%s", attribute ? attribute : "");
    if (now(o, 5)) put(o, " ");
}

static void put_end(struct pen *o, const char *tag) { put(o, "</%s%s%s>", o->prefix, tag, now(o, 3) ? " " : ""); }

/* a condition's characters, each as itself, by its number or in CDATA; between them what is left out */
static void put_condition(struct pen *o, const char *text) {
    put_gap(o, true);
    put(o, "<%sconditionExpression xsi:type=\"x\">", o->prefix);
    bool cdata = now(o, 30);
    if (cdata) put(o, "<![CDATA[");
    for (; *text; text++) {
        if (!cdata && now(o, 5)) put(o, any(o->k, 50) ? "<!-- -->" : "<?c d?>");
        if (!cdata && now(o, 3)) put_nested(o, any(o->k, 50) ? "documentation" : "extensionElements", 1 + below(o->k, any(o->k, 90) ? 4 : 15));
        if (!cdata && *text == '<') put(o, any(o->k, 50) ? "&lt;" : "&#60;");
        else if (*text == '\n') put(o, now(o, 40) ? "\r\n" : now(o, 40) ? "\r" : now(o, 20) && !cdata ? "&#10;" : "\n");
        else if (!cdata && *text > 32 && *text < 127 && now(o, 8)) put(o, any(o->k, 50) ? "&#%u;" : "&#x%X;", *text);
        else put(o, "%c", *text);
        if (cdata && now(o, 10)) put(o, "]]><![CDATA[");
    }
    if (cdata) put(o, "]]>");
    put_end(o, "conditionExpression");
}

static void put_flow(struct pen *o, unsigned f) {
    const struct flow *x = &o->k->flows[f];
    struct pair pairs[4];
    pairs[0].name = "id", name_of(o, pairs[0].value, OF_FLOW + f, false);
    pairs[1].name = "sourceRef", name_of(o, pairs[1].value, x->from, true);
    pairs[2].name = "targetRef", name_of(o, pairs[2].value, x->to, true);
    put_tag(o, "sequenceFlow", pairs, is_default(o->k, f) ? 3 : without_id(o, pairs, 3, 20), now(o, 3) ? " startQuantity='1'" : NULL);
    if (!x->condition && !now(o, 20)) {
        put(o, "/>");
        return;
    }
    put(o, ">");
    if (x->condition) put_condition(o, x->condition);
    put_gap(o, true);
    put_end(o, "sequenceFlow");
}

static void put_node(struct pen *o, unsigned n) {
    const struct node *x = &o->k->nodes[n];
    struct pair pairs[4];
    unsigned count = 1;
    pairs[0].name = "id", name_of(o, pairs[0].value, n, false);
    if (x->fallback != -1) {
        int flow = x->fallback == -2 ? 0 : x->fallback == OF_NOTHING ? OF_NOTHING : OF_FLOW + x->fallback;
        pairs[count++].name = "default", name_of(o, pairs[1].value, flow, true);
    }
    put_tag(o, x->tag, pairs, count, x->attribute ? x->attribute : now(o, 5) ? " isForCompensation=\"false\" completionQuantity='1'" : NULL);
    if (!x->messages && !x->terminates && !now(o, 30)) {
        put(o, "/>");
        return;
    }
    put(o, ">");
    if (!is_task(x))
        for (unsigned d = 0; d < x->messages; d++) put_gap(o, true), put(o, "<%smessageEventDefinition/>", o->prefix);
    else if (x->messages) put(o, "<%smessageEventDefinition/>", o->prefix);
    for (unsigned d = 0; d < x->terminates; d++) put_gap(o, true), put(o, "<%sterminateEventDefinition></%sterminateEventDefinition>", o->prefix, o->prefix);
    put_gap(o, true);
    put_end(o, x->tag);
}

/* nodes and flows in their own order each, one sort behind the other or mixed */
static void put_process(struct pen *o, unsigned p) {
    struct sketch *k = o->k;
    struct pair pairs[2] = {{.name = "id"}};
    unsigned n = 0, f = 0, share = any(k, 30) ? 100 : any(k, 30) ? 0 : 50;
    name_of(o, pairs[0].value, OF_PROCESS + p, false);
    put_tag(o, "process", pairs, k->collaborations ? 1 : without_id(o, pairs, 1, 30), NULL);
    put(o, ">");
    while (n < k->node_count || f < k->flow_count) {
        bool node = f >= k->flow_count || (n < k->node_count && any(k, share));
        if (node && k->nodes[n].process == p) put_node(o, n);
        if (!node && k->flows[f].process == p) put_flow(o, f);
        *(node ? &n : &f) += 1;
    }
    if (k->collection) put(o, "<%sdataObject isCollection=\"true\"/>", o->prefix);
    put_gap(o, true);
    put_end(o, "process");
}

static void put_part(struct pen *o, unsigned q) {
    const struct part *x = &o->k->parts[q];
    struct pair pairs[3];
    pairs[0].name = "id", name_of(o, pairs[0].value, OF_PART + q, false);
    if (x->process >= 0) pairs[1].name = "processRef", name_of(o, pairs[1].value, OF_PROCESS + x->process, true);
    put_tag(o, "participant", pairs, 1 + (x->process >= 0), NULL);
    if (!x->many && !now(o, 20)) {
        put(o, "/>");
        return;
    }
    put(o, ">");
    for (unsigned d = 0; d < x->many; d++) {
        put_gap(o, true);
        put(o, "<%sparticipantMultiplicity%s", o->prefix, now(o, 30) ? " minimum=\"none\"" : "");
        if (x->maximum) put(o, " maximum=%c%s%c", o->quote, x->maximum, o->quote);
        put(o, now(o, 20) ? "><a/></%sparticipantMultiplicity>" : "/>", o->prefix);
    }
    put_gap(o, true);
    put_end(o, "participant");
}

static void put_collaboration(struct pen *o) {
    put_tag(o, "collaboration", (struct pair[1]){{0}}, 0, NULL);
    put(o, ">");
    for (unsigned q = 0; q < o->k->part_count; q++) put_part(o, q);
    for (unsigned m = 0; m < o->k->message_count; m++) {
        struct pair pairs[4];
        pairs[0].name = "id", name_of(o, pairs[0].value, OF_MESSAGE + m, false);
        pairs[1].name = "sourceRef", name_of(o, pairs[1].value, o->k->messages[m].from, true);
        pairs[2].name = "targetRef", name_of(o, pairs[2].value, o->k->messages[m].to, true);
        put_tag(o, "messageFlow", pairs, without_id(o, pairs, 3, 20), NULL);
        put(o, "/>");
    }
    put_gap(o, true);
    put_end(o, "collaboration");
    if (o->k->collaborations > 1) put(o, "<%scollaboration/>", o->prefix);
}

/* the drawing, and where its root ends */
static size_t put_whole(struct pen *o) {
    unsigned at = below(o->k, o->k->process_count + 1);
    if (now(o, 10)) put(o, "\xef\xbb\xbf");
    if (now(o, 50)) put(o, "<?xml version=\"1.0\" encoding=\"%s\"?>", any(o->k, 50) ? "UTF-8" : "windows-1252");
    if (!o->plain) put_gap(o, false);
    put(o, "<%sdefinitions xmlns=\"http://www.omg.org/spec/BPMN/20100524/MODEL\"%s>", o->prefix, now(o, 50) ? " id=\"n0\"\r\n targetNamespace='x'" : "");
    for (unsigned p = 0; p <= o->k->process_count; p++) {
        if (p == at && o->k->collaborations) put_collaboration(o);
        if (p < o->k->process_count) put_process(o, p);
    }
    while (o->k->stranger) o->k->stranger_at = o->k->places, put_gap(o, true);
    put_end(o, "definitions");
    size_t root = o->n;
    if (!o->plain) put_gap(o, false);
    return root;
}

/* THE TEXT spoiled: the number due, or -1. */
static int insert(struct pen *o, size_t at, const char *piece) {
    size_t m = strlen(piece);
    if (o->n + m >= o->room) return -1;
    memmove(o->text + at + m, o->text + at, o->n - at);
    memcpy(o->text + at, piece, m);
    o->n += m;
    return -1;
}

/* an attribute's name behind the place, the attribute written again before it */
static int twice(struct pen *o, size_t at) {
    static const char *const names[] = {" id=\"", " sourceRef=\"", " processRef=\"", " maximum=\""};
    o->text[o->n] = 0;
    char *found = strstr(o->text + at, ONE_OF(o->k, names)), copy[80];
    if (!found) return -1;
    size_t m = strcspn(found + 1, "=") + 1;
    memcpy(copy, found, m), strcpy(copy + m, "='1'");
    return insert(o, found - o->text, copy), -1;
}

/* an attribute that is needed, under another name */
static int renamed(struct pen *o, size_t at, int due) {
    static const char *const names[] = {" sourceRef=\"", " targetRef=\""};
    o->text[o->n] = 0;
    char *found = strstr(o->text + at, ONE_OF(o->k, names));
    if (!found || memchr(o->text, 0, o->n)) return due;
    found[1] = 'x';
    return due == 0 || due == 3 || due == 4 || due == 21 ? -1 : due;
}

static int spoil_text(struct pen *o, size_t root, int due) {
    static const char *const pieces[] = {"<", ">", "/", "&", ";", "\"", "'", "=", "<a>", "</a>", "<a/>", "<!--", "-->", "--", "<![CDATA[", "]]>", "<?", "?>", "<?xml ?>",
                                         "<!DOCTYPE a>", "&lt;", "&x;", "&#0;", "&#x41;", "&#xFFFE;", "&#55296;", " ", "\r", "\t", "\x01", "\x1f", "\x7f", "\xff",
                                         ":", "id=\"n0\"", " id=\"n1\"", "<task/>", "1", "-", "]", "<!", "x", "&#13;", "<?XML?>", "&#", "</"};
    static const char *const cuts[] = {"&", "&1", "&.", "&-", "&#a", "&#xg", "&a#", "&l", "&#x4", "&lt", "&#xd800", "&:_\xff", "&l;", "&1;", "&#xg;", "& "};
    size_t at = below(o->k, o->n);
    switch (below(o->k, 15)) {
    case 14: /* it ends in a reference, or right behind one */
        while (at && !strchr("\"'>", o->text[at])) at--;
        o->n = at + 1;
        return insert(o, o->n, ONE_OF(o->k, cuts)), 20;
    case 12: return twice(o, at);
    case 13: return renamed(o, at, due);
    case 0: return o->n = at, at < root ? 20 : -1;
    case 1: return o->text[at] = below(o->k, 256), -1;
    case 2: return memmove(o->text + at, o->text + at + 1, o->n - at - 1), o->n--, -1;
    case 3: return insert(o, root, any(o->k, 50) ? "x" : "<definitions/>"), 20;
    case 4: return insert(o, root, "&amp;"), 20;
    case 5:
        for (at = below(o->k, root); at < root && o->text[at] != '<'; at++) {}
        return insert(o, at, "<!DOCTYPE a>"), -1;
    case 6: /* padded to the last byte that is read, or one more */
        for (at = 65536 + below(o->k, 2); o->n < at;) o->text[o->n++] = ' ';
        return o->n > 65536 ? 1 : due;
    case 7: { /* a name, or a part of one, written another way */
        while (at < o->n && o->text[at] != '<') at++;
        if (at + 3 < o->n) o->text[at + 2] ^= 32;
        return -1;
    }
    case 8: { /* two stretches exchanged for one: what lies between goes */
        size_t end = at + below(o->k, 40);
        if (end > o->n) end = o->n;
        memmove(o->text + at, o->text + end, o->n - end);
        o->n -= end - at;
        return -1;
    }
    default: return insert(o, at, ONE_OF(o->k, pieces));
    }
}

size_t drawing_text(struct random *r, char *text, size_t room, int *due) {
    static const char *const prefixes[] = {"", "", "bpmn:", "bpmn2:", "semantic:", "a:b:"}, *const gaps[] = {"", "\n", "\r\n", " ", "\n\t"};
    static const char *const ids[] = {"n", "Activity_", "sid-0A-", "Id_.", "_\xe4"};
    static struct sketch sketch;
    sketch = (struct sketch){.r = r, .over = chance(r, 15), .doubled = -1};
    struct sketch *k = &sketch;
    struct pen o = {.k = k, .text = text, .room = room};
    sketch_whole(k);
    bool silent = unheard(k);
    int spoiled = any(k, 45) ? spoil_structure(k) : 0;
    int over = (spoiled == 0 || spoiled == 4) && excessive(k) ? 3 : spoiled == 0 && crowded(k) ? 28 : 0;
    *due = silent && spoiled != 20 ? (spoiled < 0 ? -1 : 21) : spoiled == 4 ? (over ? 3 : 4) : spoiled == 0 ? over : spoiled;
    o.plain = any(k, 20), o.quote = any(k, 80) ? '"' : '\'';
    o.prefix = ONE_OF(k, prefixes), o.gap = ONE_OF(k, gaps), o.id = ONE_OF(k, ids), o.reference = any(k, 20) ? "tns:" : "";
    size_t root = put_whole(&o);
    if (o.n > 65536) return *due = 1, o.n;
    if (any(k, 25)) {
        int number = spoil_text(&o, root, *due);
        /* a text that breaks off, or is wrong behind its root, was well formed before only where nothing in it was 20 */
        *due = number == 20 || number == 1 || number == *due ? number : -1;
    }
    return o.n;
}
