/* Drawings: a text of BPMN 2.0 XML read into a table, as document 02's first request says. First one walk over the XML from left to right, which notes what
   is drawn and stops at the first place at fault (20); then what is drawn wrong (21), what is too large (3), the table with its checks (4), and its message ends as the
   notation's (28). */
#include "layout.h"
#include "xml.h"

/* the most that fit in a drawing; how many elements the engine records, of which each that is right has ten bytes or more, so that a drawing with others is wrong in one of them */
enum { ITEMS = 10000, RECORDED = 6554 };

/* What an element is where it stands: UNKNOWN is one that is not run, PASSED one that says nothing about the run. */
enum role { UNKNOWN, PASSED, DEFINITIONS, COLLABORATION, PARTICIPANT, MULTIPLICITY, MESSAGE_FLOW, PROCESS, SEQUENCE_FLOW, CONDITION_TEXT, MESSAGE_EVENT,
            TERMINATE_EVENT, START_EVENT, END_EVENT, CATCH_EVENT, THROW_EVENT, PLAIN_TASK, SEND_TASK, RECEIVE_TASK, PARALLEL, EXCLUSIVE, BY_EVENT, ANY_EVENT };

static const struct { const char *name; uint8_t role, inside; } roles[] = {
    {"collaboration", COLLABORATION, DEFINITIONS}, {"process", PROCESS, DEFINITIONS},
    {"participant", PARTICIPANT, COLLABORATION}, {"messageFlow", MESSAGE_FLOW, COLLABORATION},
    {"participantMultiplicity", MULTIPLICITY, PARTICIPANT},
    {"startEvent", START_EVENT, PROCESS}, {"endEvent", END_EVENT, PROCESS}, {"intermediateCatchEvent", CATCH_EVENT, PROCESS},
    {"intermediateThrowEvent", THROW_EVENT, PROCESS}, {"task", PLAIN_TASK, PROCESS}, {"sendTask", SEND_TASK, PROCESS},
    {"receiveTask", RECEIVE_TASK, PROCESS}, {"parallelGateway", PARALLEL, PROCESS}, {"exclusiveGateway", EXCLUSIVE, PROCESS},
    {"eventBasedGateway", BY_EVENT, PROCESS}, {"sequenceFlow", SEQUENCE_FLOW, PROCESS},
    {"messageEventDefinition", MESSAGE_EVENT, ANY_EVENT}, {"terminateEventDefinition", TERMINATE_EVENT, ANY_EVENT},
    {"conditionExpression", CONDITION_TEXT, SEQUENCE_FLOW},
};

static const char *const passed_over[] = {
    "documentation", "extensionElements", "BPMNDiagram", "import", "extension", "relationship", "message", "itemDefinition", "category", "interface", "resource",
    "error", "escalation", "signal", "dataStore", "endPoint", "partnerEntity", "partnerRole", "correlationProperty", "textAnnotation", "association", "group",
    "interfaceRef", "endPointRef", "laneSet", "dataObject", "dataObjectReference", "property", "ioSpecification", "ioBinding", "auditing", "monitoring",
    "supports", "supportedInterfaceRef", "correlationSubscription", "categoryValueRef", "incoming", "outgoing", "dataInputAssociation", "dataOutputAssociation",
    "dataInput", "dataOutput", "inputSet", "outputSet", "resourceRole", "performer", "humanPerformer", "potentialOwner",
};

/* attributes of a process's children that may only have this value */
static const char *const fixed[][2] = {{"instantiate", "false"}, {"isForCompensation", "false"}, {"isCollection", "false"}, {"eventGatewayType", "Exclusive"},
                                       {"startQuantity", "1"}, {"completionQuantity", "1"}};

/* A participant, process, node, sequence or message flow, in the order they stand. */
struct item {
    enum role role;
    unsigned owner; /* of a node or sequence flow: its process */
    size_t place;
    struct span id, source, target, process, fallback, maximum;
    unsigned many, messages, terminates, expressions;
    size_t second_many, expression, second_expression; /* their places */
    bool foreign;                                      /* an element in its condition */
    struct span text;                                  /* of a condition, in the characters */
    /* worked out from references */
    int from, to, pool;
    unsigned in, out, sent, received, owners, number;
    bool behind, conditioned, ranged;
    word condition[EXPRESSION_WORDS];
    size_t excess;
};

struct walk {
    struct xml xml;
    bool amiss;
    unsigned count, collaborations, things, recorded;
    size_t root, strange, second_collaboration; /* places, SIZE_MAX where there is none */
    struct item items[ITEMS];
    uint8_t characters[XML_MOST + 1];
    size_t places[XML_MOST + 1], character_count;
};

/* digits without a leading zero: above the most instances as one above them; -1 where they are none */
static int32_t numeral(const struct xml *w, struct span x) {
    int32_t v = 0;
    if (x.from == x.to || (w->s[x.from] == '0' && x.to - x.from > 1)) return -1;
    for (size_t k = x.from; k < x.to; k++) {
        if (!is_digit(w->s[k])) return -1;
        v = v * 10 + w->s[k] - '0';
        if (v > INSTANCES) v = INSTANCES + 1;
    }
    return v;
}

static bool maximum_counts(struct xml *w, const struct attribute *a) {
    return !is(w, a->name, "maximum") || numeral(w, a->value) >= 0 || fault(w, a->value.from);
}

/* WHAT IS DRAWN. */
static bool is_event(enum role r) { return r >= START_EVENT && r <= THROW_EVENT; }
static bool is_node(enum role r) { return r >= START_EVENT && r <= BY_EVENT; }
static bool is_item(enum role r) { return r == PARTICIPANT || r == MESSAGE_FLOW || r == PROCESS || r == SEQUENCE_FLOW || is_node(r); }
static bool is_read_into(enum role r) { return r == DEFINITIONS || r == COLLABORATION || is_item(r); }

static enum role role_of(const struct walk *w, struct span name, enum role inside) {
    struct span local = behind_colon(&w->xml, name);
    unsigned within = is_event(inside) ? ANY_EVENT : inside;
    for (unsigned k = 0; k < sizeof passed_over / sizeof *passed_over; k++)
        if (is(&w->xml, local, passed_over[k])) return PASSED;
    for (unsigned k = 0; k < sizeof roles / sizeof *roles; k++)
        if (roles[k].inside == within && is(&w->xml, local, roles[k].name)) return roles[k].role;
    return UNKNOWN;
}

static void note_item(struct walk *w, enum role role, size_t place, unsigned owner) {
    struct item *x = &w->items[w->count++];
    *x = (struct item){.role = role, .owner = owner, .place = place, .from = -1, .to = -1, .pool = -1};
    x->id = value_of(&w->xml, "id");
    x->source = value_of(&w->xml, "sourceRef");
    x->target = value_of(&w->xml, "targetRef");
    x->process = value_of(&w->xml, "processRef");
    x->fallback = value_of(&w->xml, "default");
}

/* what a start tag says, an item of its own or a part of the one it stands in */
static bool is_strange(const struct walk *w, enum role role, enum role inside) {
    for (unsigned k = 0; inside == PROCESS && k < sizeof fixed / sizeof *fixed; k++) {
        struct span v = value_of(&w->xml, fixed[k][0]);
        if (v.there && !is(&w->xml, v, fixed[k][1])) return true;
    }
    return role == UNKNOWN;
}

static void note(struct walk *w, enum role role, enum role inside, size_t place, unsigned owner) {
    struct item *x = &w->items[owner];
    bool strange = is_strange(w, role, inside), recorded = w->things < RECORDED;
    if (role == PASSED && !strange) return;
    w->things++;
    if (strange || !recorded) w->amiss = true;
    if (strange && recorded && place < w->strange) w->strange = place;
    if (is_item(role)) note_item(w, role, place, owner);
    else if (role == COLLABORATION && w->collaborations++ == 1) w->second_collaboration = place;
    else if (role == MESSAGE_EVENT) x->messages++;
    else if (role == TERMINATE_EVENT) x->terminates++;
    else if (role == MULTIPLICITY) {
        if (x->many++ == 1) x->second_many = place;
        x->maximum = value_of(&w->xml, "maximum");
    } else if (role == CONDITION_TEXT) {
        *(x->expressions++ ? &x->second_expression : &x->expression) = place;
        x->text = (struct span){w->character_count, w->character_count, true};
    }
    if (recorded) w->recorded = w->count;
}

static void character(struct walk *w, size_t place, uint32_t code) {
    w->characters[w->character_count] = code == '\r' && w->xml.s[place] == '\r' ? '\n' : code < 128 ? code : 128;
    w->places[w->character_count++] = place;
}

static bool content(struct walk *w, struct span name, enum role role, unsigned owner, unsigned depth);

/* in a condition these two are passed over, as everywhere, and no other element stands */
static bool is_data(const struct walk *w, struct span name) {
    struct span local = behind_colon(&w->xml, name);
    return is(&w->xml, local, "documentation") || is(&w->xml, local, "extensionElements");
}

/* an element: depth is how deep its parent is in what is skipped, 0 where that is read into */
static bool element(struct walk *w, struct span name, enum role inside, unsigned owner, unsigned depth) {
    size_t place = w->xml.at;
    bool empty;
    enum role role = depth ? PASSED : role_of(w, name, inside);
    if (depth == DEEPEST) return fault(&w->xml, place);
    if (inside == CONDITION_TEXT && !is_data(w, name)) w->amiss = w->items[owner].foreign = true;
    if (!tag(&w->xml, name.to, role == MULTIPLICITY ? maximum_counts : NULL, &empty)) return false;
    if (!depth) note(w, role, inside, place, owner);
    if (empty) return true;
    if (is_item(role)) owner = w->count - 1;
    return content(w, name, role, owner, is_read_into(role) ? 0 : depth + 1);
}

/* a comment, instruction, CDATA section, tag at a `<` of some content */
static bool markup(struct walk *w, struct span name, enum role role, unsigned owner, unsigned depth, bool *ended) {
    struct span found = {0, 0, false};
    size_t at = w->xml.at;
    switch (opening_at(&w->xml, at, &found)) {
    case CUT_OFF: return cut(&w->xml);
    case WRONG: return broken(&w->xml, at, stop_of(&w->xml, at));
    case COMMENT: return until(&w->xml, at + 4, "-->");
    case INSTRUCTION: return instruction(&w->xml, found);
    case END_TAG: return *ended = true, end_tag(&w->xml, name, found);
    case START_TAG: return element(w, found, role, owner, depth);
    case CDATA:
        if (!until(&w->xml, at + 9, "]]>")) return false;
        for (size_t k = at + 9; role == CONDITION_TEXT && k < w->xml.at - 3; k++) character(w, k, w->xml.s[k]);
    }
    return true;
}

/* what stands between an element's tags, and its end tag; of a conditionExpression the characters are kept */
static bool content(struct walk *w, struct span name, enum role role, unsigned owner, unsigned depth) {
    for (bool ended = false; !ended;) {
        size_t at = w->xml.at;
        if (at == w->xml.n) return cut(&w->xml);
        uint32_t b = w->xml.s[at];
        if (b == '<') {
            if (!markup(w, name, role, owner, depth, &ended)) return false;
            continue;
        }
        if (ends_text(&w->xml, at)) return fault(&w->xml, at);
        w->xml.at++;
        if (b == '&' && !reference(&w->xml, at, &b)) return false;
        if (role == CONDITION_TEXT) character(w, at, b);
    }
    if (role == CONDITION_TEXT) w->items[owner].text.to = w->character_count;
    return true;
}

static bool walked(struct walk *w, const uint8_t *text, size_t length) {
    struct span name;
    bool empty;
    w->character_count = 0;
    w->amiss = false, w->count = w->collaborations = w->recorded = 0, w->things = 1;
    w->strange = w->second_collaboration = SIZE_MAX;
    if (!begun(&w->xml, text, length) || !around(&w->xml, "definitions", &name)) return false;
    w->root = w->xml.at;
    if (!tag(&w->xml, name.to, NULL, &empty)) return false;
    return (empty || content(w, name, DEFINITIONS, 0, 0)) && around(&w->xml, NULL, &name);
}

/* 21: WHAT IS DRAWN WRONG. */
static bool ids_differ(const struct walk *w) {
    for (unsigned k = 0; k < w->count; k++)
        for (unsigned j = 0; j < k && w->items[k].id.there; j++)
            if (equal(&w->xml, w->items[j].id, w->items[k].id)) return false;
    return true;
}

static int named(const struct walk *w, struct span reference) {
    struct span id = behind_colon(&w->xml, reference);
    for (unsigned k = 0; k < w->count; k++)
        if (equal(&w->xml, w->items[k].id, id)) return k;
    return -1;
}

static bool sends(const struct item *x) { return x->role == SEND_TASK || ((x->role == THROW_EVENT || x->role == END_EVENT) && x->messages); }
static bool receives(const struct item *x) { return x->role == RECEIVE_TASK || ((x->role == CATCH_EVENT || x->role == START_EVENT) && x->messages); }
static bool is_outside(const struct item *x) { return x->role == PARTICIPANT && !x->process.there; }
static bool splits(const struct item *x) { return x->in == 1 && x->out >= FEWEST; }
static bool joins(const struct item *x) { return x->in >= FEWEST && x->out == 1; }

static bool sequence_flow_joins(struct walk *w, struct item *x) {
    x->from = named(w, x->source), x->to = named(w, x->target);
    if (x->from < 0 || x->to < 0) return false;
    struct item *a = &w->items[x->from], *b = &w->items[x->to];
    if (!is_node(a->role) || !is_node(b->role) || a->owner != x->owner || b->owner != x->owner) return false;
    a->out++, b->in++;
    return true;
}

static bool message_flow_joins(struct walk *w, struct item *x) {
    x->from = named(w, x->source), x->to = named(w, x->target);
    if (x->from < 0 || x->to < 0) return false;
    struct item *a = &w->items[x->from], *b = &w->items[x->to];
    if (!(sends(a) || is_outside(a)) || !(receives(b) || is_outside(b))) return false;
    a->sent++, b->received++;
    return true;
}

static bool flows_join(struct walk *w) {
    for (unsigned k = 0; k < w->count; k++) {
        struct item *x = &w->items[k];
        if (x->role == SEQUENCE_FLOW && !sequence_flow_joins(w, x)) return false;
        if (x->role == MESSAGE_FLOW && !message_flow_joins(w, x)) return false;
    }
    return true;
}

/* the pools in their order; each process is that of exactly one */
static bool pools_stand(struct walk *w) {
    int pools = 0, participants = 0;
    for (unsigned k = 0; k < w->count; k++) {
        struct item *x = &w->items[k];
        if (x->role != PARTICIPANT) continue;
        participants++;
        if (x->many > 1) return false;
        if (is_outside(x)) continue;
        int p = named(w, x->process);
        if (p < 0 || w->items[p].role != PROCESS || w->items[p].pool >= 0) return false;
        x->from = p, w->items[p].to = k;
        x->pool = w->items[p].pool = pools++;
    }
    for (unsigned k = 0; k < w->count; k++) {
        struct item *x = &w->items[k];
        if (x->role == PROCESS && !participants) x->pool = pools++;
        if (x->role == PROCESS && x->pool < 0) return false;
    }
    return pools > 0 && w->collaborations <= 1;
}

static bool event_is_known(const struct item *x) {
    unsigned definitions = x->messages + x->terminates;
    if (definitions > 1 || (x->terminates && x->role != END_EVENT)) return false;
    return definitions == 1 || x->role == START_EVENT || x->role == END_EVENT;
}

/* its kind's definitions, entries and exits */
static bool has_kind(const struct item *x) {
    if (is_event(x->role) && !event_is_known(x)) return false;
    switch (x->role) {
    case START_EVENT: return x->in == 0 && x->out == 1;
    case END_EVENT: return x->in == 1 && x->out == 0;
    case PARALLEL:
    case EXCLUSIVE: return splits(x) || joins(x);
    case BY_EVENT: return splits(x);
    default: return x->in == 1 && x->out == 1;
    }
}

/* and exactly one message flow where it sends or receives */
static bool node_stands(const struct item *x) { return has_kind(x) && !(sends(x) && x->sent != 1) && !(receives(x) && x->received != 1); }

static bool is_blank_text(const uint8_t *s, struct span x) {
    for (size_t k = x.from; k < x.to; k++)
        if (s[k] != ' ' && s[k] != '\t' && s[k] != '\n') return false;
    return true;
}

/* a flow's condition is in the notation and leaves an exclusive split */
static bool condition_stands(struct walk *w, struct item *x) {
    const struct item *a = &w->items[x->from];
    x->condition[0] = ALWAYS;
    if (x->expressions > 1) return false;
    if (!x->expressions || is_blank_text(w->characters, x->text)) return true;
    size_t place;
    unsigned number = condition_of(w->characters + x->text.from, x->text.to - x->text.from, x->condition, &place);
    if (number == 3) x->ranged = true, x->excess = w->places[x->text.from + place];
    return number != 2 && a->role == EXCLUSIVE && splits(a);
}

static bool is_catch(const struct item *x) { return x->role == CATCH_EVENT && x->messages; }

static bool nodes_and_flows_stand(struct walk *w) {
    for (unsigned k = 0; k < w->count; k++) {
        struct item *x = &w->items[k];
        if (is_node(x->role) && !node_stands(x)) return false;
        if (x->role != SEQUENCE_FLOW) continue;
        if (!condition_stands(w, x)) return false;
        if (w->items[x->from].role != BY_EVENT) continue;
        if (!is_catch(&w->items[x->to])) return false;
        w->items[x->to].behind = x->behind = true;
    }
    return true;
}

/* the default flow of an exclusive split is its own, and says default whatever its condition */
static bool defaults_stand(struct walk *w) {
    for (unsigned k = 0; k < w->count; k++) {
        const struct item *x = &w->items[k];
        if (x->role != EXCLUSIVE || !splits(x) || !x->fallback.there) continue;
        int f = named(w, x->fallback);
        if (f < 0 || w->items[f].role != SEQUENCE_FLOW || w->items[f].from != (int)k) return false;
        struct item *flow = &w->items[f];
        memset(flow->condition, 0, sizeof flow->condition);
        flow->condition[0] = DEFAULT, flow->ranged = false;
    }
    return true;
}

static bool stands(struct walk *w) {
    return !w->amiss && ids_differ(w) && pools_stand(w) && flows_join(w) && nodes_and_flows_stand(w) && defaults_stand(w);
}

/* NUMBERS, and 3: WHAT IS TOO LARGE, the leftmost. */
static bool is_task(enum role r) { return r == PLAIN_TASK || r == SEND_TASK || r == RECEIVE_TASK; }
static bool is_start(const struct item *x) { return x->role == START_EVENT && !x->messages; }

static void exceed(size_t *leftmost, bool excessive, size_t place) {
    if (excessive && place < *leftmost) *leftmost = place;
}

/* the elements, tasks and edges of a process, each from 1 */
static void number_process(struct walk *w, unsigned process, size_t *leftmost) {
    unsigned elements = 0, tasks = 0, edges = 0;
    for (unsigned k = process + 1; k < w->count; k++) {
        struct item *x = &w->items[k];
        if (x->owner != process || x->behind) continue;
        if (x->role == SEQUENCE_FLOW) {
            x->number = ++edges;
            exceed(leftmost, edges > EDGES, x->place);
        } else if (is_node(x->role)) {
            exceed(leftmost, ++elements > ELEMENTS, x->place);
            if (!is_task(x->role)) continue;
            x->number = ++tasks;
            exceed(leftmost, tasks > TASKS, x->place);
        }
    }
    for (unsigned k = process + 1; k < w->count; k++) {
        struct item *x = &w->items[k];
        if (x->owner != process || !is_start(x)) continue;
        x->number = ++edges;
        exceed(leftmost, edges > EDGES, x->place);
    }
}

static int32_t limit_of_pool(const struct walk *w, const struct item *x) { return !x->many ? 0 : x->maximum.there ? numeral(&w->xml, x->maximum) : 1; }

static void number_others(struct walk *w, size_t *leftmost) {
    bool participants = false;
    unsigned messages = 0;
    for (unsigned k = 0; k < w->count; k++) participants |= w->items[k].role == PARTICIPANT;
    for (unsigned k = 0; k < w->count; k++) {
        struct item *x = &w->items[k];
        if (x->role == (participants ? PARTICIPANT : PROCESS)) exceed(leftmost, x->pool >= POOLS, x->place);
        if (x->role == PARTICIPANT && !is_outside(x) && x->many) {
            int32_t n = limit_of_pool(w, x);
            exceed(leftmost, n < 1 || n > INSTANCES, x->maximum.from);
        }
        if (x->role == MESSAGE_FLOW) {
            x->number = messages++;
            exceed(leftmost, x->number >= NAMES && (is_node(w->items[x->from].role) || is_node(w->items[x->to].role)), x->place);
        }
        if (x->role == SEQUENCE_FLOW) exceed(leftmost, x->ranged, x->excess);
    }
}

/* the ninth flow of each gateway's entries and exits */
static void count_lists(struct walk *w, size_t *leftmost) {
    static unsigned in[ITEMS], out[ITEMS];
    memset(in, 0, sizeof in), memset(out, 0, sizeof out);
    for (unsigned k = 0; k < w->count; k++) {
        const struct item *x = &w->items[k];
        if (x->role != SEQUENCE_FLOW) continue;
        in[x->to]++, out[x->from]++;
        exceed(leftmost, in[x->to] > BRANCHES || out[x->from] > BRANCHES, x->place);
    }
}

/* THE TABLE. */
static unsigned kind_of(const struct item *x) {
    switch (x->role) {
    case START_EVENT: return x->messages ? START_RCV : START;
    case END_EVENT: return x->messages ? END_SND : x->terminates ? TERMINATE : END;
    case CATCH_EVENT: return INTER_RCV;
    case THROW_EVENT: return INTER_SND;
    case PLAIN_TASK: return TASK;
    case SEND_TASK: return TASK_SND;
    case RECEIVE_TASK: return TASK_RCV;
    case PARALLEL: return splits(x) ? AND_SPLIT : AND_JOIN;
    case EXCLUSIVE: return splits(x) ? XOR_SPLIT : XOR_JOIN;
    default: return EVENT_BASED;
    }
}

static unsigned message_number(const struct walk *w, int node) {
    for (unsigned k = 0; k < w->count; k++)
        if (w->items[k].role == MESSAGE_FLOW && (w->items[k].from == node || w->items[k].to == node)) return w->items[k].number;
    return 0;
}

static unsigned exit_of(const struct walk *w, int node) {
    for (unsigned k = 0; k < w->count; k++)
        if (w->items[k].role == SEQUENCE_FLOW && w->items[k].from == node) return w->items[k].number;
    return 0;
}

static void add(word *list, unsigned edge) { list[++list[0]] = edge; }

static void fill_element(const struct walk *w, int node, word *el) {
    const struct item *x = &w->items[node];
    el[KIND] = kind_of(x);
    if (sends(x) || receives(x)) el[ELEMENT_MESSAGES] = message_number(w, node);
    if (is_task(x->role)) el[TASK_NUMBER] = x->number, el[MODE] = ATOMIC, el[CONDITIONS] = ALWAYS;
    if (el[KIND] == START) add(el + ENTRIES, x->number);
    for (unsigned k = 0; k < w->count; k++) {
        const struct item *f = &w->items[k];
        if (f->role != SEQUENCE_FLOW) continue;
        if (f->to == node) add(el + ENTRIES, f->number);
        if (f->from != node) continue;
        if (el[KIND] == XOR_SPLIT) memcpy((word *)condition_at(el, el[EXITS]), f->condition, sizeof f->condition);
        if (el[KIND] == EVENT_BASED) *(word *)message_at(el, el[EXITS]) = message_number(w, f->to);
        add(el + EXITS, el[KIND] == EVENT_BASED ? exit_of(w, f->to) : f->number);
    }
}

static void fill(const struct walk *w, word *t) {
    for (unsigned k = 0; k < w->count; k++) {
        const struct item *x = &w->items[k];
        if (x->role != PROCESS) continue;
        word *pool = (word *)pool_at(t, x->pool);
        t[0]++;
        pool[0] = x->pool + 1;
        pool[POOL_LIMIT] = x->to < 0 ? 0 : limit_of_pool(w, &w->items[x->to]);
        for (unsigned j = k + 1; j < w->count; j++)
            if (w->items[j].owner == k && is_node(w->items[j].role) && !w->items[j].behind)
                fill_element(w, j, (word *)element_at(pool, pool[POOL_COUNT]++));
    }
}

/* of the last drawing that was looked at */
static struct walk w;

ref_reading ref_draw(const uint8_t *text, size_t length, word *t) {
    static word drawn[REF_TABLE_WORDS];
    if (length > XML_MOST) return (ref_reading){1, 0};
    if (!walked(&w, text, length)) return (ref_reading){20, w.xml.place};
    if (!stands(&w)) return (ref_reading){21, 0};
    size_t leftmost = SIZE_MAX;
    for (unsigned k = 0; k < w.count; k++)
        if (w.items[k].role == PROCESS) number_process(&w, k, &leftmost);
    number_others(&w, &leftmost);
    count_lists(&w, &leftmost);
    if (leftmost < SIZE_MAX) return (ref_reading){3, leftmost};
    memset(drawn, 0, sizeof drawn);
    fill(&w, drawn);
    unsigned k = lowest_broken(drawn);
    if (k) return (ref_reading){4, k};
    if (!rewritten(drawn)) return (ref_reading){28, 0};
    memcpy(t, drawn, sizeof drawn);
    return (ref_reading){0, 0};
}

/* WHY A DRAWING IS REFUSED. The ends of flows and the processes of participants, as far as there are such. */
static int named_node(int k) { return k >= 0 && is_node(w.items[k].role) ? k : -1; }

static void join(struct item *x) {
    int a = named(&w, x->source), b = named(&w, x->target);
    if (x->role == SEQUENCE_FLOW) {
        a = named_node(a), b = named_node(b);
        if (a >= 0 && w.items[a].owner == x->owner) w.items[x->from = a].out++;
        if (b >= 0 && w.items[b].owner == x->owner) w.items[x->to = b].in++;
    } else {
        if (a >= 0 && (named_node(a) == a || w.items[a].role == PARTICIPANT)) w.items[x->from = a].sent++;
        if (b >= 0 && (named_node(b) == b || w.items[b].role == PARTICIPANT)) w.items[x->to = b].received++;
    }
}

static void join_all(void) {
    for (unsigned k = 0; k < w.count; k++) {
        struct item *x = &w.items[k];
        if (x->role == SEQUENCE_FLOW || x->role == MESSAGE_FLOW) join(x);
        if (x->role != PARTICIPANT || !x->process.there) continue;
        int p = named(&w, x->process);
        if (p >= 0 && w.items[p].role == PROCESS) w.items[x->from = p].owners++;
    }
}

static bool any_participant(void) {
    for (unsigned k = 0; k < w.count; k++)
        if (w.items[k].role == PARTICIPANT) return true;
    return false;
}

static bool is_pool(const struct item *x, bool participants) { return participants ? x->role == PARTICIPANT && x->from >= 0 : x->role == PROCESS; }

/* THE RULES of an item: where it breaks one, SIZE_MAX where it does not */
static size_t where(bool broken, size_t place) { return broken ? place : SIZE_MAX; }

static bool is_repeated(unsigned k) {
    for (unsigned j = 0; j < k && w.items[k].id.there; j++)
        if (equal(&w.xml, w.items[j].id, w.items[k].id)) return true;
    return false;
}

static bool has_wrong_default(unsigned k) {
    const struct item *x = &w.items[k];
    if (x->role != EXCLUSIVE || !splits(x) || !x->fallback.there) return false;
    int f = named(&w, x->fallback);
    return f < 0 || w.items[f].role != SEQUENCE_FLOW || w.items[f].from != (int)k;
}

static bool is_wrong_message(const struct item *x) {
    if (x->role != MESSAGE_FLOW || x->from < 0 || x->to < 0) return false;
    const struct item *a = &w.items[x->from], *b = &w.items[x->to];
    return !(sends(a) || is_outside(a)) || !(receives(b) || is_outside(b));
}

static bool leads_wrong(const struct item *x) {
    return x->role == SEQUENCE_FLOW && w.items[x->from].role == BY_EVENT && !is_catch(&w.items[x->to]);
}

static size_t broken_by(unsigned rule, unsigned k) {
    struct item *x = &w.items[k];
    bool open = x->from < 0 || x->to < 0;
    switch (rule) {
    case 2: return where(is_repeated(k), x->place);
    case 4: return where(x->role == PARTICIPANT && x->process.there && x->from < 0, x->place);
    case 5: return where(x->role == PROCESS && any_participant() && x->owners != 1, x->place);
    case 6: return where(x->many > 1, x->second_many);
    case 7: return where(x->role == SEQUENCE_FLOW && open, x->place);
    case 8: return where(x->role == MESSAGE_FLOW && open, x->place);
    case 9: return where(is_node(x->role) && !has_kind(x), x->place);
    case 10: return where(has_wrong_default(k), x->place);
    case 11: return where(is_wrong_message(x), x->place);
    case 12: return where(is_node(x->role) && sends(x) && x->sent != 1, x->place);
    case 13: return where(is_node(x->role) && receives(x) && x->received != 1, x->place);
    case 14: return where(leads_wrong(x), x->place);
    case 15: return where(x->expressions > 1, x->second_expression);
    case 16: return where(x->role == SEQUENCE_FLOW && (x->foreign || !condition_stands(&w, x)), x->expression);
    default: return SIZE_MAX;
    }
}

/* the first rule that is broken, and the leftmost place; the drawing's own are those of its root */
static ref_diagnosis why_not_run(void) {
    bool participants, pools = false;
    w.count = w.recorded;
    join_all();
    for (unsigned rule = 1; rule <= 16; rule++) {
        size_t leftmost = rule == 1 ? w.strange : rule == 3 ? w.second_collaboration : SIZE_MAX;
        for (unsigned k = 0; k < w.count && leftmost == SIZE_MAX; k++) leftmost = broken_by(rule, k);
        if (leftmost < SIZE_MAX) return (ref_diagnosis){21, rule, leftmost};
    }
    participants = any_participant();
    for (unsigned k = 0; k < w.count; k++) pools |= is_pool(&w.items[k], participants);
    return (ref_diagnosis){21, pools ? 18 : 17, w.root};
}

/* WHERE A CHECK IS BROKEN: the pool, the message flow, the gateway; check 0: the pool without room. */
struct tally { unsigned starts, plain, elements, edges, end_sends; };

static struct tally tally_of(unsigned process) {
    struct tally t = {0};
    for (unsigned k = process + 1; k < w.count; k++) {
        const struct item *x = &w.items[k];
        if (x->owner != process) continue;
        t.starts += x->role == START_EVENT, t.plain += is_start(x);
        if (x->behind) continue;
        t.edges += x->role == SEQUENCE_FLOW, t.elements += is_node(x->role);
        t.end_sends += x->role == END_EVENT && x->messages;
    }
    t.edges += t.plain;
    return t;
}

static bool is_seat(unsigned check, unsigned k) {
    const struct item *x = &w.items[k];
    unsigned defaults = 0;
    if (check == 6) return x->role == MESSAGE_FLOW && is_node(w.items[x->from].role) && is_node(w.items[x->to].role) && w.items[x->from].owner == w.items[x->to].owner;
    if (check == 7) {
        for (unsigned j = 0; x->role == EXCLUSIVE && splits(x) && j < w.count; j++)
            defaults += w.items[j].role == SEQUENCE_FLOW && w.items[j].from == (int)k && w.items[j].condition[0] == DEFAULT;
        return defaults > 1;
    }
    bool participants = any_participant();
    if (!is_pool(x, participants)) return false;
    struct tally t = tally_of(participants ? (unsigned)x->from : k);
    if (check == 2) return t.starts != 1;
    if (check == 3) return x->many && t.plain;
    return t.elements + t.end_sends > ELEMENTS || t.edges + t.end_sends > EDGES;
}

ref_diagnosis ref_diagnose(const uint8_t *text, size_t length) {
    static word unused[REF_TABLE_WORDS];
    ref_reading r = ref_draw(text, length, unused);
    if (r.number == 21) {
        walked(&w, text, length);
        return why_not_run();
    }
    if (r.number != 4 && r.number != 28) return (ref_diagnosis){r.number, 0, r.beside};
    for (unsigned k = 0; k < w.count; k++)
        if (is_seat(r.beside, k)) return (ref_diagnosis){r.number, r.beside, w.items[k].place};
    return (ref_diagnosis){r.number, r.beside, 0};
}
