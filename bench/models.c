#include "models.h"
#include <stdarg.h>
#include <stdio.h>
#include <stdlib.h>

struct setting settings[SETTINGS] = {{.name = "session"}, {.name = "all"}, {.name = "one"}, {.name = "longest", .longest = true}};

static const char session_text[] =
    "pool(1,start(1,2)|taskSnd(2,1,a,true,{d0:=7},3:<d0>,3)|end(3))|miPool(2,startRcv(3:<?d0>,1)|task(1,1,na_nc,d0=7,{d1:=d0+1},2)|end(2),2)";

static void print(struct setting *s, const char *form, ...) {
    va_list words;
    va_start(words, form);
    s->length += vsnprintf((char *)s->text + s->length, sizeof s->text - s->length, form, words);
    va_end(words);
}

static void sketch(struct setting *s, const char *form, ...) {
    va_list words;
    va_start(words, form);
    s->drawing_length += vsnprintf((char *)s->drawing + s->drawing_length, sizeof s->drawing - s->drawing_length, form, words);
    va_end(words);
}

static void tell(struct setting *s, const char *form, ...) {
    va_list words;
    va_start(words, form);
    s->log_length += vsnprintf((char *)s->log + s->log_length, sizeof s->log - s->log_length, form, words);
    va_end(words);
}

/* Pool p receives names 4p to 4p+3 and sends the next pool's. */
static unsigned received(unsigned p, unsigned k) { return 4 * p + k % 4; }
static unsigned sent(unsigned p, unsigned k) { return 4 * ((p + 1) % 4) + k % 4; }

/* Messages that find their instance, or in the longest text long ones. */
static void print_template(struct setting *s, unsigned p, unsigned k) {
    if (s->longest) print(s, "%u:<4294967295+4294967295,4294967295-4294967295,?d15,d14+d15>", received(p, k));
    else print(s, "%u:<d0,?d7,?d8,%u>", received(p, k), k % 4);
}

static void print_message(struct setting *s, unsigned p, unsigned k) {
    if (s->longest) print(s, "%u:<4294967295+4294967295,4294967295-4294967295,d10+4294967295,d14+d15>", sent(p, k));
    else print(s, "%u:<d0,d1+d2,d3,%u>", sent(p, k), k % 4);
}

static void print_events(struct setting *s, unsigned p, unsigned from, unsigned first, unsigned n) {
    print(s, "|eventBased(%u", from);
    for (unsigned b = 0; b < n; b++) print(s, ",("), print_template(s, p, b), print(s, ",%u)", first + b);
    print(s, ")");
}

/* task k of 16, from an edge to an edge: each kind in each mode comes */
static void print_task(struct setting *s, unsigned p, unsigned k, unsigned from, unsigned to) {
    static const char *const kinds[] = {"task", "taskRcv", "taskSnd"}, *const modes[] = {"a", "na_c", "na_nc"};
    unsigned kind = s->longest ? 1 + k % 2 : k % 3;
    print(s, "|%s(%u,%u,%s,", kinds[kind], from, k + 1, modes[s->longest ? 2 : k / 3 % 3]);
    if (s->longest) print(s, "4294967295=4294967295,{d10:=4294967295+4294967295,d11:=4294967295-4294967295,"
                            "d12:=4294967295+4294967295,d15:=4294967295-4294967295},");
    else print(s, "d0<65535,{d4:=d0+1,d5:=d4+%u,d6:=d5-1,d15:=65535-d6},", k);
    if (kind == 1) print_template(s, p, k), print(s, ",");
    if (kind == 2) print_message(s, p, k), print(s, ",");
    print(s, "%u)", to);
}

static void print_list(struct setting *s, unsigned first, unsigned n) {
    for (unsigned k = 0; k < n; k++) print(s, k ? ",%u" : "{%u", first + k);
    print(s, "}");
}

static void print_between(struct setting *s, unsigned p, bool receives, unsigned k, unsigned from, unsigned to) {
    print(s, "|%s(%u,", receives ? "interRcv" : "interSnd", from);
    if (receives) print_template(s, p, k);
    else print_message(s, p, k);
    print(s, ",%u)", to);
}

/* Splits of the four kinds; in the longest text each waits for messages. */
static void print_choice(struct setting *s, unsigned p) {
    if (s->longest) return print_events(s, p, 18, 19, 8);
    print(s, "|xorSplit(18,{");
    for (unsigned b = 0; b < 7; b++) print(s, "(%u,d0<%u),", 19 + b, 2 + 2 * b);
    print(s, "(26,default)})");
}

static void print_split(struct setting *s, unsigned p) {
    if (s->longest) return print_events(s, p, 35, 36, 4);
    print(s, "|andSplit(35,"), print_list(s, 36, 4), print(s, ")");
}

static void print_end(struct setting *s, unsigned p) {
    if (s->longest) print_events(s, p, 46, 47, 2);
    else print(s, "|xorSplit(46,{(47,d0=65535),(48,default)})");
    print(s, "|%s(47)|end(48),16)", p == 3 ? "terminate" : "end");
}

static void print_pool(struct setting *s, unsigned p) {
    print(s, p ? "|miPool(%u,startRcv(%u:<?d0,?d1,?d2,?d3>,1)" : "miPool(%u,startRcv(%u:<?d0,?d1,?d2,?d3>,1)", p + 1, received(p, 0));
    print_events(s, p, 1, 2, 8);
    for (unsigned k = 0; k < 8; k++) print_task(s, p, k, 2 + k, 10 + k);
    print(s, "|xorJoin("), print_list(s, 10, 8), print(s, ",18)");
    print_choice(s, p);
    for (unsigned k = 8; k < 16; k++) print_task(s, p, k, 11 + k, 19 + k);
    print(s, "|xorJoin("), print_list(s, 27, 8), print(s, ",35)");
    print_split(s, p);
    print_between(s, p, true, 1, 36, 40), print_between(s, p, false, 0, 37, 41), print_between(s, p, true, 2, 38, 42);
    print_between(s, p, false, 1, 39, 43), print_between(s, p, false, 2, 41, 44), print_between(s, p, true, 3, 42, 45);
    print(s, "|andJoin({40,43,44,45},46)");
    print_end(s, p);
}

/* A message's first value is an instance, so that each finds four of its own in every queue, two and two of them equal. */
static void fill_queue(word *q, unsigned m) {
    q[0] = MESSAGES;
    for (unsigned k = 0; k < MESSAGES; k++) {
        word *slot = q + 1 + SLOT_WORDS * k;
        slot[0] = 4, slot[1] = k % INSTANCES, slot[2] = k % 32, slot[3] = 100 + m, slot[4] = m % 4;
    }
}

static void fill_state(struct setting *s, bool every) {
    for (unsigned p = 0; p < POOLS; p++) {
        s->state[p] = INSTANCES;
        for (unsigned i = 0; i < INSTANCES; i++) {
            word *h = instance_at(s->state, p, i);
            for (unsigned e = 0; e < EDGES; e++) h[e] = every || e == 17;
            for (unsigned d = 0; d < 4; d++) h[defined_at(d)] = 1, h[value_at(d)] = d ? d : i;
        }
    }
    s->state[VERSION] = REF_VERSION_20;
    for (unsigned m = 0; m < NAMES; m++) fill_queue(queue_at(s->state, m), m);
}

/* Blanks behind the signs, as many behind each, until the text has its greatest length. */
static void pad(struct setting *s) {
    static uint8_t text[REF_TEXT_MOST];
    size_t length = s->length, blanks = REF_TEXT_MOST - length, put = 0;
    memcpy(text, s->text, length);
    s->length = 0;
    for (size_t k = 0; k < length; k++) {
        s->text[s->length++] = text[k];
        if (k + 1 == length || strchr("|(){},<>?+-=", text[k]))
            for (; put < blanks * (k + 1) / length; put++) s->text[s->length++] = ' ';
    }
}

static void read_text(struct setting *s) {
    ref_reading r = ref_read(s->text, s->length, s->table);
    if (r.number == 0) return;
    fprintf(stderr, "bench: the text of %s is refused with %u, %zu\n", s->name, r.number, r.beside);
    exit(1);
}

static void sketch_flow(struct setting *s, unsigned p, unsigned k, unsigned from, unsigned to, bool conditional) {
    sketch(s, "    <bpmn:sequenceFlow id=\"Flow_%u_%u\" sourceRef=\"Node_%u_%u\" targetRef=\"Node_%u_%u\"", p, k, p, from, p, to);
    if (conditional) sketch(s, ">\n      <bpmn:conditionExpression xsi:type=\"bpmn:tFormalExpression\">d0 = %u</bpmn:conditionExpression>\n    </bpmn:sequenceFlow>\n", k);
    else sketch(s, " />\n");
}

/* Process p as a modelling tool saves it: a start, tasks in a row, between two of them a split whose second branch has a condition, its join, an end. */
static void sketch_process(struct setting *s, unsigned p, unsigned tasks, unsigned splits) {
    unsigned nodes = 2 + tasks + 2 * splits, flow = 0;
    sketch(s, "  <bpmn:process id=\"Process_%u\" isExecutable=\"true\">\n    <bpmn:startEvent id=\"Node_%u_0\" name=\"begins\" />\n", p, p);
    for (unsigned k = 1; k + 1 < nodes; k++)
        sketch(s, k % 3 == 2 && k / 3 < splits ? "    <bpmn:exclusiveGateway id=\"Node_%u_%u\" />\n" : k % 3 == 0 && k / 3 <= splits ? "    <bpmn:exclusiveGateway id=\"Node_%u_%u\" name=\"joins\" />\n"
                                                                                                                            : "    <bpmn:task id=\"Node_%u_%u\" name=\"sets the points\" />\n", p, k);
    sketch(s, "    <bpmn:endEvent id=\"Node_%u_%u\" />\n", p, nodes - 1);
    for (unsigned k = 0; k + 1 < nodes; k++) {
        sketch_flow(s, p, flow++, k, k + 1, false);
        if (k % 3 == 2 && k / 3 < splits) sketch_flow(s, p, flow++, k, k + 1, true);
    }
    sketch(s, "  </bpmn:process>\n");
}

/* The shapes of the nodes, which are skipped. */
static void sketch_shapes(struct setting *s, unsigned processes, unsigned nodes) {
    sketch(s, "  <bpmndi:BPMNDiagram id=\"Diagram\">\n    <bpmndi:BPMNPlane id=\"Plane\" bpmnElement=\"Process_0\">\n");
    for (unsigned p = 0; p < processes; p++)
        for (unsigned k = 0; k < nodes; k++)
            sketch(s, "      <bpmndi:BPMNShape id=\"Shape_%u_%u\" bpmnElement=\"Node_%u_%u\">\n        <dc:Bounds x=\"%u\" y=\"%u\" width=\"100\" height=\"80\" />\n      </bpmndi:BPMNShape>\n", p, k, p, k, 120 * k, 200 * p);
    sketch(s, "    </bpmndi:BPMNPlane>\n  </bpmndi:BPMNDiagram>\n");
}

static void sketch_all(struct setting *s, unsigned processes, unsigned tasks, unsigned splits) {
    sketch(s, "<?xml version=\"1.0\" encoding=\"UTF-8\"?>\n<bpmn:definitions xmlns:bpmn=\"http://www.omg.org/spec/BPMN/20100524/MODEL\" id=\"Definitions\">\n");
    for (unsigned p = 0; p < processes; p++) sketch_process(s, p, tasks, splits);
    sketch_shapes(s, processes, 2 + tasks + 2 * splits);
    sketch(s, "</bpmn:definitions>\n");
}

/* A log of as many posts as a queue holds, each received or not, in the manner of a tool. */
static void tell_all(struct setting *s, unsigned events) {
    tell(s, "<?xml version=\"1.0\" encoding=\"UTF-8\"?>\n<log xes.version=\"1849-2016\" xmlns=\"http://www.xes-standard.org/\">\n\t<trace>\n");
    for (unsigned k = 0; k < events; k++)
        tell(s, "\t\t<event>\n\t\t\t<string key=\"concept:name\" value=\"post %u:%u,2\" />\n\t\t\t<date key=\"time:timestamp\" value=\"2026-10-05T06:%02u:%02u+00:00\" />\n\t\t</event>\n", k % NAMES, k, k / 60 % 60, k % 60);
    tell(s, "\t</trace>\n</log>\n");
}

void make_settings(void) {
    struct setting *session = &settings[0], *all = &settings[1], *one = &settings[2], *longest = &settings[3];
    print(session, "%s", session_text);
    read_text(session);
    ref_fresh(session->table, REF_VERSION_20, session->state);
    for (unsigned p = 0; p < POOLS; p++) print_pool(all, p), print_pool(one, p);
    read_text(all), read_text(one);
    fill_state(all, true), fill_state(one, false);
    for (unsigned p = 0; p < POOLS; p++) print_pool(longest, p);
    pad(longest);
    read_text(longest);
    sketch_all(session, 2, 2, 1), tell_all(session, 8);
    sketch_all(all, POOLS, TASKS, 7), tell_all(all, 350);
    sketch_all(one, POOLS, TASKS, 0), tell_all(one, 350);
}
