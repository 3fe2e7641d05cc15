/* Every call of the header, each accepted and refused, by a program that knows the header alone. C11 and C++11: it is compiled as both. Prints how many answers were as
   the header says, or the first that was not, and ends with 1. */
#include "cuttingvale.h"
#include <stdio.h>
#include <stdlib.h>
#include <string.h>

static uint32_t table[CV_TABLE_WORDS], state[CV_STATE_WORDS], kept[CV_STATE_WORDS], items[CV_POLL_WORDS];
static uint8_t buffer[CV_TEXT_MOST];
static cv_record desk[2];
static unsigned answers;

#define TABLE table, CV_TABLE_WORDS
#define STATE state, CV_STATE_WORDS
#define DESK desk, 2

static void is(const char *what, size_t found, size_t due) {
    answers++;
    if (found == due) return;
    printf("%s: %zu, where the header says %zu\n", what, found, due);
    exit(1);
}

static void stays(const char *what) { is(what, memcmp(state, kept, sizeof state), 0); }

static cv_tuple message(uint32_t length, uint32_t first, uint32_t second) {
    cv_tuple t;
    memset(&t, 0, sizeof t);
    t.length = length, t.values[0] = first, t.values[1] = second;
    return t;
}

static cv_name step_of(uint32_t pool, uint32_t element, cv_tuple given) {
    cv_name n;
    memset(&n, 0, sizeof n);
    n.pool = pool, n.element = element, n.given = given;
    return n;
}

static const uint8_t *bytes(const char *text) { return (const uint8_t *)text; }

static cv_reading read_text(const char *text) { return cv_read(bytes(text), strlen(text), TABLE); }

static const char model[] = "pool(1,start(1,2)|interSnd(2,3:<7,8>,3)|end(3))|miPool(2,startRcv(3:<?d0,?d1>,1)|end(1),2)";

/* a table: read, checked, asked whether it is nested, written */
static void a_model(void) {
    cv_reading r = cv_read(NULL, 0, NULL, 0);
    is("read, no table", r.number, CV_BAD), is("beside it", r.beside, 0);
    is("read, too long and no table", cv_read(buffer, CV_TEXT_MOST + 1, NULL, 0).number, CV_BAD);
    is("read, too long", cv_read(buffer, CV_TEXT_MOST + 1, TABLE).number, CV_TOO_LONG);
    r = cv_read(NULL, 0, TABLE);
    is("read, no text", r.number, CV_MISPLACED), is("its place", r.beside, 0);
    r = read_text("pool(1,start(1,2)|end(49))");
    is("read, edge 49", r.number, CV_EXCESSIVE), is("its place", r.beside, 22);
    r = read_text("pool(1,start(1,2)|end(3))");
    is("read, a check", r.number, CV_CHECK_BROKEN), is("the check is told", r.beside != 0, 1);
    is("the table stays", table[0], 0);
    is("check, nothing read", cv_check(TABLE).number, CV_BAD);
    is("read", read_text(model).number, CV_ACCEPTED);
    is("the pools", table[0], 2), is("the second one's number", table[CV_POOL(1)], 2), is("its limit", table[CV_POOL(1) + 1], 2);
    is("the kind of an element", table[CV_ELEMENT(0, 1)], 7);
    is("check", cv_check(TABLE).number, CV_ACCEPTED), is("check, a word less", cv_check(table, CV_TABLE_WORDS - 1).number, CV_BAD);
    is("nested", cv_nested(TABLE).number, CV_ACCEPTED), is("nested, no table", cv_nested(NULL, 0).number, CV_BAD);
    cv_written w = cv_write(TABLE, NULL, 0);
    is("write, no room", w.number, CV_TOO_SHORT), is("its length", w.length, 0);
    w = cv_write(TABLE, buffer, sizeof buffer);
    is("write", w.number, CV_ACCEPTED), is("its length", w.length, strlen(model) + 1), is("its bytes", memcmp(buffer, model, w.length - 1), 0), is("its newline", buffer[w.length - 1], '\n');
    is("write, no table", cv_write(NULL, 0, buffer, sizeof buffer).number, CV_BAD);
}

static const char drawing[] = "<definitions><process><startEvent id='a'/><endEvent id='b'/><sequenceFlow sourceRef='a' targetRef='b'/></process></definitions>";

static void a_drawing(void) {
    is("draw, no table", cv_draw(bytes(drawing), strlen(drawing), NULL, 0).number, CV_BAD);
    is("draw, too long", cv_draw(buffer, CV_DRAWING_MOST + 1, TABLE).number, CV_TOO_LONG);
    cv_reading r = cv_draw(NULL, 0, TABLE);
    is("draw, no text", r.number, CV_NOT_XML), is("its place", r.beside, 0);
    r = cv_draw(bytes("<definitions><process><task/></process></definitions>"), 53, TABLE);
    is("draw, a task alone", r.number, CV_NOT_RUN), is("beside it", r.beside, 0);
    cv_diagnosis d = cv_diagnose(bytes("<definitions><process><task/></process></definitions>"), 53);
    is("diagnose, a task alone", d.number, CV_NOT_RUN), is("its rule", d.rule, CV_RULE_KIND), is("its place", d.place, 22);
    d = cv_diagnose(bytes("<definitions><process/></definitions>"), 37);
    is("diagnose, no start", d.number, CV_CHECK_BROKEN), is("its check", d.rule, 2), is("its place", d.place, 13);
    is("diagnose, no text", cv_diagnose(NULL, 0).number, CV_NOT_XML), is("diagnose, too long", cv_diagnose(buffer, CV_DRAWING_MOST + 1).number, CV_TOO_LONG);
    is("diagnose", cv_diagnose(bytes(drawing), strlen(drawing)).number, CV_ACCEPTED);
    is("draw", cv_draw(bytes(drawing), strlen(drawing), TABLE).number, CV_ACCEPTED), is("its pools", table[0], 1);
    is("read again", read_text(model).number, CV_ACCEPTED);
}

static void a_state(void) {
    is("fresh, no state", cv_fresh(TABLE, CV_VERSION_20, NULL, 0), CV_BAD);
    is("fresh, version 30", cv_fresh(TABLE, 30, STATE), CV_OTHER_VERSION), stays("its state");
    is("fresh", cv_fresh(TABLE, CV_VERSION_20, STATE), CV_ACCEPTED);
    is("the version", state[CV_VERSION], CV_VERSION_20), is("made", state[0], 1), is("a token", state[CV_INSTANCE(0, 0)], 1);
    is("figures, no records", cv_figures(TABLE, STATE, NULL, 0), CV_NOT_COUNTED);
    is("figures, no state", cv_figures(TABLE, NULL, 0, DESK), CV_BAD);
    is("figures", cv_figures(TABLE, STATE, DESK), CV_ACCEPTED), is("unfinished", desk[0].unfinished, 1), is("none made", desk[1].made, 0);
    memcpy(kept, state, sizeof kept);
    state[CV_QUEUE(5) + 1] = 1;
    is("a word that is not in use", cv_list(TABLE, STATE, 0).number, CV_BAD);
    memcpy(state, kept, sizeof state);
}

static void steps(void) {
    cv_tuple none = message(0, 0, 0);
    is("post, name 16", cv_post(TABLE, STATE, 16, none), CV_NOT_POSTABLE), stays("its state");
    is("post, no state", cv_post(TABLE, NULL, 0, 3, none), CV_BAD);
    cv_listed l = cv_list(TABLE, STATE, 1);
    is("list, behind the last", l.number, CV_NOT_LISTED), is("its name", l.name.pool, 0);
    is("list, no table", cv_list(NULL, 0, NULL, 0, 0).number, CV_BAD);
    l = cv_list(TABLE, STATE, 0);
    is("list", l.number, CV_ACCEPTED), is("its pool", l.name.pool, 1), is("its element", l.name.element, 0);
    cv_answer a = cv_step(TABLE, STATE, DESK, step_of(3, 0, none));
    is("step, pool 3", a.number, CV_NO_SUCH), is("its traffic", a.traffic, CV_NOTHING), stays("its state");
    is("step, no records", cv_step(TABLE, STATE, NULL, 0, l.name).number, CV_NOT_COUNTED);
    is("step, no table", cv_step(NULL, 0, NULL, 0, NULL, 0, l.name).number, CV_BAD);
    is("step", cv_step(TABLE, STATE, DESK, l.name).number, CV_ACCEPTED);
    a = cv_step(TABLE, STATE, DESK, step_of(1, 1, none));
    is("step, a send", a.number, CV_ACCEPTED), is("its traffic", a.traffic, CV_SENT), is("its name", a.name, 3), is("its value", a.tuple.values[1], 8);
    is("the queue", state[CV_QUEUE(3)], 1), is("its message's length", state[CV_QUEUE(3) + 1], 2), is("its value", state[CV_QUEUE(3) + 2], 7);
    a = cv_step(TABLE, STATE, DESK, step_of(2, 0, message(2, 7, 9)));
    is("step, a message that is not there", a.number, CV_NOT_QUEUED);
    a = cv_step(TABLE, STATE, DESK, step_of(2, 0, message(2, 7, 8)));
    is("step, a reception", a.number, CV_ACCEPTED), is("its traffic", a.traffic, CV_CONSUMED);
    is("made by it", desk[1].made, 1), is("its field", state[CV_INSTANCE(1, 0) + 81], 7);
    is("post", cv_post(TABLE, STATE, 3, message(2, 1, 2)), CV_ACCEPTED);
}

static void polls_and_runs(void) {
    uint32_t *item = items + CV_ITEM(1);
    items[0] = 1, items[1] = 3, items[6] = 1, items[7] = 5;
    item[0] = 0, item[1] = 9;
    memcpy(kept, state, sizeof kept);
    is("poll, 65 items and no table", cv_poll(NULL, 0, NULL, 0, NULL, 0, NULL, 0, CV_ITEMS + 1).number, CV_TOO_MANY);
    is("poll, no items' words", cv_poll(TABLE, STATE, DESK, NULL, 0, 0).number, CV_BAD);
    is("poll, no records", cv_poll(TABLE, STATE, NULL, 0, items, CV_POLL_WORDS, 0).number, CV_NOT_COUNTED), stays("its state");
    cv_polled p = cv_poll(TABLE, STATE, DESK, items, CV_POLL_WORDS, 2);
    is("poll, its second item", p.number, CV_NO_SUCH), is("accepted before it", p.accepted, 1), is("queued by it", state[CV_QUEUE(3)], 2);
    cv_ran r = cv_run(NULL, 0, NULL, 0, NULL, 0, 9);
    is("run, no table", r.number, CV_BAD), is("its steps", r.steps, 0), is("and left", r.left, 0);
    is("run, no records", cv_run(TABLE, STATE, NULL, 0, 9).number, CV_NOT_COUNTED);
    r = cv_run(TABLE, STATE, DESK, 1);
    is("run, one step", r.number, CV_ACCEPTED), is("its steps", r.steps, 1), is("and left", r.left, 1);
    r = cv_run(TABLE, STATE, DESK, 65535);
    is("run", r.number, CV_ACCEPTED), is("its steps", r.steps, 3), is("and left", r.left, 0), is("all finished", desk[0].unfinished + desk[1].unfinished, 0);
}

#define EVENT(line) "<event><string key='concept:name' value='" line "'/></event>"

static void a_log(void) {
    const char *log = "<log><trace>" EVENT("1 0 0 0 0 -") EVENT("1 0 1 0 0 !3:7,8") "</trace></log>", *untrue = "<log><trace>" EVENT("1 0 1 0 0 -") "</trace></log>";
    size_t length = strlen(log);
    is("judge, no table", cv_judge(NULL, 0, CV_VERSION_20, bytes(log), length).number, CV_BAD);
    is("judge, version 30", cv_judge(TABLE, 30, bytes(log), length).number, CV_OTHER_VERSION);
    is("judge, no text", cv_judge(TABLE, CV_VERSION_20, NULL, 0).number, CV_NOT_A_LOG);
    cv_judged j = cv_judge(TABLE, CV_VERSION_10, bytes(untrue), strlen(untrue));
    is("judge, at fault", j.number, CV_AT_FAULT), is("the event", j.beside, 0), is("its own number", j.own, CV_NOT_PERMITTED);
    is("judge", cv_judge(TABLE, CV_VERSION_20, bytes(log), length).number, CV_ACCEPTED);
    is("repair, nothing", cv_repair(NULL, 0, NULL, 0).number, CV_NOT_REPAIRED);
    is("repair, no room", cv_repair(bytes(log), length, NULL, 0).number, CV_TOO_SHORT);
    cv_repaired r = cv_repair(bytes(log), length - 20, buffer, sizeof buffer);
    is("repair", r.number, CV_ACCEPTED), is("its events", r.kept, 1), is("the length is the log's without the second", r.length, length - strlen(EVENT("1 0 1 0 0 !3:7,8")));
    is("it is a log", cv_judge(TABLE, CV_VERSION_20, buffer, r.length).number, CV_ACCEPTED);
}

/* a log that is written piece by piece, replayed, and gone on with from a checkpoint */
static size_t put(size_t at, cv_written w) {
    is("a piece", w.number, CV_ACCEPTED), is("it is short", w.length <= CV_PIECE_MOST, 1);
    return at + w.length;
}

#define REST(at) buffer + (at), sizeof buffer - (at)

static void a_journal(void) {
    cv_name first = step_of(1, 0, message(0, 0, 0));
    cv_answer a;
    is("fresh", cv_fresh(TABLE, CV_VERSION_20, STATE), CV_ACCEPTED), is("figures", cv_figures(TABLE, STATE, DESK), CV_ACCEPTED);
    memcpy(kept, state, sizeof kept);
    a = cv_step(TABLE, STATE, DESK, first);
    is("log, no room", cv_log_begin(NULL, 0).number + cv_log_step(first, a, 0, NULL, 0).number + cv_log_post(3, message(1, 5, 0), 0, NULL, 0).number + cv_log_end(NULL, 0).number, 4 * CV_TOO_SHORT);
    size_t n = put(0, cv_log_begin(REST(0)));
    n = put(n, cv_log_step(first, a, 1760000000000u, REST(n)));
    n = put(n, cv_log_end(REST(n)));
    memcpy(state, kept, sizeof state);
    is("replay, no state", cv_replay(TABLE, CV_VERSION_20, buffer, n, NULL, 0).number, CV_BAD);
    is("replay, version 30", cv_replay(TABLE, 30, buffer, n, STATE).number, CV_OTHER_VERSION);
    is("replay, no text", cv_replay(TABLE, CV_VERSION_20, NULL, 0, STATE).number, CV_NOT_A_LOG), stays("its state");
    is("replay", cv_replay(TABLE, CV_VERSION_20, buffer, n, STATE).number, CV_ACCEPTED), is("its token", state[CV_INSTANCE(0, 0) + 1], 1);
    cv_judged j = cv_resume(TABLE, STATE, buffer, n);
    is("resume, the same again", j.number, CV_AT_FAULT), is("the event", j.beside, 0), is("its own number", j.own, CV_NOT_PERMITTED);
    is("resume, no state", cv_resume(TABLE, NULL, 0, buffer, n).number, CV_BAD);
    n = put(0, cv_log_begin(REST(0)));
    n = put(n, cv_log_post(3, message(1, 5, 0), 0, REST(n)));
    n = put(n, cv_log_end(REST(n)));
    is("resume", cv_resume(TABLE, STATE, buffer, n).number, CV_ACCEPTED), is("queued", state[CV_QUEUE(3)], 1);
}

int main(void) {
    is("the number of the layouts", CV_NUMBERED(cv_abi_, CV_ABI)(), CV_ABI);
#ifdef CV_VERSION_MAJOR
    is("the version", cv_version(), 10000 * CV_VERSION_MAJOR + 100 * CV_VERSION_MINOR + CV_VERSION_PATCH);
#endif
    a_model();
    a_drawing();
    a_state();
    steps();
    polls_and_runs();
    a_log();
    a_journal();
    printf("every call of the header, %u answers, as it says\n", answers);
    return 0;
}
