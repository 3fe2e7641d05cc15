/* What each call needs of the stack: on a stack of its own that was filled before, how far below the caller it was touched, the most over the largest models and the texts that
   hold as much of one thing as fits. A line for each call: the bytes, and what the header says; ends with 1 where that is less. */
#include "cuttingvale.h"
#include "generate.h"
#include "models.h"
#include <stdio.h>
#include <stdlib.h>
#include <ucontext.h>

enum { STACK = 1 << 20, PAINT = 0xa5 };

static uint8_t stack[STACK] __attribute__((aligned(64)));
static uint8_t *called_at;
static ucontext_t here, there;
static void (*asked)(void);

static word table[REF_TABLE_WORDS], state[REF_STATE_WORDS], items[CV_POLL_WORDS];
static cv_record records[POOLS];
static char text[REF_TEXT_MOST + 64];
static uint8_t buffer[REF_TEXT_MOST];
static size_t length, ordinal;
static cv_name name;
static cv_answer answer = {0, CV_SENT, 15, {4, {4294967295, 4294967295, 4294967295, 4294967295}}};

#define TABLE table, CV_TABLE_WORDS
#define STATE state, CV_STATE_WORDS
#define DESK records, table[0]
#define TEXT (const uint8_t *)text, length

static void check(void) { cv_check(TABLE); }
static void fresh(void) { cv_fresh(TABLE, CV_VERSION_20, STATE); }
static void step(void) { cv_step(TABLE, STATE, DESK, name); }
static void post(void) { cv_post(TABLE, STATE, 3, name.given); }
static void list(void) { cv_list(TABLE, STATE, ordinal); }
static void run(void) { cv_run(TABLE, STATE, DESK, 100); }
static void figures(void) { cv_figures(TABLE, STATE, DESK); }
static void read_text(void) { cv_read(TEXT, TABLE); }
static void draw_text(void) { cv_draw(TEXT, TABLE); }
static void diagnose(void) { cv_diagnose(TEXT); }
static void write_text(void) { cv_write(TABLE, buffer, sizeof buffer); }
static void poll(void) { cv_poll(TABLE, STATE, DESK, items, CV_POLL_WORDS, CV_ITEMS); }
static void judge(void) { cv_judge(TABLE, CV_VERSION_20, TEXT); }
static void repair(void) { cv_repair(TEXT, buffer, sizeof buffer); }
static void nested(void) { cv_nested(TABLE); }
static void replay(void) { cv_replay(TABLE, CV_VERSION_20, TEXT, STATE); }
static void resume(void) { cv_resume(TABLE, STATE, TEXT); }
static void log_begin(void) { cv_log_begin(buffer, sizeof buffer); }
static void log_step(void) { cv_log_step(name, answer, 253402300799999u, buffer, sizeof buffer); }
static void log_post(void) { cv_log_post(15, answer.tuple, 253402300799999u, buffer, sizeof buffer); }
static void log_end(void) { cv_log_end(buffer, sizeof buffer); }

/* the most that each has needed, and what the header says */
static struct { const char *call; void (*ask)(void); size_t says, most; } calls[] = {
    {"check", check, CV_STACK_CHECK, 0}, {"fresh", fresh, CV_STACK_FRESH, 0}, {"step", step, CV_STACK_STEP, 0}, {"post", post, CV_STACK_POST, 0},
    {"list", list, CV_STACK_LIST, 0}, {"run", run, CV_STACK_RUN, 0}, {"figures", figures, CV_STACK_FIGURES, 0}, {"read", read_text, CV_STACK_READ, 0},
    {"draw", draw_text, CV_STACK_DRAW, 0}, {"diagnose", diagnose, CV_STACK_DIAGNOSE, 0}, {"write", write_text, CV_STACK_WRITE, 0}, {"poll", poll, CV_STACK_POLL, 0}, {"judge", judge, CV_STACK_JUDGE, 0},
    {"repair", repair, CV_STACK_REPAIR, 0}, {"nested", nested, CV_STACK_NESTED, 0}, {"replay", replay, CV_STACK_REPLAY, 0}, {"resume", resume, CV_STACK_RESUME, 0},
    {"log_begin", log_begin, CV_STACK_LOG, 0}, {"log_step", log_step, CV_STACK_LOG, 0}, {"log_post", log_post, CV_STACK_LOG, 0}, {"log_end", log_end, CV_STACK_LOG, 0},
};
enum { CALLS = sizeof calls / sizeof *calls };

static void on_it(void) {
    called_at = __builtin_frame_address(0);
    asked();
    __asm__ volatile(""); /* so that it is a call, and no jump */
}

/* what one call touches, the words that it is given there and its return address with it */
static void measure(void (*ask)(void)) {
    memset(stack, PAINT, sizeof stack);
    getcontext(&there);
    there.uc_stack.ss_sp = stack, there.uc_stack.ss_size = sizeof stack, there.uc_link = &here;
    asked = ask;
    makecontext(&there, on_it, 0);
    swapcontext(&here, &there);
    size_t k = 0;
    while (stack[k] == PAINT) k++;
    for (unsigned c = 0; c < CALLS; c++)
        if (calls[c].ask == ask && (size_t)(called_at - stack) - k > calls[c].most) calls[c].most = called_at - stack - k;
}

static void lend(const struct setting *s) {
    memcpy(table, s->table, sizeof table);
    memcpy(state, s->state, sizeof state);
    cv_figures(TABLE, STATE, DESK);
}

/* every step that is listed, on the state as it was; the others once */
static void on_model(const struct setting *s) {
    lend(s);
    measure(check), measure(nested), measure(write_text), measure(figures);
    for (ordinal = 0; cv_list(TABLE, STATE, ordinal).number == 0; ordinal++) {
        name = cv_list(TABLE, STATE, ordinal).name;
        measure(step), lend(s);
        if (ordinal % 16 == 0) measure(list);
        memcpy(items + CV_ITEM(ordinal % CV_ITEMS) + 1, &name, sizeof name);
        if (ordinal % CV_ITEMS == CV_ITEMS - 1) measure(poll), lend(s);
    }
    measure(list), measure(poll), lend(s);
    word *q = state + CV_QUEUE(3);
    memset(q, 0, 321 * sizeof *q);
    measure(post), measure(run), measure(fresh);
    memcpy(text, s->text, length = s->length);
    measure(read_text);
    memcpy(text, s->log, length = s->log_length);
    measure(judge), measure(repair);
    memcpy(text, s->drawing, length = s->drawing_length);
    measure(draw_text), measure(diagnose);
}

int main(void) {
    const char *of;
    make_settings();
    for (unsigned k = 0; k < SETTINGS; k++)
        if (!settings[k].longest) on_model(&settings[k]);
        else memcpy(text, settings[k].text, length = settings[k].length), measure(read_text);
    for (unsigned k = 0; (of = worst_notation(k, text, &length)); k++) measure(read_text);
    for (unsigned k = 0; (of = worst_text(k, text, &length)); k++) measure(draw_text), measure(diagnose);
    cv_read((const uint8_t *)worst_model, strlen(worst_model), TABLE);
    for (unsigned k = 0; (of = worst_log(k, text, &length)); k++) {
        measure(judge), measure(replay), measure(repair), cv_fresh(TABLE, CV_VERSION_20, STATE), measure(resume);
        length -= 3, measure(repair);
    }
    measure(log_begin), measure(log_step), measure(log_post), measure(log_end);
    for (unsigned branches = 2; branches < 8; branches++) length = worst_nesting(branches, text), cv_read(TEXT, TABLE), measure(nested);
    bool wrong = false;
    for (unsigned c = 0; c < CALLS; c++) {
        printf("%-9s %7zu bytes of stack, the header says %7zu\n", calls[c].call, calls[c].most, calls[c].says);
        wrong = wrong || calls[c].most > calls[c].says;
    }
    if (wrong) printf("a call needs more of the stack than include/cuttingvale.h says\n");
    return wrong;
}
