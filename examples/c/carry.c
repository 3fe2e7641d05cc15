/* A state that was saved before states had a version, 12,308 words: a field's flag at 80 + d and its value at 96 + d of an instance, the queues behind the
   instances. It goes on as a state of version 20; the desk's records are counted once. */
#include "cuttingvale.h"
#include <stdio.h>
#include <string.h>

#define SAVED_WORDS 12308

static void carry(const uint32_t *saved, uint32_t *state) {
    memset(state, 0, CV_STATE_WORDS * sizeof *state);
    memcpy(state, saved, 4 * sizeof *state);
    for (unsigned i = 0; i < 64; i++) {
        const uint32_t *from = saved + CV_INSTANCE(0, i);
        uint32_t *to = state + CV_INSTANCE(0, i);
        memcpy(to, from, 80 * sizeof *to);
        for (unsigned d = 0; d < 16; d++) to[80 + 2 * d] = from[80 + d], to[81 + 2 * d] = from[96 + d];
    }
    state[CV_VERSION] = CV_VERSION_20;
    memcpy(state + CV_QUEUE(0), saved + 7172, 16 * 321 * sizeof *state);
}

/* As it was saved: instance 1 of pool 2 waits at its task, d0 is 7 and d15 is 4,294,967,295; a message 3:9 is queued, and a message 15:. */
static const struct { unsigned place; uint32_t word; } words[] = {
    {0, 1}, {1, 2}, {4, 1}, {4 + 1792 + 112, 1}, {4 + 1792 + 112 + 80, 1}, {4 + 1792 + 112 + 96, 7}, {4 + 1792 + 112 + 95, 1},
    {4 + 1792 + 112 + 111, 4294967295u}, {7172 + 321 * 3, 1}, {7173 + 321 * 3, 1}, {7174 + 321 * 3, 9}, {7172 + 321 * 15, 1},
};
static const char model[] = "pool(1,start(1,2)|end(2))|miPool(2,startRcv(3:<?d0>,1)|taskSnd(1,1,na_c,d0=7,{},4:<d0,d15>,2)|end(2),3)";

static uint32_t saved[SAVED_WORDS], state[CV_STATE_WORDS], table[CV_TABLE_WORDS];
static cv_record records[2];

static void print_answer(const char *what, cv_answer a) {
    printf("%s: %u", what, a.number);
    for (unsigned k = 0; k < a.tuple.length; k++) printf(" %u", a.tuple.values[k]);
    putchar('\n');
}

int main(void) {
    cv_name phase = {2, 1, 1, 1, 0, {0, {0}}}, message = {2, 2, 0, 0, 0, {1, {9}}};
    for (unsigned k = 0; k < sizeof words / sizeof *words; k++) saved[words[k].place] = words[k].word;
    cv_read((const uint8_t *)model, strlen(model), table, CV_TABLE_WORDS);
    printf("as it was saved: %u\n", cv_list(table, CV_TABLE_WORDS, saved, SAVED_WORDS, 0).number);
    carry(saved, state);
    printf("the desk's figures: %u\n", cv_figures(table, CV_TABLE_WORDS, state, CV_STATE_WORDS, records, 2));
    for (; phase.phase <= 3; phase.phase++) print_answer("a phase of the task", cv_step(table, CV_TABLE_WORDS, state, CV_STATE_WORDS, records, 2, phase));
    print_answer("the message 3:9", cv_step(table, CV_TABLE_WORDS, state, CV_STATE_WORDS, records, 2, message));
    printf("instances: %u, queued in 15: %u, version %u\n", state[1], state[CV_QUEUE(15)], state[CV_VERSION]);
    return 0;
}
