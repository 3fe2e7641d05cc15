/* A decoder's loop: a model is read once; what comes in is posted, and every step that is accepted is taken. What a step sends goes on to the route desk, and so
   does, once a turn, the line of its figures: they are kept up to date by the steps, and nobody counts. */
#include "cuttingvale.h"
#include <stdio.h>
#include <string.h>

/* 0: a request, vehicle and direction; 1: to the desk, vehicle and route; 2: the desk's answer, vehicle and 1 where it is granted; 3: set the route; 4: refused */
static const char model[] =
    "miPool(1,startRcv(0:<?d0,?d1>,1)|taskSnd(1,1,a,true,{d2:=d1+40},1:<d0,d2>,2)|interRcv(2,2:<d0,?d3>,3)|"
    "xorSplit(3,{(4,d3=1),(5,default)})|interSnd(4,3:<d0,d2>,6)|interSnd(5,4:<d0>,7)|xorJoin({6,7},8)|end(8),4)";

static uint32_t table[CV_TABLE_WORDS], state[CV_STATE_WORDS];
static cv_record records[1];

#define TABLE table, CV_TABLE_WORDS
#define STATE state, CV_STATE_WORDS
#define RECORDS records, 1

struct arrival { uint32_t name; cv_tuple values; };

static void print_message(const char *word, uint32_t name, cv_tuple m) {
    printf("%s %u:", word, name);
    for (unsigned k = 0; k < m.length; k++) printf(k ? ",%u" : "%u", m.values[k]);
    putchar('\n');
}

static unsigned post(const struct arrival *arrivals, size_t n) {
    for (size_t k = 0; k < n; k++) {
        print_message("arrived", arrivals[k].name, arrivals[k].values);
        uint32_t number = cv_post(TABLE, STATE, arrivals[k].name, arrivals[k].values);
        if (number) return number;
    }
    return CV_ACCEPTED;
}

/* The first listed step, until there is none. */
static unsigned take_steps(void) {
    static const char *const words[] = {"", "consumed", "sent"};
    for (;;) {
        cv_listed next = cv_list(TABLE, STATE, 0);
        if (next.number) return next.number == CV_NOT_LISTED ? CV_ACCEPTED : next.number;
        cv_answer a = cv_step(TABLE, STATE, RECORDS, next.name);
        if (a.number) return a.number;
        printf("instance %u, element %u: ", next.name.instance, next.name.element);
        if (a.traffic == CV_NOTHING) puts("no message");
        else print_message(words[a.traffic], a.name, a.tuple);
    }
}

/* One turn of the loop. */
static unsigned decode(const struct arrival *arrivals, size_t n) {
    unsigned number = post(arrivals, n);
    if (!number) number = take_steps();
    printf("desk: %u made, %u unfinished, %u finished\n", records[0].made, records[0].unfinished, records[0].finished);
    return number;
}

int main(void) {
    static const struct arrival requests[] = {{0, {2, {1234567, 2}}}, {0, {2, {1234567, 2}}}}, answers[] = {{2, {2, {1234567, 1}}}, {2, {2, {1234567, 0}}}};
    cv_reading read = cv_read((const uint8_t *)model, strlen(model), TABLE);
    if (read.number) return printf("refused %u at %zu\n", read.number, read.beside), 1;
    unsigned number = cv_fresh(TABLE, CV_VERSION_20, STATE);
    if (!number) number = cv_figures(TABLE, STATE, RECORDS);
    if (!number) number = decode(requests, 2);
    if (!number) number = decode(answers, 2);
    if (number) return printf("refused %u\n", number), 1;
    return 0;
}
