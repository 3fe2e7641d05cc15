#include "accounts.h"

enum { ACCOUNTS = 4096, SLOTS = 8192 };

/* accounts in the order they were opened, found by a number worked out from name and tuple */
static struct account accounts[ACCOUNTS];
static unsigned count;
static uint16_t slots[SLOTS]; /* 0, or one above the account's place */

void open_accounts(void) {
    count = 0;
    memset(slots, 0, sizeof slots);
}

/* equal: length, and the values within it */
static bool is_of(const struct account *a, word name, const ref_tuple *g) {
    return a->name == name && a->tuple.length == g->length && memcmp(a->tuple.values, g->values, g->length * sizeof(word)) == 0;
}

static struct account *account_of(word name, const ref_tuple *g) {
    uint64_t h = name * UINT64_C(31) + g->length;
    for (unsigned j = 0; j < g->length; j++) h = h * UINT64_C(0x9e3779b97f4a7c15) + g->values[j];
    for (unsigned at = (h ^ h >> 29) % SLOTS;; at = (at + 1) % SLOTS) {
        if (slots[at] && !is_of(&accounts[slots[at] - 1], name, g)) continue;
        if (!slots[at]) {
            accounts[count] = (struct account){.name = name, .tuple.length = g->length};
            memcpy(accounts[count].tuple.values, g->values, g->length * sizeof(word));
            slots[at] = ++count;
        }
        return &accounts[slots[at] - 1];
    }
}

void account_post(word name, ref_tuple values) { account_of(name, &values)->posted++; }

void account_answer(ref_answer a) {
    if (a.number || !a.traffic) return;
    struct account *x = account_of(a.name, &a.tuple);
    a.traffic == 1 ? x->consumed++ : x->sent++;
}

const struct account *unbalanced(const word *state) {
    for (unsigned k = 0; k < count; k++) accounts[k].queued = 0;
    for (unsigned m = 0; m < NAMES; m++) {
        const word *q = queue_at((word *)state, m);
        for (unsigned k = 0; k < q[0]; k++) {
            ref_tuple g;
            memcpy(&g, q + 1 + SLOT_WORDS * k, sizeof g);
            account_of(m, &g)->queued++;
        }
    }
    for (unsigned k = 0; k < count; k++)
        if (accounts[k].posted + accounts[k].sent != accounts[k].queued + accounts[k].consumed) return &accounts[k];
    return NULL;
}

struct account accounts_sum(void) {
    struct account all = {0};
    for (unsigned k = 0; k < count; k++)
        all.posted += accounts[k].posted, all.sent += accounts[k].sent, all.consumed += accounts[k].consumed, all.queued += accounts[k].queued;
    return all;
}
