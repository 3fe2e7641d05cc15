/* Document 02's thirteenth request: four numbers for each name and tuple, all but the queued one read from the history of calls. */
#ifndef ACCOUNTS_H
#define ACCOUNTS_H

#include "layout.h"

struct account { word name; ref_tuple tuple; unsigned posted, sent, consumed, queued; };

/* an empty history */
void open_accounts(void);
/* a post that was accepted; what an accepted step says of itself */
void account_post(word name, ref_tuple values);
void account_answer(ref_answer a);
/* counts what a state's queues hold: the first account that does not balance, NULL where all do */
const struct account *unbalanced(const word *state);
/* what the accounts come to together */
struct account accounts_sum(void);

#endif
