/* The models, texts and states that are timed. */
#ifndef MODELS_H
#define MODELS_H

#include "layout.h"

/* A text, the table it is read as, and a state that fits; of the longest text only these two. A drawing and a lawful log, of models of their own kind, as long as such a model's are. */
struct setting {
    const char *name;
    word table[REF_TABLE_WORDS], state[REF_STATE_WORDS];
    uint8_t text[REF_TEXT_MOST], drawing[REF_TEXT_MOST], log[REF_TEXT_MOST];
    size_t length, drawing_length, log_length;
    bool longest;
};

enum { SETTINGS = 4 };

/* session: document 01's, fresh. all, one: 4 pools of 32 elements and 48 edges, 16 instances each, queues full; a token on every edge, or on one of each
   instance. longest: a text of 65,536 bytes for a model of as many elements, its expressions as long as they can be, blanks between its tokens. */
extern struct setting settings[SETTINGS];

void make_settings(void);

#endif
