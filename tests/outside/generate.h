/* A seeded generator of models, texts and calls. */
#ifndef GENERATE_H
#define GENERATE_H

#include "layout.h"

struct random { uint64_t seed; };

uint32_t draw(struct random *r, uint32_t below);
bool chance(struct random *r, unsigned percent);
/* a value near the ends of 8, 16 and 32 bits, or one that is small in its lower 16 bits alone */
word some_end(struct random *r);
word any_word(struct random *r);

/* a model's text: mostly one that passes every check; returns its length, at most REF_TEXT_MOST */
size_t model_text(struct random *r, char *text);
/* a nested model's text, or one that nearly is: due is 0, or 29 with the number of the first pool that is not, or -1 where that is not known */
size_t nested_text(struct random *r, char *text, int *due, unsigned *of);
/* the last model's text as it must be read, each endSnd an interSnd and an end, into a buffer of 40,000 bytes or more: returns its length, 0 where no edge or element is free */
size_t model_without_end_sends(const char *text, size_t n, char *out);
/* the same text with a few bytes, tokens or numbers changed */
size_t spoiled_text(struct random *r, char *text, size_t n);
/* a drawing, into a buffer of 70,000 bytes or more: returns its length; due is the number that it must get, or -1 where that is not known */
size_t drawing_text(struct random *r, char *text, size_t room, int *due);
/* a drawing that holds as much of one thing as fits, by its ordinal: returns what of, or NULL where there are no more */
const char *worst_text(unsigned which, char *text, size_t *length);
/* the same for logs, under one model, and for model texts */
const char *worst_log(unsigned which, char *text, size_t *length);
const char *worst_notation(unsigned which, char *text, size_t *length);
extern const char worst_model[];
/* a model that is not nested and loops, 2 to 7 branches of a split each going back to before it or on: who goes along every path takes long */
size_t worst_nesting(unsigned branches, char *text);
/* what is known of a log's answer: its number, -1 where that is not known, and what stands beside it */
typedef struct { int number; size_t beside; unsigned own; } log_due;
/* a version, mostly 10 or 20 */
word some_version(struct random *r);
/* a log, for a table that passes every check and a version, into a buffer of 80,000 bytes or more: returns its length; filling: the first listed step, again and again */
size_t log_text(struct random *r, const word *table, word version, bool filling, char *text, size_t room, log_due *due);
/* values that a template is likely to meet */
ref_tuple some_tuple(struct random *r);
/* the name of a step: an accepted one where there is one and chance wants it, else any */
ref_name some_name(struct random *r, const word *table, const word *state);

#endif
