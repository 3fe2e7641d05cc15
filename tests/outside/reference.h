/* An implementation of documents 01 and 02 in plain C, written from the documents alone: the engine's calls are compared with it, and timed against it. */
#ifndef REFERENCE_H
#define REFERENCE_H

#include <stddef.h>
#include <stdint.h>

enum { REF_TABLE_WORDS = 33549, REF_STATE_WORDS = 12341, REF_TEXT_MOST = 65536, REF_ITEMS = 64, REF_ITEM_WORDS = 11, REF_VERSION_10 = 10, REF_VERSION_20 = 20 };

/* a word of a table or a state, and a value: 0 to 4,294,967,295 */
typedef uint32_t ref_word;
typedef struct { ref_word length, values[4]; } ref_tuple;
typedef struct { ref_word pool, instance, element, phase, branch; ref_tuple given; } ref_name;
typedef struct { ref_word number, beside; } ref_verdict;
/* traffic: 0 nothing, 1 consumed, 2 sent */
typedef struct { ref_word number, traffic, name; ref_tuple tuple; } ref_answer;
typedef struct { ref_word number; ref_name name; } ref_listed;
typedef struct { ref_word number; uint16_t steps; ref_word left; } ref_ran;
typedef struct { ref_word number; size_t beside; } ref_reading;
typedef struct { ref_word number; size_t length; } ref_written;
/* the number of a drawing, the rule or check that is broken, the place of what breaks it */
typedef struct { ref_word number; size_t rule, place; } ref_diagnosis;
typedef struct { ref_word number; size_t accepted; } ref_polled;
/* beside: the place of 23, the event's ordinal of 24; own: the number of that event's step or post */
typedef struct { ref_word number; size_t beside; ref_word own; } ref_judged;

/* the length written, the events kept, the bytes dropped */
typedef struct { ref_word number; size_t length, kept, dropped; } ref_repaired;
/* document 02's ninth request: of one pool, how many instances it made, and how many of them are unfinished and finished */
typedef struct { ref_word made, unfinished, finished; } ref_record;

ref_verdict ref_check(const ref_word *table);
/* document 02's seventh request: the state is of version 10 or 20, and keeps it */
ref_word ref_fresh(const ref_word *table, ref_word version, ref_word *state);
/* the records are those of the pools, in text order */
ref_answer ref_step(const ref_word *table, ref_word *state, ref_record *records, size_t pools, ref_name name);
ref_word ref_post(const ref_word *table, ref_word *state, ref_word name, ref_tuple values);
ref_listed ref_list(const ref_word *table, const ref_word *state, size_t ordinal);
ref_ran ref_run(const ref_word *table, ref_word *state, ref_record *records, size_t pools, uint16_t limit);
ref_word ref_figures(const ref_word *table, const ref_word *state, ref_record *records, size_t pools);
ref_reading ref_read(const uint8_t *text, size_t length, ref_word *table);
/* document 02's first request: the text is a drawing */
ref_reading ref_draw(const uint8_t *text, size_t length, ref_word *table);
/* why it is refused */
ref_diagnosis ref_diagnose(const uint8_t *text, size_t length);
ref_written ref_write(const ref_word *table, uint8_t *buffer, size_t length);
/* an item: 1 for a post, else a step; pool or name, instance, element, phase, branch, length, 4 values */
ref_polled ref_poll(const ref_word *table, ref_word *state, ref_record *records, size_t pools, const ref_word *items, size_t count);
/* document 02's fourth request: the text is a log, judged from the fresh state of a version */
ref_judged ref_judge(const ref_word *table, ref_word version, const uint8_t *text, size_t length);
/* the same, and the state of the log's run; from the state that is lent */
ref_judged ref_replay(const ref_word *table, ref_word version, const uint8_t *text, size_t length, ref_word *state);
ref_judged ref_resume(const ref_word *table, ref_word *state, const uint8_t *text, size_t length);
/* a log written as it happens: what stands before the events, the event of a step or a post, at a moment in milliseconds since 1970 or, for 0, at none, and what stands behind them */
ref_written ref_log_begin(uint8_t *buffer, size_t length);
ref_written ref_log_step(ref_name name, ref_answer answer, uint64_t moment, uint8_t *buffer, size_t length);
ref_written ref_log_post(ref_word name, ref_tuple values, uint64_t moment, uint8_t *buffer, size_t length);
ref_written ref_log_end(uint8_t *buffer, size_t length);
/* document 02's tenth request: a log that ended in the middle, as far as it goes */
ref_repaired ref_repair(const uint8_t *text, size_t length, uint8_t *out, size_t room);
/* document 02's twelfth request: 29 with the number of the first pool that is not nested */
ref_verdict ref_nested(const ref_word *table);

#endif
