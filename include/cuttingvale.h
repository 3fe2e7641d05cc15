/* Cuttingvale: a process engine for tram junction controllers, for C11 or C++11 on x86-64 with the calls of System V. Link with libcuttingvale.a: from a C library it
   takes memcpy and memset, and nothing else is needed.

   The caller lends a table (a model) and a state (its instances and queues), two blocks of 32-bit words, and keeps them. No call trusts them: each checks
   what it is lent, refuses with a number, and a refused call changes no byte it was lent, but that a poll keeps the items it accepted before the refused
   one. No call keeps a pointer, allocates, locks or fails to end.

   Each block comes with its length in words. A length other than CV_TABLE_WORDS or CV_STATE_WORDS is refused with 10 before anything is looked at, a text's length
   too, so that 10 goes before 1; only 22 goes before it. So a null pointer with length 0 is safe for a block, and as safe for a text, a buffer and records: an empty
   text, no room, no records. What a length cannot say is the caller's word: that the block has that many words, that a text or a buffer has that
   many bytes, that there are that many records, that a block and records stand at a multiple of 4 (texts and buffers stand anywhere), and that two blocks lent to
   one call do not overlap.

   Calls are re-entrant: the library has no data that it writes. Threads may lend one table at the same time where each call has it as const; a state, with its
   records, is lent to one call at a time, and so is a table that is being read into.

   Beside a refusal stands 0, an empty message or name, unless the type of the answer says what does.

   The calls that take steps are lent the route desk's records too, one for each pool in the text's order, and bring them up to date; cv_figures sets them. */
#ifndef CUTTINGVALE_H
#define CUTTINGVALE_H

#include <stddef.h>
#include <stdint.h>

#ifdef __cplusplus
extern "C" {
#define CV_STATIC_ASSERT static_assert
#else
#define CV_STATIC_ASSERT _Static_assert
#endif

/* The release; the versions of a state are others. */
#define CV_VERSION_MAJOR 2
#define CV_VERSION_MINOR 0
#define CV_VERSION_PATCH 0

#define CV_TABLE_WORDS 33549
#define CV_STATE_WORDS 12341
#define CV_VERSION_10 10
#define CV_VERSION_20 20
#define CV_TEXT_MOST 65536
#define CV_DRAWING_MOST 65536
#define CV_LOG_MOST 65536
#define CV_PIECE_MOST 477
#define CV_ITEMS 64
#define CV_ITEM_WORDS 11
#define CV_POLL_WORDS 704

/* TIME, measured and not proved: to read a text, a drawing or a log, accepted or refused, takes at most CV_INSTRUCTIONS_MOST instructions for each of CV_TEXT_MOST bytes in the
   dearest that tests/outside/run --worst makes; ordinary ones take far fewer (docs/SPEED.md). cv_diagnose draws, and goes through a drawing once more for each rule: it is for the desk, and not under this bound. */
#define CV_INSTRUCTIONS_MOST 3400

/* WHICH LIBRARY. CV_ABI counts the layouts that table, state and what crosses in a call have had. The library has a function whose name ends in its number, which gives it;
   a program that was compiled with the header of another number does not link. Who declares the calls otherwise than by this header refers to that function himself.
   cv_version gives the library's version: 10,000 for its first number, 100 for its second, 1 for its third. */
#define CV_ABI 4
#define CV_JOINED(name, number) name##number
#define CV_NUMBERED(name, number) CV_JOINED(name, number)
uint32_t CV_NUMBERED(cv_abi_, CV_ABI)(void);
uint32_t cv_version(void);

/* what makes the linker look for it, in a word that nobody reads; `retain` keeps that where sections without use are dropped */
#if defined __has_attribute
#if __has_attribute(retain)
#define CV_KEPT __attribute__((used, retain))
#endif
#endif
#ifndef CV_KEPT
#define CV_KEPT __attribute__((used))
#endif
CV_KEPT static uint32_t (*const cv_abi_wanted)(void) = CV_NUMBERED(cv_abi_, CV_ABI);

/* A TABLE, word by word. Places that are not in use hold 0.
   0                      the count of pools, 1 to 4
   1 + 8387 p             pool p, in the text's order: its number, 1 to 9
       + 1                its limit: n of a miPool, 1 to 16; 0 of a `pool`
       + 2                the count of its elements, 1 to 32
       + 3 + 262 e        element e:
           + 0            its kind, 1 to 4 or 6 to 15: start, startRcv, end, terminate; interRcv, interSnd, eventBased, andSplit, andJoin, xorJoin,
                          xorSplit, task, taskRcv, taskSnd (5 was endSnd, which texts may have: a table holds a send and an end for it)
           + 1            task number, 1 to 16
           + 2            mode: 1 a, 2 na_c, 3 na_nc
           + 3            the count of its entries, then 8 places for edges, 1 to 48
           + 12           the count of its exits, then 8 places
           + 21 + 5 b     condition of branch b (a guard: branch 0): 1 true, 2 default, 3 =, 4 <; then two operands
           + 61 + 22 b    message of branch b (a single one: branch 0): its name, 0 to 15; its length, 0 to 4; 4 items of 5 words:
                          1 an operand, 2 +, 3 -, 4 binds the field of its first operand; then two operands
           + 237          the count of assignments, 0 to 4; then 4 of 6 words: a field, and an expression as an item is
   An operand is two words: 0 and a number, or 1 and a field: 0 to 15 for d0 to d15, which are the instance's own, 16 to 31 for s0 to s15, the stores, which
   all instances share. */
#define CV_POOL(p) (1 + 8387 * (p))
#define CV_ELEMENT(p, e) (CV_POOL(p) + 3 + 262 * (e))

/* A STATE, word by word. Stores are read at their places, by the route desk too.
   p                             how many instances pool p has made
   4 + 1792 p + 112 i            instance i of pool p:
       + e - 1                   tokens on edge e, at most 255
       + 48 + n - 1, 64 + n - 1  active and ready count of task n, at most 255
       + 80 + 2 d, 81 + 2 d      1 where field d is defined; its value
   7172 + 2 k, 7173 + 2 k        1 where store k is defined; its value
   7204                          the version it was made for, 10 or 20, which it keeps
   7205 + 321 m                  how many messages queue m holds, at most 64; then for each, oldest first, its length and 4 values
   Places that are not in use hold 0, else the state is refused with 10: those of pools and instances that are not made, of edges and counts that the model has not, the
   value of a field or store that is not defined, values behind a message's length, messages behind a queue's last.
   Saved, a state is its 49,364 bytes as they stand, the lowest byte of each word first. It does not say which model it is of: save the model's text with it, as cv_write
   gives it, which is the same for equal tables and for no others. A state that is lent with another model's table may fit it and be accepted.
   A state that was saved when there were no versions has 12,308 words, and no call takes it; examples/c/carry.c has the ten lines that carry it over. */
#define CV_STORES 7172
#define CV_STORE(k) (7172 + 2 * (k))
#define CV_VERSION 7204
#define CV_INSTANCE(p, i) (4 + 1792 * (p) + 112 * (i))
#define CV_QUEUE(m) (7205 + 321 * (m))

/* THE ITEMS OF A POLL, 64 of 11 words: 1 for a post, anything else a step; the pool's number, or the name posted to; instance, element, phase, branch,
   which a post does not use; the length of the message and its 4 values. What stands behind the items counted is ignored. */
#define CV_ITEM(k) (11 * (k))

/* STACK that a call needs below its caller's frame, in bytes: the most that was touched of a stack that was filled before, over the largest models and the deepest texts, and
   an eighth more, at most 1,024. tests/outside/stack.c measures it, and fails where a call needs more than this says. */
enum cv_stack {
    CV_STACK_CHECK = 1344,
    CV_STACK_FRESH = 1408,
    CV_STACK_STEP = 2816,
    CV_STACK_POST = 1984,
    CV_STACK_LIST = 5184,
    CV_STACK_RUN = 5312,
    CV_STACK_FIGURES = 1920,
    CV_STACK_READ = 4032,
    CV_STACK_DRAW = 74752,
    CV_STACK_DIAGNOSE = 209216,
    CV_STACK_WRITE = 1408,
    CV_STACK_POLL = 2752,
    CV_STACK_JUDGE = 58432,
    CV_STACK_REPAIR = 8640,
    CV_STACK_NESTED = 2112,
    CV_STACK_REPLAY = 58432,
    CV_STACK_RESUME = 58432,
    CV_STACK_LOG = 640
};

/* The numbers given back, in the words of documents 01 and 02. */
enum cv_number {
    CV_ACCEPTED = 0,
    CV_TOO_LONG = 1,       /* text or drawing above 65,536 bytes */
    CV_MISPLACED = 2,      /* the token at this place (or the text's end) continues no text of the notation */
    CV_EXCESSIVE = 3,      /* a number is outside its range or a count above it */
    CV_CHECK_BROKEN = 4,   /* a model check is broken */
    CV_TOO_SHORT = 5,      /* the writer's buffer is shorter than the text; repair: so is the output's, or the output would pass CV_LOG_MOST */
    CV_NOT_LISTED = 6,     /* listing: no accepted step with that ordinal */
    CV_BAD = 10,           /* the table breaks a limit or check, or the state doesn't fit the table and the limits; or a block's length is wrong */
    CV_NO_SUCH = 11,       /* no such pool, instance, element, phase or branch */
    CV_NOT_PERMITTED = 12, /* tokens or task counts don't permit the step */
    CV_NOT_TRUE = 13,      /* condition not true, or an undefined value in condition, template, assignment or message */
    CV_NOT_MATCHING = 14,  /* values don't match, or were given to a step that receives nothing */
    CV_NOT_QUEUED = 15,    /* no equal message queued */
    CV_LIMIT_REACHED = 16, /* startRcv: the pool's limit is reached */
    CV_QUEUE_FULL = 17,    /* the queue sent or posted to holds 64 */
    CV_WOULD_PASS = 18,    /* an edge or task count, after the taking, would pass 255 */
    CV_NOT_POSTABLE = 19,  /* post: name above 15 or more than 4 values */
    CV_NOT_XML = 20,       /* not the XML named here or nested deeper */
    CV_NOT_RUN = 21,       /* an element we don't run or, behind an event gateway, no catch event, a condition on another flow or not in our notation, a gateway
                              that doesn't either split or join, another node without just its kind's entries and exits, or a sender or receiver without
                              exactly one message flow */
    CV_TOO_MANY = 22,      /* poll: more than 64 items */
    CV_NOT_A_LOG = 23,     /* not such a log or longer */
    CV_AT_FAULT = 24,      /* event at fault */
    CV_OTHER_VERSION = 25, /* another version than 10 or 20, asked for or in a state */
    CV_NOT_COUNTED = 26,   /* the number of records isn't the number of pools, or they don't agree with the state at entry */
    CV_NOT_REPAIRED = 27,  /* repair: the text breaks off before the trace opens, is no such log at an earlier place than its end, or is longer */
    CV_NONE_FREE = 28,     /* reading: no edge or element number free for what an endSnd becomes */
    CV_NOT_NESTED = 29     /* nested: the pool with the number beside it is not nested */
};

/* The rules of a drawing, of which 21 says that one is broken, causes before what follows from them: of those that are broken cv_diagnose tells the first, at the leftmost element that breaks it. */
enum cv_rule {
    CV_RULE_RUN = 1,              /* an element is run where it stands, and no attribute says that it runs otherwise */
    CV_RULE_ID = 2,               /* no two elements have one id */
    CV_RULE_COLLABORATION = 3,    /* there is at most one collaboration */
    CV_RULE_PROCESS_REF = 4,      /* a processRef names a process */
    CV_RULE_OWNER = 5,            /* where there are participants, each process is that of exactly one */
    CV_RULE_MULTIPLICITY = 6,     /* a participant has at most one participantMultiplicity */
    CV_RULE_SEQUENCE_FLOW = 7,    /* a sequence flow joins two nodes of its own process */
    CV_RULE_MESSAGE_FLOW = 8,     /* each end of a message flow is a node or a participant */
    CV_RULE_KIND = 9,             /* a node has the definitions, entries and exits of a kind */
    CV_RULE_DEFAULT = 10,         /* the default of an exclusive split is one of its own flows */
    CV_RULE_MESSAGE_ENDS = 11,    /* a message flow goes from a sender to a receiver, or from or to a participant outside */
    CV_RULE_SENDER = 12,          /* a sender has exactly one message flow */
    CV_RULE_RECEIVER = 13,        /* so has a receiver */
    CV_RULE_EVENT_GATEWAY = 14,   /* a flow behind an event gateway leads to a message catch event */
    CV_RULE_ONE_CONDITION = 15,   /* a flow has at most one condition */
    CV_RULE_CONDITION = 16,       /* a condition is in the notation, and stands on a flow that leaves an exclusive split */
    CV_RULE_POOL = 17,            /* there is a pool; the place is the root's */
    CV_RULE_RECORDED = 18         /* no more than 6,554 elements are recorded; the place is the root's */
};

/* A message: its length, 0 to 4, and its values; what stands behind them is ignored, and 0 in an answer. */
typedef struct { uint32_t length, values[4]; } cv_tuple;

/* The name of a step: pool number, instance, element place from 0, phase, branch from 0, and the message consumed, else the empty one. */
typedef struct { uint32_t pool, instance, element, phase, branch; cv_tuple given; } cv_name;

/* A record of the route desk: instances made by a pool, those of them with a token or a task count left, and the others. */
typedef struct { uint32_t made, unfinished, finished; } cv_record;

enum cv_traffic { CV_NOTHING = 0, CV_CONSUMED = 1, CV_SENT = 2 };

/* beside: the lowest check broken where the number is 4, the number of the pool where it is 29 */
typedef struct { uint32_t number, beside; } cv_verdict;
/* traffic, name and tuple: the message consumed or sent by an accepted step */
typedef struct { uint32_t number, traffic, name; cv_tuple tuple; } cv_answer;
typedef struct { uint32_t number; cv_name name; } cv_listed;
/* steps taken, 0 to 65,535 as the limit, and 1 or 0 for whether one is still accepted */
typedef struct { uint32_t number; uint16_t steps; uint32_t left; } cv_ran;
/* beside: the place where the number is 2, 3 or 20, from 0, the lowest check broken where it is 4 */
typedef struct { uint32_t number; size_t beside; } cv_reading;
/* the number that cv_draw gives; the rule where it is 21, the check where it is 4, else 0; and the place of the `<` of what breaks it: with 4 of the pool (2, 3), the message flow (6) or the gateway (7), with 28 of the pool without
   room, with 3 and 20 the place that cv_draw gives; of a pool, where its participant or, without one, its process stands */
typedef struct { uint32_t number; size_t rule, place; } cv_diagnosis;
typedef struct { uint32_t number; size_t length; } cv_written;
/* the number of the first refusal, 0 where there was none, and how many items were accepted before it */
typedef struct { uint32_t number; size_t accepted; } cv_polled;
/* beside: the place where the number is 23, the event's ordinal from 0 where it is 24; own: the step's or post's own number, 0 where only the line is untrue */
typedef struct { uint32_t number; size_t beside; uint32_t own; } cv_judged;
/* length written, events kept, bytes dropped: 0 unless the number is 0 */
typedef struct { uint32_t number; size_t length, kept, dropped; } cv_repaired;

CV_STATIC_ASSERT(sizeof(cv_tuple) == 20 && sizeof(cv_name) == 40 && sizeof(cv_record) == 12, "cuttingvale.h: a tuple is 20 bytes, a name 40, a record 12");
CV_STATIC_ASSERT(sizeof(cv_verdict) == 8 && sizeof(cv_answer) == 32 && sizeof(cv_listed) == 44 && sizeof(cv_ran) == 12, "cuttingvale.h: answers of words");
CV_STATIC_ASSERT(sizeof(cv_reading) == 16 && sizeof(cv_diagnosis) == 24 && sizeof(cv_written) == 16 && sizeof(cv_polled) == 16 && sizeof(cv_judged) == 24 && sizeof(cv_repaired) == 32, "cuttingvale.h: for a 64-bit machine");

/* Checks a table: 10 for a broken limit or an unused place not 0, then 4, else 0. */
cv_verdict cv_check(const uint32_t *table, size_t table_words);

/* Makes the fresh state of a model for a version, CV_VERSION_10 or CV_VERSION_20: 10, then 25, and the state stays; else 0. Under version 10 phase 1 of an
   na_c task waits, as of an na_nc task, until no instance of it is active or ready. */
uint32_t cv_fresh(const uint32_t *table, size_t table_words, uint32_t version, uint32_t *state, size_t state_words);

/* Takes a named step: 10, 25, 26, 11 to 18, and state and records stay; else 0, and what was consumed or sent. Of the records it alters only that of its own
   pool. */
cv_answer cv_step(const uint32_t *table, size_t table_words, uint32_t *state, size_t state_words, cv_record *records, size_t pools, cv_name name);

/* Posts a message from outside: 10, 25, 19 or 17, and the state stays; else 0, and it is queued. */
uint32_t cv_post(const uint32_t *table, size_t table_words, uint32_t *state, size_t state_words, uint32_t name, cv_tuple values);

/* The accepted step with an ordinal, from 0: 10, 25, or 6 where there is none; else 0 and its name. */
cv_listed cv_list(const uint32_t *table, size_t table_words, const uint32_t *state, size_t state_words, size_t ordinal);

/* Takes the first listed step until none is accepted or the limit is used up: 10, 25, 26, and state and records stay; else 0, and the records are those of the
   last state. */
cv_ran cv_run(const uint32_t *table, size_t table_words, uint32_t *state, size_t state_words, cv_record *records, size_t pools, uint16_t limit);

/* Sets the records by counting, whatever they hold: behind cv_fresh, and where a state was saved without them. 10, 25, 26 where pools is not the model's number
   of pools, and the records stay; else 0. */
uint32_t cv_figures(const uint32_t *table, size_t table_words, const uint32_t *state, size_t state_words, cv_record *records, size_t pools);

/* Reads a text into the table: 1 to 4 or 28 (10 for a wrong length of the table), and the table stays; else 0, and every word of it is the model's. */
cv_reading cv_read(const uint8_t *text, size_t length, uint32_t *table, size_t table_words);

/* Reads a drawing, BPMN 2.0 XML, into the table: 1, 20, 21, 3, 4 or 28 (10 for a wrong length of the table), and the table stays; else 0, and every word
   of it is the model's. */
cv_reading cv_draw(const uint8_t *text, size_t length, uint32_t *table, size_t table_words);

/* Why a drawing is refused, for people: the number that cv_draw gives to it, and what breaks it. Needs no table; 0, 0 and 0 where nothing does. */
cv_diagnosis cv_diagnose(const uint8_t *text, size_t length);

/* Writes a table's text, one line with its newline: 10, or 5 where the buffer is shorter than it, and the buffer stays; else 0 and its length, at most CV_TEXT_MOST. */
cv_written cv_write(const uint32_t *table, size_t table_words, uint8_t *buffer, size_t length);

/* A whole poll: takes up to CV_ITEMS named steps and posts one by one until the first refusal. 22 where count is above CV_ITEMS, then 10, 25 and 26, with no items too, and nothing is
   done; else the accepted ones stay, the refused one changes nothing, and those behind it are not looked at. Table, state and records are checked once.
   items_words is CV_POLL_WORDS. */
cv_polled cv_poll(const uint32_t *table, size_t table_words, uint32_t *state, size_t state_words, cv_record *records, size_t pools, const uint32_t *items,
                  size_t items_words, size_t count);

/* Judges the run that an XES log of at most CV_LOG_MOST bytes tells, under a version: 10; 25; 23 with the place where it is no such log, 0 where it is longer; 24 with the first event at fault; else 0,
   and every step and post of it is accepted in turn from the fresh state, and what each line says was sent or consumed is true. The state it works on, CV_STATE_WORDS words, is its own. */
cv_judged cv_judge(const uint32_t *table, size_t table_words, uint32_t version, const uint8_t *log, size_t length);

/* Replays such a log: 10, 25, 23 and 24 as cv_judge, and the state stays; else 0, and the state is the one that the log's run leaves. Behind it cv_figures counts the records. */
cv_judged cv_replay(const uint32_t *table, size_t table_words, uint32_t version, const uint8_t *log, size_t length, uint32_t *state, size_t state_words);

/* The same from the lent state on, a checkpoint: 10 and 25 of table and state, then 23 and 24, and the state stays; else 0. A log that was replayed up to a checkpoint and one that goes on from there come to
   what a log with the events of both comes to. */
cv_judged cv_resume(const uint32_t *table, size_t table_words, uint32_t *state, size_t state_words, const uint8_t *log, size_t length);

/* A log as it happens, piece by piece, each into a lent buffer: what stands before the events; the event of a step, with what cv_step answered; the event of a post; what stands behind them. 5 where the buffer is
   shorter than the piece, and it stays; else 0 and the length, at most CV_PIECE_MOST. What was written of accepted calls is at any time a beginning of a log, which cv_repair closes. A moment is in milliseconds
   since 1970-01-01T00:00:00Z: 0 is none, and behind the year 9999 none is written. docs/RECOVERY.md says how to keep a journal with them. */
cv_written cv_log_begin(uint8_t *buffer, size_t length);
cv_written cv_log_step(cv_name name, cv_answer answer, uint64_t moment, uint8_t *buffer, size_t length);
cv_written cv_log_post(uint32_t name, cv_tuple values, uint64_t moment, uint8_t *buffer, size_t length);
cv_written cv_log_end(uint8_t *buffer, size_t length);

/* Repairs a log that ended in the middle: keeps all up to the end of its last whole event, or of the trace's start tag, and closes what is open. 27 where the text breaks off before
   the trace opens, is no such log at an earlier place than its end, or is longer than CV_LOG_MOST; then 5 where the repaired log is longer than the buffer or than CV_LOG_MOST, and
   the buffer stays; else 0, its length, the events kept and the bytes of the log dropped. A complete log comes out as it is. Needs no table. */
cv_repaired cv_repair(const uint8_t *log, size_t length, uint8_t *buffer, size_t room);

/* Whether every pool of a table is nested: one start or startRcv, one end, and between them elements in sequence, or blocks whose branches all run into the block's own join. 10, then 29 with
   the number of the first pool, in text order, that is not; else 0. In a nested pool, from a fresh state on, no edge of an
   instance ever holds more than one token, and 18 is never given. */
cv_verdict cv_nested(const uint32_t *table, size_t table_words);

#ifdef __cplusplus
}
#endif
#undef CV_STATIC_ASSERT
#undef CV_KEPT
#endif
