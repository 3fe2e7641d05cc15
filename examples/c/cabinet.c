/* A cabinet that comes back after a power cut: cabinet FOLDER [ROOM]. Requests stand on standard input, a line each, with the number of the call that it will be, from 1 on:
     N post M V, N step P I E F B V   V is - or values joined by commas
   and each is answered on standard output: ok N; refused R, the engine's number; full where there is no room for its event, and nothing was done; at K, where N is not the next call, K being
   the last one. At the start it says at K, so that who asked knows which call was the last.
   An accepted call is in the journal, on the disk, before the cabinet acts on it: it is tried on a copy of the state, its event is written, and only then the copy is the state. When the journal
   would pass ROOM bytes, 65,536 where nothing is said, the state becomes a checkpoint, with a journal of its own behind it. docs/RECOVERY.md says why it is in this order. */
#include "cuttingvale.h"
#include <errno.h>
#include <fcntl.h>
#include <signal.h>
#include <stdbool.h>
#include <stdio.h>
#include <stdlib.h>
#include <string.h>
#include <sys/stat.h>
#include <sys/time.h>
#include <unistd.h>

/* 0: a request, vehicle and direction; 1: to the desk, vehicle and route; 2: the desk's answer, vehicle and 1 where it is granted; 3: set the route; 4: refused */
static const char model[] =
    "pool(1,start(1,2)|xorJoin({2,9},3)|interRcv(3,0:<?d0,?d1>,4)|taskSnd(4,1,a,true,{d2:=d1+40},1:<d0,d2>,5)|interRcv(5,2:<d0,?d3>,6)|"
    "xorSplit(6,{(7,d3=1),(8,default)})|interSnd(7,3:<d0,d2>,10)|interSnd(8,4:<d0>,11)|xorJoin({10,11},9))|"
    "pool(2,start(1,2)|xorJoin({2,4,5,6},3)|eventBased(3,(1:<?d0,?d1>,4),(3:<?d0,?d1>,5),(4:<?d0>,6)))";

enum { POOLS = 2, END_MOST = 16 };

/* What is kept of a state: which journal goes on from it, and how many calls led to it. */
struct checkpoint { uint64_t journal, calls; uint32_t state[CV_STATE_WORDS]; };

static uint32_t table[CV_TABLE_WORDS];
static struct checkpoint now, trial, next;
static cv_record records[POOLS], tried[POOLS];

/* the journal that is written, its length, and how long it may be with its end tags */
static int journal = -1, folder = -1;
static size_t written, room = CV_LOG_MOST;

#define TABLE table, CV_TABLE_WORDS
#define STATE(c) (c).state, CV_STATE_WORDS

static void stop(const char *why) {
    fprintf(stderr, "cabinet: %s: %s\n", why, errno ? strerror(errno) : "refused");
    exit(1);
}

/* FILES. All of the bytes at a place, and down to the disk. */
static bool put(int file, const void *bytes, size_t n, off_t at) {
    const uint8_t *from = bytes;
    while (n) {
        ssize_t done = pwrite(file, from, n, at);
        if (done < 0 && errno == EINTR) continue;
        if (done <= 0) return false;
        from += done, at += done, n -= done;
    }
    if (fdatasync(file)) stop("what is on the disk is not known"); /* the kernel forgets what it could not write: a second try would say that all is well */
    return true;
}

static void journal_name(char *name, uint64_t number) { sprintf(name, "journal-%llu.xes", (unsigned long long)number); }

/* A file appears under its name whole or not at all: written under another, which then takes its place, and the folder is brought to the disk. */
static bool make(const char *name, const void *bytes, size_t n) {
    int file = openat(folder, "new", O_WRONLY | O_CREAT | O_TRUNC, 0644);
    bool made = file >= 0 && put(file, bytes, n, 0);
    if (file >= 0) close(file);
    if (!made) return unlinkat(folder, "new", 0), false;
    if (renameat(folder, "new", folder, name) || fsync(folder)) stop(name);
    return true;
}

static size_t get(const char *name, void *bytes, size_t n) {
    int file = openat(folder, name, O_RDONLY);
    size_t have = 0;
    if (file < 0) return 0;
    for (ssize_t got; have < n && (got = read(file, (uint8_t *)bytes + have, n - have)) > 0;) have += got;
    close(file);
    return have;
}

/* THE JOURNAL of a checkpoint begins with what stands before the events, and is open for what follows. */
static bool begin(uint64_t number) {
    char name[40];
    uint8_t piece[CV_PIECE_MOST];
    cv_written w = cv_log_begin(piece, sizeof piece);
    journal_name(name, number);
    return make(name, piece, w.length);
}

static void open_journal(void) {
    char name[40];
    struct stat is;
    journal_name(name, now.journal);
    if (journal >= 0) close(journal);
    journal = openat(folder, name, O_WRONLY);
    if (journal < 0 || fstat(journal, &is)) stop(name);
    written = is.st_size;
}

/* One rename makes the new checkpoint count, and with it the new journal, which is there already: at no moment does a checkpoint stand before a journal whose calls are in it. */
static void rotate(void) {
    char old[40];
    journal_name(old, now.journal);
    next = now, next.journal++;
    if (!begin(next.journal) || !make("checkpoint", &next, sizeof next)) return; /* no room for it: the journal goes on, as long as a log may be */
    now = next;
    open_journal();
    unlinkat(folder, old, 0);
}

/* an event at the end of the journal; what was not written whole is taken back */
static bool note(const uint8_t *piece, size_t n) {
    if (written + n + END_MOST > room) rotate();
    if (written + n + END_MOST > CV_LOG_MOST) return false;
    if (put(journal, piece, n, written)) return written += n, true;
    if (ftruncate(journal, written) || fdatasync(journal)) stop("the journal");
    return false;
}

/* What is behind the last whole event goes, so that the next one stands behind it; n bytes are there. */
static void take_back(const char *name, const uint8_t *text, size_t n, size_t last) {
    uint8_t piece[CV_PIECE_MOST];
    size_t first = cv_log_begin(piece, sizeof piece).length;
    bool line_end = last >= n || text[last] != '\n';
    int file = openat(folder, name, O_WRONLY);
    if (file < 0) stop(name);
    if (last < first) last = first - 1, line_end = false; /* no event yet */
    if (ftruncate(file, last + !line_end) || (line_end && pwrite(file, "\n", 1, last) != 1) || fdatasync(file)) stop(name);
    close(file);
}

/* THE START: the checkpoint, or the fresh state, and what its journal tells behind it. */
static void recover(void) {
    static uint8_t text[CV_LOG_MOST], whole[CV_LOG_MOST];
    char name[40];
    size_t n = get("checkpoint", &now, sizeof now);
    bool saved = n == sizeof now;
    if (n && !saved) stop("checkpoint");
    if (!saved) memset(&now, 0, sizeof now);
    journal_name(name, now.journal);
    n = get(name, text, sizeof text);
    while (n && !text[n - 1]) n--; /* a file system may have noted the length before the bytes */
    if (!n && saved) stop(name);
    if (!n) {
        if (!begin(0) || cv_fresh(TABLE, CV_VERSION_20, STATE(now))) stop(name);
        return;
    }
    cv_repaired r = cv_repair(text, n, whole, sizeof whole);
    if (r.number) stop(name);
    cv_judged j = saved ? cv_resume(TABLE, STATE(now), whole, r.length) : cv_replay(TABLE, CV_VERSION_20, whole, r.length, STATE(now));
    if (j.number) stop(name);
    now.calls += r.kept;
    take_back(name, text, n, n - r.dropped);
    if (!saved) return;
    journal_name(name, now.journal - 1);
    unlinkat(folder, name, 0);
}

/* A CALL, tried on a copy; its event, where it is accepted. */
static bool values(const char *word, cv_tuple *g) {
    memset(g, 0, sizeof *g);
    if (!strcmp(word, "-")) return true;
    for (char *end; g->length < 4; word = end + 1) {
        g->values[g->length++] = strtoul(word, &end, 10);
        if (*end != ',') return *end == 0 && end > word;
    }
    return false;
}

static uint64_t moment(void) {
    struct timeval t;
    gettimeofday(&t, NULL);
    return (uint64_t)t.tv_sec * 1000 + t.tv_usec / 1000;
}

static bool parse_post(const char *line, uint32_t *name, cv_tuple *g) {
    char word[64];
    return sscanf(line, "post %u %63s", name, word) == 2 && values(word, g);
}

static bool parse_step(const char *line, cv_name *n) {
    char word[64];
    return sscanf(line, "step %u %u %u %u %u %63s", &n->pool, &n->instance, &n->element, &n->phase, &n->branch, word) == 6 && values(word, &n->given);
}

static void call(const char *line) {
    uint8_t piece[CV_PIECE_MOST];
    cv_written w;
    uint32_t name, number;
    cv_tuple g;
    cv_name n;
    trial = now;
    memcpy(tried, records, sizeof tried);
    if (parse_post(line, &name, &g)) {
        number = cv_post(TABLE, STATE(trial), name, g);
        w = cv_log_post(name, g, moment(), piece, sizeof piece);
    } else if (parse_step(line, &n)) {
        cv_answer a = cv_step(TABLE, STATE(trial), tried, POOLS, n);
        number = a.number;
        w = cv_log_step(n, a, moment(), piece, sizeof piece);
    } else {
        puts("no such request");
        return;
    }
    if (number) {
        printf("refused %u\n", number);
        return;
    }
    if (!note(piece, w.length)) {
        puts("full");
        return;
    }
    /* from here on it has happened, whatever comes */
    memcpy(now.state, trial.state, sizeof now.state);
    memcpy(records, tried, sizeof records);
    printf("ok %llu\n", (unsigned long long)++now.calls);
}

static void request(const char *line) {
    int at = 0;
    unsigned long long number = 0;
    if (sscanf(line, "%llu %n", &number, &at) != 1 || number != now.calls + 1) printf("at %llu\n", (unsigned long long)now.calls);
    else call(line + at);
    fflush(stdout);
}

int main(int count, char **words) {
    char line[256];
    if (count < 2 || count > 3) return fprintf(stderr, "usage: cabinet FOLDER [ROOM]\n"), 2;
    if (count == 3) room = strtoul(words[2], NULL, 10);
    signal(SIGXFSZ, SIG_IGN); /* a file that may not grow is a full disk */
    folder = open(words[1], O_RDONLY | O_DIRECTORY);
    if (folder < 0) stop(words[1]);
    if (cv_read((const uint8_t *)model, strlen(model), TABLE).number) stop("the model");
    recover();
    if (cv_figures(TABLE, STATE(now), records, POOLS)) stop("the state");
    open_journal();
    request("");
    while (fgets(line, sizeof line, stdin)) {
        line[strcspn(line, "\n")] = 0;
        request(line);
    }
    return 0;
}
