/* The cabinet of examples/c/cabinet.c unplugged: powercut FOLDER KILLS SEED. Requests are sent to it as they come, the same calls are done here, and it is killed with SIGKILL at a moment that it cannot
   know: with a call under way, between two, while it starts, with a disk that is full. What a power cut leaves of an event that was not answered is any beginning of it. Each time the state that comes
   back must be the one before the kill or, where a call was not answered, the one with it; and who asked goes on from there. */
#define main cabinet
#include "../../examples/c/cabinet.c"
#undef main
#include <sys/resource.h>
#include <sys/wait.h>

/* the calls that were answered, and the one under way */
static uint32_t before[CV_STATE_WORDS], with[CV_STATE_WORDS];
static cv_record desk[POOLS], desk_with[POOLS];
static unsigned long long answered;
static bool under_way;

enum kind { IDLE, POST, STEP, REFUSED, START, KINDS };
static const char *const kinds[KINDS] = {"between calls", "at a post", "at a step", "at a refused call", "at a start"};
static unsigned killed[KINDS], torn, full, done, undone, rotated;

static uint64_t seed;

static unsigned draw(unsigned n) {
    seed ^= seed << 13, seed ^= seed >> 7, seed ^= seed << 17;
    return seed % n;
}

static void failed(const char *why) {
    printf("powercut: %s, behind call %llu\n", why, answered);
    exit(1);
}

/* THE CABINET, and the two ends of its standard input and output. */
static pid_t child;
static FILE *to, *from;

static void start(const char *name, const char *room_word, rlim_t most) {
    int in[2], out[2];
    char *words[] = {"cabinet", (char *)name, (char *)room_word, NULL};
    if (pipe(in) || pipe(out)) failed("no pipe");
    fflush(stdout);
    child = fork();
    if (child < 0) failed("no process");
    if (child == 0) {
        struct rlimit limit = {most, most};
        dup2(in[0], 0), dup2(out[1], 1);
        close(in[0]), close(in[1]), close(out[0]), close(out[1]);
        if (most != RLIM_INFINITY && setrlimit(RLIMIT_FSIZE, &limit)) _exit(3);
        _exit(cabinet(3, words));
    }
    close(in[0]), close(out[1]);
    to = fdopen(in[1], "w"), from = fdopen(out[0], "r");
}

static void unplug(enum kind kind) {
    int status;
    kill(child, SIGKILL);
    waitpid(child, &status, 0);
    if (!WIFSIGNALED(status)) failed("the cabinet had ended by itself");
    fclose(to), fclose(from);
    killed[kind]++;
}

static void listen(char *line, size_t n) {
    if (!fgets(line, n, from)) failed("no answer");
}

/* WHAT COMES BACK, as another process finds it: how many calls, and whether the state is theirs. */
static unsigned long long comes_back(const char *name) {
    int status, out[2];
    unsigned long long calls = 0;
    if (pipe(out)) failed("no pipe");
    fflush(stdout);
    pid_t looks = fork();
    if (looks == 0) {
        folder = open(name, O_RDONLY | O_DIRECTORY);
        recover();
        calls = now.calls;
        if (write(out[1], &calls, sizeof calls) != sizeof calls) _exit(2);
        _exit(memcmp(now.state, calls == answered ? before : with, sizeof before) != 0);
    }
    close(out[1]);
    if (read(out[0], &calls, sizeof calls) != sizeof calls) failed("nothing comes back");
    close(out[0]);
    waitpid(looks, &status, 0);
    if (calls != answered && !(under_way && calls == answered + 1)) failed("a call was lost or done twice");
    if (!WIFEXITED(status) || WEXITSTATUS(status)) failed("another state comes back");
    return calls;
}

/* the journal that counts, and its length */
static off_t journal_is(const char *name, char *file, uint64_t *number) {
    struct stat is;
    char checkpoint[300];
    sprintf(checkpoint, "%s/checkpoint", name);
    FILE *saved = fopen(checkpoint, "rb");
    *number = 0;
    if (saved && fread(number, sizeof *number, 1, saved) != 1) failed("no checkpoint");
    if (saved) fclose(saved);
    sprintf(file, "%s/journal-%llu.xes", name, (unsigned long long)*number);
    return stat(file, &is) ? 0 : is.st_size;
}

/* A power cut leaves any beginning of what was not brought to the disk. */
static void tear(const char *name, uint64_t number, off_t answered_to) {
    uint64_t is;
    char file[330];
    uint8_t piece[CV_PIECE_MOST];
    off_t n = journal_is(name, file, &is);
    if (is != number) answered_to = cv_log_begin(piece, sizeof piece).length;
    if (n <= answered_to || draw(2)) return;
    if (truncate(file, answered_to + draw(n - answered_to)) || (!draw(3) && truncate(file, n))) failed("not torn"); /* zeros, where the length was noted first */
    torn++;
}

/* A REQUEST: mostly a step that is listed, or a message that fits; what it will be answered is worked out here. */
static enum kind some_request(char *line, unsigned *number) {
    bool waits = cv_list(TABLE, before, CV_STATE_WORDS, 0).name.pool != 1, for_desk = waits && before[CV_INSTANCE(0, 0) + 4];
    uint32_t vehicle = before[CV_INSTANCE(0, 0) + 81], name = for_desk ? 2 : 0;
    unsigned likely = waits ? 60 : before[CV_QUEUE(0)] < 8 ? 30 : 5;
    cv_listed next = cv_list(TABLE, before, CV_STATE_WORDS, draw(2));
    memcpy(with, before, sizeof with), memcpy(desk_with, desk, sizeof desk);
    if (next.number || draw(100) < likely) {
        cv_tuple g = {2, {name ? vehicle : 1000000 + draw(3), draw(4)}};
        if (!draw(20)) g.length = 3, g.values[2] = 4294967295u, name = draw(20);
        *number = cv_post(TABLE, with, CV_STATE_WORDS, name, g);
        sprintf(line, g.length == 3 ? "%llu post %u %u,%u,%u\n" : "%llu post %u %u,%u\n", answered + 1, name, g.values[0], g.values[1], g.values[2]);
        return *number ? REFUSED : POST;
    }
    cv_name n = next.name;
    if (!draw(15)) n.phase = 5;
    *number = cv_step(TABLE, with, CV_STATE_WORDS, desk_with, POOLS, n).number;
    int at = sprintf(line, "%llu step %u %u %u %u %u ", answered + 1, n.pool, n.instance, n.element, n.phase, n.branch);
    for (unsigned k = 0; k < n.given.length; k++) at += sprintf(line + at, k ? ",%u" : "%u", n.given.values[k]);
    strcpy(line + at, n.given.length ? "\n" : "-\n");
    return *number ? REFUSED : STEP;
}

static void happened(void) {
    memcpy(before, with, sizeof before), memcpy(desk, desk_with, sizeof desk);
    answered++;
}

/* a request, and its answer */
enum answer { DONE, NOT_DONE, FULL };

static enum answer ask(void) {
    char line[200], answer[200], due[200];
    unsigned number;
    some_request(line, &number);
    fputs(line, to), fflush(to);
    listen(answer, sizeof answer);
    if (!strcmp(answer, "full\n") && !number) {
        full++;
        return FULL;
    }
    if (number) sprintf(due, "refused %u\n", number);
    else sprintf(due, "ok %llu\n", answered + 1);
    if (strcmp(answer, due)) failed(answer);
    if (number) return NOT_DONE;
    happened();
    return DONE;
}

/* a request that is not answered before the cabinet is killed */
static enum kind leave(void) {
    char line[200];
    unsigned number;
    enum kind kind = some_request(line, &number);
    fputs(line, to), fflush(to);
    under_way = !number;
    usleep(draw(draw(2) ? 400 : 4000));
    return kind;
}

static void one_kill(const char *name) {
    static const char *const rooms[] = {"1500", "4000", "65536"};
    char line[200], due[200], file[330];
    uint64_t number;
    off_t n = journal_is(name, file, &number);
    bool little = draw(4) == 0;
    start(name, rooms[draw(3)], little && n ? (rlim_t)n + draw(600) : RLIM_INFINITY);
    if (n && draw(12) == 0) {
        usleep(draw(3000));
        unplug(START);
        return;
    }
    listen(line, sizeof line);
    sprintf(due, "at %llu\n", answered);
    if (strcmp(line, due)) failed(line);
    /* an event that fits behind one that did not is the last: what was left of the other would show */
    enum answer was = DONE, is = DONE;
    for (unsigned k = draw(15); k && !(was == FULL && is == DONE); k--) was = is, is = ask();
    uint64_t last;
    n = journal_is(name, file, &last);
    rotated += last != number;
    unplug(draw(10) && !(was == FULL && is == DONE) ? leave() : IDLE);
    if (under_way) tear(name, last, n);
}

/* A journal as long as a log may be: the checkpoint comes by itself. */
static void whole_journal(const char *name) {
    char line[200], file[330];
    uint64_t first, last;
    off_t n, most = 0;
    journal_is(name, file, &first);
    start(name, "65536", RLIM_INFINITY);
    listen(line, sizeof line);
    for (last = first; last == first; most = n > most ? n : most) ask(), n = journal_is(name, file, &last);
    if (most > CV_LOG_MOST || most < CV_LOG_MOST - CV_PIECE_MOST) failed("a journal of another length");
    unplug(IDLE);
    comes_back(name);
}

int main(int count, char **words) {
    if (count != 4) return fprintf(stderr, "usage: powercut FOLDER KILLS SEED\n"), 2;
    seed = strtoull(words[3], NULL, 10) * 0x9e3779b97f4a7c15u | 1;
    cv_read((const uint8_t *)model, strlen(model), TABLE);
    cv_fresh(TABLE, CV_VERSION_20, before, CV_STATE_WORDS);
    cv_figures(TABLE, before, CV_STATE_WORDS, desk, POOLS);
    for (unsigned left = strtoul(words[2], NULL, 10); left; left--) {
        under_way = false;
        one_kill(words[1]);
        bool was = comes_back(words[1]) == answered + 1;
        if (under_way) was ? done++ : undone++;
        if (was) happened();
    }
    under_way = false;
    whole_journal(words[1]);
    printf("%llu calls, each done once; killed", answered);
    for (unsigned k = 0; k < KINDS; k++) printf("%s %u times %s", k ? "," : "", killed[k], kinds[k]);
    printf("; of the calls not answered %u were done and %u not, %u events were torn; %u times full, %u checkpoints\n", done, undone, torn, full, rotated);
    for (unsigned k = 0; k < KINDS; k++)
        if (!killed[k]) failed("a kind of moment was not met");
    return done && undone && torn && full && rotated ? 0 : 1;
}
