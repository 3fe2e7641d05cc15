/* Drawings, logs and model texts of at most 65,536 bytes that hold as much as fits of one thing, to see how the cost of reading them grows. */
#include "generate.h"
#include <stdio.h>

enum { MOST = 65536, PIECE = 2048, PAIRS = 12, GRID = 40 };

/* A part for each number from 0, as many as fit, then a part again for each of them; behind them, the number is how many. In a part, by their places:
   1$x and 2$x the number and the next; 3$s four letters, whose last three and last two are no other number's below 3,224; 4$s and 5$s these;
   6$s letters with the hash of 31, and 7$s with the sum, of all other numbers; 8$u and 9$u a pair below GRID; 10$s letters, one less for each number; 11$s nine bytes whose number, as a
   reader may make it, is that of hundreds of others. */
struct shape { const char *name, *before, *each, *between, *again, *after; };

#define BEGIN "<definitions><process id=\"p\">"
#define END_OF_ALL "</process></definitions>"
#define FLOW(a, b) "<sequenceFlow sourceRef=\"" a "\" targetRef=\"" b "\"/>"
#define L16 "nnnnnnnnnnnnnnnn"
#define LONG_NAME L16 L16 L16 L16 L16 L16 L16
#define SPLIT BEGIN "<startEvent id=\"a\"/><exclusiveGateway id=\"x\"/><endEvent id=\"b\"/><endEvent id=\"c\"/>" FLOW("a", "x") FLOW("x", "b")
#define CONDITION SPLIT "<sequenceFlow sourceRef=\"x\" targetRef=\"c\"><conditionExpression"
#define CONDITION_END "</conditionExpression></sequenceFlow>" END_OF_ALL
#define ALPHABET " a='' b='' c='' d='' e='' f='' g='' h='' i='' j='' k='' l='' m='' n='' o='' p='' q='' r='' s='' t='' u='' v='' w='' x='' y='' z=''"
#define TWO_LAYERS " %4$s=\"\" %5$s=\"\""
#define DEEP "<a><a><a><a><a><a><a><a><a><a><a><a><a><a>"
#define DEEP_END "</a></a></a></a></a></a></a></a></a></a></a></a></a></a>"

static const struct shape drawings[] = {
    {"attributes of one tag", "<definitions", " a%1$x=\"\"", "", "", "/>"},
    {"attributes, suffixes of others", "<definitions", " %3$s=\"\"", "", TWO_LAYERS, "/>"},
    {"attributes, suffixes of one word", "<definitions", " %10$s=\"\"", "", "", "/>"},
    {"attributes, equal but in the middle", "<definitions", " a%1$04xz=\"\"", "", "", "/>"},
    {"attributes of equal hashes", "<definitions", " %6$s=\"\"", "", "", "/>"},
    {"attributes of equal sums", "<definitions", " %7$s=\"\"", "", "", "/>"},
    {"attributes of equal numbers", "<definitions", " %11$s=\"\"", "", "", "/>"},
    {"attributes of equal numbers, and suffixes", "<definitions", " %11$s=\"\" %3$s=\"\"", "", TWO_LAYERS, "/>"},
    {"attributes that begin alike", "<definitions", " " LONG_NAME "%1$x=\"\"", "", "", "/>"},
    {"attributes with long values", "<definitions", " a%1$x=\"" LONG_NAME LONG_NAME "\"", "", "", "/>"},
    {"attributes like values of others", "<definitions", " a%1$x=\"'b%1$x='\"", "", " b%1$x=\"\"", "/>"},
    {"attributes, the last one twice", "<definitions", " a%1$x=\"\"", "", "", " a0=\"\"/>"},
    {"tags of 26 attributes", BEGIN, "<task" ALPHABET "/>", "", "", END_OF_ALL},
    {"attributes of a condition", CONDITION, " %3$s=\"\"", "", TWO_LAYERS, ">1=1" CONDITION_END},
    {"attributes of what a condition skips", CONDITION ">d0<documentation", " %3$s=\"\"", "", TWO_LAYERS, "/>=1" CONDITION_END},
    {"attributes of a task", BEGIN "<startEvent id=\"s\"/><endEvent id=\"t\"/>" FLOW("s", "k") FLOW("k", "t") "<task", " %3$s=\"\"", "", TWO_LAYERS, " id=\"k\"/>" END_OF_ALL},
    {"attributes of a flow", BEGIN "<startEvent id=\"s\"/><endEvent id=\"t\"/><sequenceFlow", " %3$s=\"\"", "", TWO_LAYERS, " sourceRef=\"s\" targetRef=\"t\"/>" END_OF_ALL},
    {"a long tag, then flows from it", BEGIN "<exclusiveGateway" " x=\"" LONG_NAME LONG_NAME LONG_NAME LONG_NAME LONG_NAME LONG_NAME LONG_NAME LONG_NAME "\" id=\"z\"/>", FLOW("z", "z"), "", "", END_OF_ALL},
    {"nodes without ids", BEGIN, "<task/>", "", "", END_OF_ALL},
    {"nodes with ids", BEGIN, "<task id=\"%1$x\"/>", "", "", END_OF_ALL},
    {"ids that differ at their end", BEGIN, "<task id=\"" LONG_NAME "%1$x\"/>", "", "", END_OF_ALL},
    {"ids that differ at their beginning", BEGIN, "<task id=\"%1$04x" LONG_NAME "\"/>", "", "", END_OF_ALL},
    {"ids, equal but in the middle", BEGIN, "<task id=\"a%1$04xz\"/>", "", "", END_OF_ALL},
    {"ids of equal hashes", BEGIN, "<task id=\"%6$s\"/>", "", "", END_OF_ALL},
    {"ids of equal numbers", BEGIN, "<task id=\"%11$s\"/>", "", "", END_OF_ALL},
    {"ids of equal sums", BEGIN, "<task id=\"%7$s\"/>", "", "", END_OF_ALL},
    {"ids behind other attributes", BEGIN, "<task a=\"\" b=\"\" c=\"\" d=\"\" e=\"\" f=\"\" g=\"\" id=\"%1$x\"/>", "", "", END_OF_ALL},
    {"ids, the last one twice", BEGIN, "<task id=\"%1$x\"/>", "", "", "<task id=\"0\"/>" END_OF_ALL},
    {"ids of what is skipped", BEGIN, "<message id=\"%1$x\"/>", "", "", END_OF_ALL},
    {"flows of the last node", BEGIN, FLOW("z", "z"), "", "", "<exclusiveGateway id=\"z\"/>" END_OF_ALL},
    {"flows of the first node", BEGIN "<exclusiveGateway id=\"z\"/>", FLOW("z", "z"), "", "", END_OF_ALL},
    {"flows of a node of a long id", BEGIN "<exclusiveGateway id=\"" LONG_NAME LONG_NAME LONG_NAME "\"/>", FLOW(LONG_NAME LONG_NAME LONG_NAME, LONG_NAME LONG_NAME LONG_NAME), "", "", END_OF_ALL},
    {"flows among all", BEGIN, "<task id=\"%1$x\"/>", "", FLOW("%8$x", "%9$x"), END_OF_ALL},
    {"flows to nothing", BEGIN, "<task id=\"%1$x\"/>", "", FLOW("n%1$x", "n"), END_OF_ALL},
    {"flows alone", BEGIN, FLOW("%1$x", "%2$x"), "", "", END_OF_ALL},
    {"a row of tasks", BEGIN "<startEvent id=\"0\"/>", FLOW("%1$x", "%2$x") "<task id=\"%2$x\"/>", "", "", "<endEvent id=\"z\"/>" FLOW("%1$x", "z") END_OF_ALL},
    {"a row of tasks, its flows last", BEGIN "<startEvent id=\"0\"/>", "<task id=\"%2$x\"/>", "<endEvent id=\"z\"/>", FLOW("%1$x", "%2$x"),
     FLOW("%1$x", "z") END_OF_ALL},
    {"a row of tasks, its flows first", BEGIN "<startEvent id=\"0\"/>", FLOW("%1$x", "%2$x"), "", "<task id=\"%2$x\"/>", "<endEvent id=\"z\"/>" FLOW("%1$x", "z") END_OF_ALL},
    {"exits with conditions", BEGIN "<startEvent id=\"a\"/><exclusiveGateway id=\"x\"/>" FLOW("a", "x"),
     "<endEvent id=\"e%1$x\"/><sequenceFlow sourceRef=\"x\" targetRef=\"e%1$x\"><conditionExpression>d0=1</conditionExpression></sequenceFlow>", "", "", END_OF_ALL},
    {"conditions with long tags", BEGIN "<startEvent id=\"a\"/><exclusiveGateway id=\"x\"/>" FLOW("a", "x"),
     "<endEvent id=\"e%1$x\"/><sequenceFlow sourceRef=\"x\" targetRef=\"e%1$x\"><conditionExpression a=\"" LONG_NAME LONG_NAME LONG_NAME LONG_NAME LONG_NAME LONG_NAME LONG_NAME LONG_NAME "\">d0=1</conditionExpression></sequenceFlow>", "", "", END_OF_ALL},
    {"branches of an event gateway", BEGIN "<startEvent id=\"a\"/><eventBasedGateway id=\"g\"/>" FLOW("a", "g"),
     "<intermediateCatchEvent id=\"c%1$x\"><messageEventDefinition/></intermediateCatchEvent>" FLOW("g", "c%1$x") FLOW("c%1$x", "e%1$x") "<endEvent id=\"e%1$x\"/>",
     "</process><collaboration><participant id=\"o\"/><participant processRef=\"p\"/>",
     "<messageFlow sourceRef=\"o\" targetRef=\"c%1$x\"/>", "</collaboration></definitions>"},
    {"message flows between outsiders", BEGIN "<startEvent id=\"s\"/><endEvent id=\"t\"/>" FLOW("s", "t") "</process><collaboration><participant processRef=\"p\"/>",
     "<messageFlow id=\"%1$x\" sourceRef=\"o\" targetRef=\"o\"/>", "", "", "<participant id=\"o\"/></collaboration></definitions>"},
    {"message flows to a participant of a long tag", BEGIN "<startEvent id=\"s\"/><endEvent id=\"t\"/>" FLOW("s", "t") "</process><collaboration><participant processRef=\"p\"/><participant x=\"",
     L16 L16 L16, "\" id=\"o\"/>", "<messageFlow sourceRef=\"o\" targetRef=\"o\"/>", "</collaboration></definitions>"},
    {"starts and ends, a flow for each", BEGIN, "<startEvent id=\"a%1$x\"/><endEvent id=\"b%1$x\"/>" FLOW("a%1$x", "b%1$x"), "", "", END_OF_ALL},
    {"definitions of events", BEGIN "<startEvent id=\"s\">", "<messageEventDefinition/>", "", "", "</startEvent>" END_OF_ALL},
    {"events, each with a definition", BEGIN, "<startEvent><messageEventDefinition/></startEvent>", "", "", END_OF_ALL},
    {"processes", "<definitions>", "<process><startEvent id=\"a%1$x\"/><endEvent id=\"b%1$x\"/>" FLOW("a%1$x", "b%1$x") "</process>", "", "", "</definitions>"},
    {"participants and their processes", "<definitions>", "<process id=\"%1$x\"/>", "<collaboration>", "<participant processRef=\"%1$x\"/>",
     "</collaboration></definitions>"},
    {"participants of one process", BEGIN "</process><collaboration>", "<participant processRef=\"p\"/>", "", "", "</collaboration></definitions>"},
    {"outsiders", BEGIN "</process><collaboration>", "<participant/>", "", "", "<participant processRef=\"p\"/></collaboration></definitions>"},
    {"elements that are not run", BEGIN, "<transaction/>", "", "", END_OF_ALL},
    {"elements of other names", BEGIN, "<x:%1$x/>", "", "", END_OF_ALL},
    {"a long condition", CONDITION ">1=1", "&#48;", "", "", CONDITION_END},
    {"a condition of blanks", CONDITION ">1=1", "\t", "", "", CONDITION_END},
    {"a condition of comments", CONDITION ">1=1", "<!---->", "", "", CONDITION_END},
    {"a condition of what is skipped", CONDITION ">1=1", "<documentation/>", "", "", CONDITION_END},
    {"a condition of sections", CONDITION ">1=1", "<![CDATA[]]>", "", "", CONDITION_END},
    {"elements 16 deep", BEGIN, "<message>" DEEP "<a/>" DEEP_END "</message>", "", "", END_OF_ALL},
    {"elements 16 deep, of long names", BEGIN, "<message><" LONG_NAME "><" LONG_NAME "><" LONG_NAME "/></" LONG_NAME "></" LONG_NAME "></message>", "", "", END_OF_ALL},
    {"elements in what is skipped", BEGIN "<message>", "<a/>", "", "", "</message>" END_OF_ALL},
    {"attributes in what is skipped", BEGIN "<message", " %3$s=\"\"", "", TWO_LAYERS, "/>" END_OF_ALL},
    {"comments", BEGIN, "<!---->", "", "", END_OF_ALL},
    {"a long comment", BEGIN "<!--", "- ", "", "", "-->" END_OF_ALL},
    {"sections", BEGIN "<message>", "<![CDATA[]]>", "", "", "</message>" END_OF_ALL},
    {"a long section", BEGIN "<message><![CDATA[", "]", "", "", "]]></message>" END_OF_ALL},
    {"instructions", BEGIN, "<?a?>", "", "", END_OF_ALL},
    {"text", BEGIN, "]", "", "", END_OF_ALL},
    {"references", BEGIN, "&lt;", "", "", END_OF_ALL},
    {"references by number", BEGIN, "&#x10FFFF;", "", "", END_OF_ALL},
    {"references in a value", BEGIN "<task id=\"", "&lt;", "", "", "\"/>" END_OF_ALL},
    {"blanks in a tag", BEGIN "<task", "\n", "", "", "/>" END_OF_ALL},
    {"blanks in an end tag", BEGIN "</process", " ", "", "", "></definitions>"},
    {"start tags that are not closed", "<definitions>", "<process>", "", "", ""},
};

/* a loop of two steps, which fills the edge beside it unless that is emptied; a second pool receives again and again what is posted to 0 */
const char worst_model[] = "pool(1,start(1,2)|xorJoin({2,3},4)|andSplit(4,{3,5})|end(5))|pool(2,start(1,2)|xorJoin({2,3},4)|interRcv(4,0:<?d0,?d1,?d2,?d3>,3))";

#define EVENT(line) "<event><string key=\"concept:name\" value=\"" line "\"/></event>"
#define TRACE "<log><trace>"
#define END_OF_LOG "</trace></log>"
#define SEVEN(x) x x x x x x x
#define POST_OF "<event><string key=\"concept:name\" value=\"post 0:"

static const struct shape logs[] = {
    {"events, all of them lawful", TRACE EVENT("1 0 0 0 0 -") EVENT("1 0 1 0 0 -") EVENT("1 0 2 0 0 -"),
     EVENT("1 0 3 0 0 -") EVENT("1 0 1 0 1 -") EVENT("1 0 2 0 0 -"), "", "", END_OF_LOG},
    {"lawful posts", TRACE, EVENT("post 1:4294967295,4294967295,4294967295,4294967295"), "", "", END_OF_LOG},
    {"posts and their receptions", TRACE EVENT("2 0 0 0 0 -") EVENT("2 0 1 0 0 -") SEVEN(SEVEN(EVENT("post 0:1,2,3,4"))),
     EVENT("post 0:2,2,3,4") EVENT("2 0 2 0 0 ?0:2,2,3,4") EVENT("2 0 1 0 1 -"), "", "", END_OF_LOG},
    {"attributes of the log's tag", "<log", " a%1$x=\"\"", "", "", "><trace/></log>"},
    {"log: attributes, suffixes of others", "<log", " %3$s=\"\"", "", TWO_LAYERS, "><trace/></log>"},
    {"trace: attributes, suffixes of others", "<log><trace", " %3$s=\"\"", "", TWO_LAYERS, "/></log>"},
    {"event: attributes, suffixes of others", TRACE "<event", " %3$s=\"\"", "", TWO_LAYERS, "><string key=\"concept:name\" value=\"post 0:\"/></event>" END_OF_LOG},
    {"attributes of an event's name", TRACE POST_OF "\"", " a%1$x=\"\"", "", "", "/></event>" END_OF_LOG},
    {"string: attributes, suffixes of others", TRACE POST_OF "\"", " %3$s=\"\"", "", TWO_LAYERS, "/></event>" END_OF_LOG},
    {"string: attributes of equal hashes", TRACE POST_OF "\"", " %6$s=\"\"", "", "", "/></event>" END_OF_LOG},
    {"string: attributes of equal numbers", TRACE POST_OF "\"", " %11$s=\"\"", "", "", "/></event>" END_OF_LOG},
    {"string: attributes before key and value", TRACE "<event><string", " %3$s=\"\"", "", TWO_LAYERS, " key=\"concept:name\" value=\"post 0:\"/></event>" END_OF_LOG},
    {"events with long tags", TRACE, "<event a=\"" LONG_NAME LONG_NAME LONG_NAME LONG_NAME "\"><string a=\"" LONG_NAME LONG_NAME LONG_NAME LONG_NAME "\" key=\"concept:name\" value=\"1 0 0 0 0 -\"/></event>", "", "", END_OF_LOG},
    {"strings in an event", TRACE POST_OF "\"/>", "<string key=\"concept:nam\"/>", "", "", "</event>" END_OF_LOG},
    {"strings without a key", TRACE POST_OF "\"/>", "<string/>", "", "", "</event>" END_OF_LOG},
    {"dates in each event", TRACE, POST_OF "\"/><date key=\"time:timestamp\" value=\"2026-10-05T06:12:03+00:00\"/><int key=\"i\" value=\"%1$u\"/></event>", "", "", END_OF_LOG},
    {"values in a line", TRACE "<event><string key=\"concept:name\" value=\"post 0:0", ",0", "", "", "\"/></event>" END_OF_LOG},
    {"digits in a line", TRACE "<event><string key=\"concept:name\" value=\"post 0:", "0", "", "", "\"/></event>" END_OF_LOG},
    {"elements 16 deep in a trace", TRACE, "<a>" DEEP "<a/>" DEEP_END "</a>", "", "", END_OF_LOG},
    {"elements skipped in a log", "<log>", "<a/>", "", "", "<trace/></log>"},
    {"elements skipped in a trace", TRACE, "<a b=\"\"/>", "", "", END_OF_LOG},
    {"attributes in what a log skips", "<log><a", " %3$s=\"\"", "", TWO_LAYERS, "/><trace/></log>"},
    {"comments in a trace", TRACE, "<!---->", "", "", END_OF_LOG},
    {"sections in what is skipped", "<log><a>", "<![CDATA[]]>", "", "", "</a><trace/></log>"},
    {"text in what is skipped", "<log><a>", "]", "", "", "</a><trace/></log>"},
    {"references in what is skipped", "<log><a>", "&#x10FFFF;", "", "", "</a><trace/></log>"},
    {"blanks in a trace", TRACE, "\n", "", "", END_OF_LOG},
    {"events without a name", TRACE, "<event></event>", "", "", END_OF_LOG},
    {"lines in other words", TRACE, "<event><string key=\"concept:name\" value=\"&#49; 0 0 0 0 -\"/></event>", "", "", END_OF_LOG},
};

#define POOL "pool(1,start(1,2)|"

static const struct shape notations[] = {
    {"blanks", POOL "end(2", " ", "", "", "))"},
    {"blanks before a text", "", "\n", "", "", POOL "end(2))"},
    {"blanks behind a text", POOL "end(2))", "\t", "", "", ""},
    {"digits of an edge", POOL "end(2", "0", "", "", "))"},
    {"digits of a value", POOL "interSnd(2,0:<1", "1", "", "", ">,3)|end(3))"},
    {"letters of a keyword", POOL "end", "n", "", "", "(2))"},
    {"exits of a split", POOL "andSplit(2,{3", ",4", "", "", "})|end(3))"},
    {"branches of a split", POOL "xorSplit(2,{(3,true)", ",(4,d0=1)", "", "", "})|end(3)|end(4))"},
    {"branches of an event gateway", POOL "eventBased(2", ",(0:<?d0>,3)", "", "", ")|end(3))"},
    {"values of a message", POOL "interSnd(2,0:<1", ",d0+4294967295", "", "", ">,3)|end(3))"},
    {"assignments of a task", POOL "task(2,1,na_c,true,{d0:=1", ",d1:=d0+d0", "", "", "},3)|end(3))"},
    {"elements of a pool", POOL "end(2)", "|end(3)", "", "", ")"},
    {"brackets", POOL, "(", "", "", ")"},
};

#define FOUR(x, comma) x comma x comma x comma x
#define BRANCH_OF "(15:<?d15,d14+4294967295,?d13,d12-4294967295>,48)"

static const char *const elements[][2] = {
    {"a full model: ends", "end(48)"},
    {"a full model: splits", "andSplit(48," "{" FOUR("47", ",") "," FOUR("47", ",") "})"},
    {"a full model: joins", "xorJoin({" FOUR("47", ",") "," FOUR("47", ",") "},48)"},
    {"a full model: conditions", "xorSplit(48,{" FOUR("(47,d15<4294967295)", ",") "," FOUR("(47,4294967295=d14)", ",") "})"},
    {"a full model: receptions", "eventBased(48," FOUR(BRANCH_OF, ",") "," FOUR(BRANCH_OF, ",") ")"},
    {"a full model: messages", "interSnd(48,15:<" FOUR("4294967295-4294967295", ",") ">,47)"},
    {"a full model: tasks", "taskRcv(48,16,na_nc,d15=4294967295,{" FOUR("d15:=4294967295-4294967295", ",") "},15:<" FOUR("4294967295+4294967295", ",") ">,47)"},
    {"a full model: endSnd", "endSnd(48,15:<" FOUR("4294967295-4294967295", ",") ">)"},
};

static void letters_of(unsigned k, char *four) {
    /* no name here is one that a tag of ours has: no `id` */
    static const char first[] = "ABCDEFGHIJKLMNOPQRSTUVWXYZ_abcdefghjklmnopqrstuvwxyz", last[] = "abcdefghijklmnopqrstuvwxyzABCDEFGHIJKLMNOPQRSTUVWXYZ0123456789";
    unsigned firsts = sizeof first - 1, lasts = sizeof last - 1, high = k / lasts / firsts;
    sprintf(four, "%c%c%c%c", 'A' + k % 26, first[high % firsts], first[k / lasts % firsts], last[k % lasts]);
}

/* Names of nine bytes that have one number where a name's number is, from the ninth byte on, k mod 2^31 - 1 squared and k / 2^20 and the byte: for a number, each of its
   possible roots and last bytes leaves one k at most, and of these those that a name may be made of. */
enum { NINE = 9, LIKENESSES = 6000 };

static char equals[LIKENESSES][NINE + 1];

static bool begins_name(unsigned b) { return b >= 128 || b == '_' || (b >= 'A' && b <= 'Z') || (b >= 'a' && b <= 'z'); }

static bool spell_name(uint64_t k, unsigned last, char *name) {
    for (unsigned j = 0; j < 8; j++) {
        unsigned b = k >> (56 - 8 * j) & 255;
        if (!begins_name(b)) return false;
        name[j] = b;
    }
    name[8] = last, name[9] = 0;
    return true;
}

static unsigned put_equals(uint64_t number, unsigned count) {
    const uint64_t prime = 2147483647, least = (uint64_t)'A' << 36;
    uint64_t root = 0;
    for (unsigned bit = 31; bit--;)
        if ((root + ((uint64_t)1 << bit)) * (root + ((uint64_t)1 << bit)) <= number - least) root += (uint64_t)1 << bit;
    for (uint64_t low = root; low * low + ((uint64_t)1 << 44) > number; low--)
        for (unsigned last = 'A'; last < 256 && count < LIKENESSES; last++) {
            uint64_t high = number - last - low * low, rest = (low + prime - (high % prime << 20) % prime) % prime;
            if (begins_name(last) && high >= least && high < (uint64_t)1 << 44 && rest < 1 << 20 && spell_name((high << 20) + rest, last, equals[count])) count++;
        }
    return count;
}

static const char *equal_of(unsigned k) {
    static unsigned count;
    for (uint64_t number = (uint64_t)1 << 60; !equals[LIKENESSES - 1][0]; number += ((uint64_t)1 << 50) + 12345) count = put_equals(number, count);
    return equals[k % LIKENESSES];
}

/* a name by the bits of a number: two letters for 0 and two for 1 */
static void pairs_of(unsigned k, const char *none, const char *one, char *name) {
    *name = 0;
    for (unsigned b = 0; b < PAIRS; b++) strcat(name, k >> b & 1 ? one : none);
}

static size_t print(char *at, size_t room, const char *form, unsigned k) {
    enum { WORD = 355 };
    char four[8], hash[2 * PAIRS + 1], sum[2 * PAIRS + 1], word[WORD + 1], other[16];
    letters_of(k, four);
    pairs_of(k, "Aa", "BB", hash);
    pairs_of(k, "ab", "ba", sum);
    for (unsigned j = 0; j < WORD; j++) word[j] = 'a' + j * j % 23;
    word[WORD] = 0;
    sprintf(other, "Z%u", k);
    return snprintf(at, room, form, k, k + 1, four, four + 1, four + 2, hash, sum, k / GRID % GRID, k % GRID, k < WORD ? word + k : other, equal_of(k));
}

static const char *filled(const struct shape *shape, char *text, size_t *length) {
    char piece[PIECE];
    unsigned count = 0;
    size_t n = print(text, MOST, shape->before, 0), left = MOST - n - print(piece, sizeof piece, shape->between, 0) - 1;
    left -= print(piece, sizeof piece, shape->after, MOST);
    for (;; count++) {
        size_t m = print(piece, sizeof piece, shape->each, count), again = print(piece, sizeof piece, shape->again, count);
        if (m + again > left) break;
        left -= m + again;
        n += print(text + n, m + 1, shape->each, count);
    }
    n += print(text + n, MOST, shape->between, 0);
    for (unsigned k = 0; k < count; k++) n += print(text + n, MOST, shape->again, k);
    *length = n + print(text + n, MOST, shape->after, count);
    return shape->name;
}

/* four pools of 32 times one element, the rest of the bytes blanks, as many behind each sign */
static const char *spread(const char *const *element, char *text, size_t *length) {
    static char close[MOST];
    size_t n = 0, signs = 0, m = 0;
    for (unsigned p = 1; p <= 4; p++) {
        n += sprintf(close + n, p > 1 ? "|pool(%u,start(1,2)" : "pool(%u,start(1,2)", p);
        for (unsigned e = 1; e < 32; e++) n += sprintf(close + n, "|%s", element[1]);
        n += sprintf(close + n, ")");
    }
    for (size_t k = 0; k < n; k++) signs += strchr("(){}<>,:|", close[k]) != NULL;
    for (size_t k = 0; k < n; k++) {
        text[m++] = close[k];
        for (size_t blank = 0; strchr("(){}<>,:|", close[k]) && blank < (MOST - n) / signs && close[k + 1] != '='; blank++) text[m++] = ' ';
    }
    *length = m;
    return element[0];
}

#define MANY(list) (sizeof list / sizeof *list)

const char *worst_text(unsigned which, char *text, size_t *length) {
    return which < MANY(drawings) ? filled(&drawings[which], text, length) : NULL;
}

const char *worst_log(unsigned which, char *text, size_t *length) {
    return which < MANY(logs) ? filled(&logs[which], text, length) : NULL;
}

const char *worst_notation(unsigned which, char *text, size_t *length) {
    if (which < MANY(notations)) return filled(&notations[which], text, length);
    which -= MANY(notations);
    return which < MANY(elements) ? spread(elements[which], text, length) : NULL;
}

size_t worst_nesting(unsigned branches, char *text) {
    char *o = text + sprintf(text, "pool(1,start(1,2)|xorSplit(2,{(3,true),(4,true)})|xorJoin({3");
    for (unsigned b = 0; b < branches; b++) o += sprintf(o, ",%u", 20 + b);
    o += sprintf(o, "},5)|xorSplit(5,{");
    for (unsigned b = 0; b < branches; b++) o += sprintf(o, b ? ",(%u,true)" : "(%u,true)", 10 + b);
    o += sprintf(o, "})");
    for (unsigned b = 0; b < branches; b++) o += sprintf(o, "|xorSplit(%u,{(%u,true),(%u,true)})", 10 + b, 20 + b, 30 + b);
    o += sprintf(o, "|xorJoin({4");
    for (unsigned b = 0; b < branches; b++) o += sprintf(o, ",%u", 30 + b);
    return o + sprintf(o, "},6)|end(6))") - text;
}
