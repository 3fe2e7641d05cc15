/* The pieces of a log as it is written, each whole or not at all: printed by the C library, and moments by its calendar. */
#include "layout.h"
#include <stdio.h>
#include <time.h>

enum { PIECE = 1024 };

static char piece[PIECE];

static ref_written given(uint8_t *buffer, size_t length) {
    size_t n = strlen(piece);
    if (n > length) return (ref_written){5, 0};
    memcpy(buffer, piece, n);
    return (ref_written){0, n};
}

ref_written ref_log_begin(uint8_t *buffer, size_t length) {
    strcpy(piece, "<?xml version=\"1.0\" encoding=\"UTF-8\"?>\n"
                  "<log xes.version=\"1849-2016\" xes.features=\"\" xmlns=\"http://www.xes-standard.org/\">\n"
                  "<extension name=\"Concept\" prefix=\"concept\" uri=\"http://www.xes-standard.org/concept.xesext\"/>\n"
                  "<extension name=\"Time\" prefix=\"time\" uri=\"http://www.xes-standard.org/time.xesext\"/>\n"
                  "<global scope=\"event\"><string key=\"concept:name\" value=\"UNKNOWN\"/></global>\n"
                  "<classifier name=\"Event-Name\" keys=\"concept:name\"/>\n"
                  "<trace><string key=\"concept:name\" value=\"run\"/>\n");
    return given(buffer, length);
}

ref_written ref_log_end(uint8_t *buffer, size_t length) {
    strcpy(piece, "</trace>\n</log>\n");
    return given(buffer, length);
}

static size_t put_values(size_t n, ref_tuple g) {
    for (unsigned j = 0; j < g.length && j < VALUES; j++) n += sprintf(piece + n, j ? ",%u" : "%u", g.values[j]);
    return n;
}

/* the moment, where it is one of the years 1970 to 9999, and the end of the event */
static ref_written closed(size_t n, uint64_t moment, uint8_t *buffer, size_t length) {
    time_t seconds = moment / 1000;
    struct tm day;
    n += sprintf(piece + n, "\"/>");
    if (moment && gmtime_r(&seconds, &day) && day.tm_year + 1900 <= 9999) {
        n += sprintf(piece + n, "<date key=\"time:timestamp\" value=\"");
        n += strftime(piece + n, PIECE - n, "%Y-%m-%dT%H:%M:%S", &day);
        n += sprintf(piece + n, ".%03u+00:00\"/>", (unsigned)(moment % 1000));
    }
    sprintf(piece + n, "</event>\n");
    return given(buffer, length);
}

ref_written ref_log_step(ref_name s, ref_answer a, uint64_t moment, uint8_t *buffer, size_t length) {
    size_t n = sprintf(piece, "<event><string key=\"concept:name\" value=\"%u %u %u %u %u ", s.pool, s.instance, s.element, s.phase, s.branch);
    if (a.traffic == 1 || a.traffic == 2) n = put_values(n + sprintf(piece + n, "%c%u:", a.traffic == 1 ? '?' : '!', a.name), a.tuple);
    else piece[n++] = '-', piece[n] = 0;
    return closed(n, moment, buffer, length);
}

ref_written ref_log_post(word name, ref_tuple values, uint64_t moment, uint8_t *buffer, size_t length) {
    return closed(put_values(sprintf(piece, "<event><string key=\"concept:name\" value=\"post %u:", name), values), moment, buffer, length);
}
