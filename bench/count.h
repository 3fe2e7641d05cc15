/* The instructions between count_from and count_to, counted under a label: by valgrind's callgrind, or by the emulator with the plugin bench/counter.c. By itself a
   program counts nothing, and prints the labels. */
#ifndef COUNT_H
#define COUNT_H

#include <stdio.h>
#include <sys/syscall.h>
#include <unistd.h>
#if defined __has_include
#if __has_include(<valgrind/callgrind.h>)
#include <valgrind/callgrind.h>
#endif
#endif
#ifndef CALLGRIND_TOGGLE_COLLECT
#define CALLGRIND_TOGGLE_COLLECT (void)0
#define CALLGRIND_DUMP_STATS_AT(label) (void)0
#endif

/* a question about a process that cannot be, which the plugin knows by its number */
enum { COUNT_FROM = -636501, COUNT_TO = -636502 };

static inline void count_from(void) {
    syscall(SYS_getpgid, (long)COUNT_FROM);
    CALLGRIND_TOGGLE_COLLECT;
}

static inline void count_to(const char *label) {
    CALLGRIND_TOGGLE_COLLECT;
    syscall(SYS_getpgid, (long)COUNT_TO);
    CALLGRIND_DUMP_STATS_AT(label);
    puts(label);
}

#endif
