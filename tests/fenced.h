/*
 * For hosts that make calls for a driver in another language, job after job on
 * standard input: room between pages that may not be touched, so that a call
 * which reads or writes one byte too far ends the program, and what is taken from
 * the driver and given to it.  Wants _GNU_SOURCE.
 */
#ifndef TESTS_FENCED_H
#define TESTS_FENCED_H

#include <stdint.h>
#include <stdio.h>
#include <stdlib.h>
#include <sys/mman.h>

enum { PAGE = 4096, PAGES = 64, MOST = PAGE * PAGES };

static void need(int holds) {
    if (!holds) {
        perror("host");
        exit(2);
    }
}

/* MOST bytes between two pages that may not be touched. */
static uint8_t *fenced(void) {
    uint8_t *map = mmap(NULL, MOST + 2 * PAGE, PROT_NONE, MAP_PRIVATE | MAP_ANONYMOUS, -1, 0);
    need(map != MAP_FAILED && mprotect(map + PAGE, MOST, PROT_READ | PROT_WRITE) == 0);
    return map + PAGE;
}

static void take(void *to, size_t len) {
    need(fread(to, 1, len, stdin) == len);
}

static void give(const void *from, size_t len) {
    need(fwrite(from, 1, len, stdout) == len);
}

#endif
