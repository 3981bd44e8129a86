/* Sheets for the tests in C, one for each answer of make that a sheet can bring about. */
#ifndef SHEETS_H
#define SHEETS_H

#include <stddef.h>
#include <stdint.h>

struct sheet {
    const char *what;
    uint16_t numbers[36]; /* A, B, W, D of each job */
    size_t count;
    uint32_t number, detail; /* make's answer, given room */
    uint32_t length;
};

static const struct sheet sheets[] = {
    {"no number at all", {0}, 0, 1, 0, 0},
    {"three numbers", {0, 1, 1}, 3, 1, 0, 0},
    {"nine jobs",
     {0, 1, 1, 9, 0, 1, 1, 9, 0, 1, 1, 9, 0, 1, 1, 9, 0, 1, 1, 9, 0, 1, 1, 9, 0, 1, 1, 9, 0, 1, 1, 9, 0, 1, 1, 9},
     36, 1, 0, 0},
    {"fewest ticks 0", {0, 1, 1, 1, 0, 0, 1, 1}, 8, 2, 2, 0},
    {"arrival and due make 65,536", {65535, 1, 1, 1}, 4, 2, 1, 0},
    {"too many states", {0, 255, 255, 255}, 4, 4, 0, 0},
    {"too many states, found late", {5, 25, 41, 202}, 4, 4, 0, 0},
    {"impossible, though a lucky run is in time", {0, 1, 2, 2, 0, 1, 1, 2}, 8, 5, 0, 0},
    {"impossible, 7,874 live states", {66, 1, 58, 160, 214, 1, 2, 2, 214, 1, 2, 2}, 12, 5, 0, 0},
    {"one job", {0, 1, 1, 1}, 4, 0, 0, 1024},
    {"two jobs, the RIP held idle", {0, 2, 4, 7, 1, 1, 2, 4}, 8, 0, 0, 1024},
    {"three jobs, 128 blocks", {7, 1, 1, 224, 5, 1, 2, 229, 8, 1, 1, 225}, 12, 0, 0, 65536},
    {"eight jobs, 7,874 live states",
     {151, 2, 2, 19, 164, 1, 1, 5, 158, 1, 2, 27, 138, 1, 1, 29, 158, 1, 1, 15, 161, 1, 2, 20, 135, 1, 2, 9, 152, 1, 2, 16},
     32, 0, 0, 44032},
};

enum { SHEETS = sizeof sheets / sizeof *sheets };

#endif
