/* Two nights at the RIP: a host in C that makes the table of a sheet and follows it.
 *
 *     (cd crates/host && rt lib)
 *     cc -std=c11 -Iinclude examples/night.c crates/host/out/libhost.a -o night
 *
 * How long a job runs is not known beforehand. Here a script says it; a real host would be told by the RIP. What the
 * program prints is in night.txt: the tick, and what happens at it. */
#include "smirrado.h"
#include <stdio.h>
#include <stdlib.h>

enum { JOBS = 4 };

/* The sheet, job after job. Hearts come in at 2 and must be out by 5; jokers come in at 9 and must be out by 12. */
enum { ARRIVAL_TICK, FEWEST, MOST, DUE };
static const uint16_t sheet[4 * JOBS] = {
    0, 3, 5, 20, /* spades */
    2, 1, 3, 3,  /* hearts */
    3, 2, 4, 12, /* backs */
    9, 1, 2, 3,  /* jokers */
};
static const char *const names[JOBS] = {"spades", "hearts", "backs", "jokers"};

/* The ticks that each job runs: on the first night hearts end early, on the second each job takes its most. */
static const uint8_t nights[2][JOBS] = {{4, 1, 2, 1}, {5, 3, 4, 2}};

/* The room that make works in and the table that it writes are the host's. */
static uint32_t work[SMIRRADO_WORK_WORDS];
static uint8_t table[SMIRRADO_FILE_BYTES];
static size_t table_bytes;

static void stop(const char *call, uint32_t number, uint32_t detail)
{
    printf("%s refused %u %u\n", call, (unsigned)number, (unsigned)detail);
    exit(EXIT_FAILURE);
}

/* The quick row: the table is make's own and stays in this program, so nothing in it has to be judged again. */
static struct smirrado_row_reply row_of(const struct smirrado_desk *desk)
{
    struct smirrado_row_reply row = smirrado_row_quick(table, table_bytes, smirrado_word_of(desk));
    if (row.number != SMIRRADO_DONE)
        stop("row", row.number, row.detail);
    return row;
}

static int leeway_of(const struct smirrado_desk *desk, int job)
{
    struct smirrado_leeway_reply reply = smirrado_leeway(table, table_bytes, smirrado_word_of(desk), (uint32_t)job);
    if (reply.number != SMIRRADO_DONE)
        stop("leeway", reply.number, reply.detail);
    return (int)reply.leeway;
}

static void step(struct smirrado_desk *desk, uint8_t event)
{
    struct smirrado_step_reply reply = smirrado_step(table, table_bytes, desk, event);
    if (reply.number != SMIRRADO_DONE)
        stop("step", reply.number, reply.detail);
}

/* Jobs count from 1 everywhere but in an index. */
static const char *name(int job) { return names[job - 1]; }
static int number_of(int job, int which) { return sheet[4 * (job - 1) + which]; }
static int status(const struct smirrado_desk *desk, int job) { return desk->statuses[job - 1]; }
static int may_start(uint8_t starts, int job) { return starts >> (job - 1) & 1; }

/* The lowest job with this status, or 0. */
static int job_with(const struct smirrado_desk *desk, int wanted)
{
    for (int job = 1; job <= JOBS; job++)
        if (status(desk, job) == wanted)
            return job;
    return 0;
}

/* The job whose artwork is due in at this tick, or 0. */
static int arriving(const struct smirrado_desk *desk)
{
    for (int job = 1; job <= JOBS; job++)
        if (status(desk, job) == SMIRRADO_STATUS_NOT_ARRIVED && number_of(job, ARRIVAL_TICK) == desk->now)
            return job;
    return 0;
}

/* The job that has run its time, or 0. */
static int ending(const struct smirrado_desk *desk, const uint8_t *runs_for)
{
    int running = job_with(desk, SMIRRADO_STATUS_RUNNING);
    return running != 0 && desk->elapsed == runs_for[running - 1] ? running : 0;
}

/* Of the starts that the row allows, the job that can wait least; 0 where it allows none. */
static int chosen(const struct smirrado_desk *desk, uint8_t starts)
{
    int best = 0;
    for (int job = 1; job <= JOBS; job++)
        if (may_start(starts, job) && (best == 0 || leeway_of(desk, job) < leeway_of(desk, best)))
            best = job;
    return best;
}

/* The ready jobs of a free RIP, and whether the RIP or the clock is held. */
static void say_ready(const struct smirrado_desk *desk, struct smirrado_row_reply row)
{
    for (int job = 1; job <= JOBS; job++)
        if (status(desk, job) == SMIRRADO_STATUS_READY)
            printf("%2d  %s %s, leeway %d\n", desk->now, name(job), may_start(row.starts, job) ? "may start" : "must wait",
                   leeway_of(desk, job));
    if (row.starts == 0 && job_with(desk, SMIRRADO_STATUS_READY) != 0)
        printf("%2d  the RIP is held idle\n", desk->now);
    if (row.tick == SMIRRADO_TICK_HELD)
        printf("%2d  the clock is held until a start is taken\n", desk->now);
}

/* One event of the night: what can't be stopped first, then an allowed start, then the tick. */
static void go_on(struct smirrado_desk *desk, const uint8_t *runs_for)
{
    int in = arriving(desk), out = ending(desk, runs_for);
    if (in != 0) {
        printf("%2d  %s come in\n", desk->now, name(in));
        step(desk, SMIRRADO_ARRIVAL(in));
        return;
    }
    if (out != 0) {
        printf("%2d  %s end after %d of at most %d ticks\n", desk->now, name(out), desk->elapsed, number_of(out, MOST));
        step(desk, SMIRRADO_ENDING(out));
        return;
    }
    struct smirrado_row_reply row = row_of(desk);
    if (job_with(desk, SMIRRADO_STATUS_RUNNING) == 0)
        say_ready(desk, row);
    int job = chosen(desk, row.starts);
    if (job != 0)
        printf("%2d  %s start\n", desk->now, name(job));
    step(desk, job != 0 ? SMIRRADO_START(job) : SMIRRADO_TICK);
}

/* The finished state is one: every job is done. */
static int finished(const struct smirrado_desk *desk)
{
    for (int job = 1; job <= JOBS; job++)
        if (status(desk, job) != SMIRRADO_STATUS_DONE)
            return 0;
    return 1;
}

int main(void)
{
    struct smirrado_make_reply made = smirrado_make(sheet, 4 * JOBS, work, SMIRRADO_WORK_WORDS, table, sizeof table);
    if (made.number != SMIRRADO_DONE)
        stop("make", made.number, made.detail);
    table_bytes = made.length;
    struct smirrado_listing_reply first = smirrado_listing(table, table_bytes, 1);
    printf("%u jobs, %u rows, %u bytes\n", (unsigned)first.jobs, (unsigned)first.rows, (unsigned)made.length);

    for (int i = 0; i < 2; i++) {
        struct smirrado_desk desk = {0};
        printf("\nnight %d\n", i + 1);
        while (!finished(&desk))
            go_on(&desk, nights[i]);
        puts("all are out");
    }
    return EXIT_SUCCESS;
}
