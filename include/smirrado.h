/* Smirrado: the table of a job sheet, for a host in C or C++ on x86-64 Linux. Link libhost.a.
 *
 * smirrado_make turns a sheet into a table file. The host keeps a desk, all zero at first, and
 * tells smirrado_step each event. smirrado_row says which jobs may be started in a state and
 * whether the clock may tick, and smirrado_row_quick says it without reading the whole file;
 * smirrado_leeway says how long a job can still wait, and smirrado_listing goes through the whole
 * table. examples/night.c is a host. smirrado_engine judges small sheets in a second, plain way,
 * for those who want to follow the judgement by hand.
 *
 * WHAT EVERY CALL KEEPS TO
 *
 * A call takes any numbers and bytes at all, ends, and touches nothing outside what it is lent.
 * The end of smirrado_engine may be further off than anybody waits: it is for small sheets.
 *
 * A call answers a struct by value: a number, a detail and results. The number is 0 for done, or
 * tells why not; where several reasons hold, the one that stands first in the call's own list.
 * The detail is 0 where none is named. On a refusal every result is 0. Bytes between the fields
 * of an answer hold anything: compare fields, not memory.
 *
 * POINTERS
 *
 * - A pointer is lent with a count of elements and must be good for that many: for reading, and
 *   without const for writing.
 * - sheet and work must be aligned as C asks of uint16_t and uint32_t. file, out and desk may lie
 *   at any address.
 * - Where the count is 0 the pointer may be null or anything: nothing is read or written through
 *   it. desk is never null.
 * - work, out and desk may not overlap each other or anything else lent to the same call. What is
 *   lent as const is only read, and may lie in memory that can't be written.
 * - Until the call returns, nothing else writes to what it is lent, and nothing else reads work,
 *   out or desk.
 *
 * MEMORY, THREADS AND STACK
 *
 * The library allocates nothing, makes no system call, has no variables and keeps nothing from
 * call to call; of the C library it uses memcpy, memmove and memset alone. So any number of
 * threads may call it at the same time, each with its own work, out and desk; they may share a
 * sheet or a file that nobody changes.
 *
 * A call takes at most so many bytes of stack, counted from the caller's stack pointer down, the
 * return address among them: few enough for an interrupt's stack, but for make and engine, which
 * are to be called where there is room. tests/c/stack.c measures this on a painted stack, over
 * good and bad sheets, files and events, and the tests fail where a call takes more. Where memcpy
 * and its kin are bound lazily, the first call of each runs the dynamic linker on that stack too:
 * that is not counted here. */
#ifndef SMIRRADO_H
#define SMIRRADO_H

#include <stddef.h>
#include <stdint.h>

#ifdef __cplusplus
extern "C" {
#endif

#define SMIRRADO_MAKE_STACK 40960    /* measured: 35,504 */
#define SMIRRADO_ROW_STACK 512       /* 241 */
#define SMIRRADO_ROW_QUICK_STACK 512 /* 241 */
#define SMIRRADO_LISTING_STACK 512   /* 305 */
#define SMIRRADO_LEEWAY_STACK 512    /* 241 */
#define SMIRRADO_STEP_STACK 512      /* 449 */
#define SMIRRADO_ENGINE_STACK 131072 /* 25,940 */

#define SMIRRADO_JOBS 8           /* the most jobs of a sheet */
#define SMIRRADO_ENGINE_JOBS 4    /* the most jobs of a sheet that engine judges */
#define SMIRRADO_WORK_WORDS 15748 /* the words that make works in: 62,992 bytes */
#define SMIRRADO_FILE_BYTES 65536 /* the most bytes of a table file */

/* The number of an answer, with its detail where it has one. */
enum {
    SMIRRADO_DONE = 0,
    SMIRRADO_BAD_SHEET_LENGTH = 1, /* not 4, 8, .. 32 numbers; for engine not 4, 8, 12, 16 */
    SMIRRADO_BAD_JOB = 2,          /* a job of bad form; detail: the lowest such job, from 1 */
    SMIRRADO_WORK_TOO_SHORT = 3,   /* fewer than SMIRRADO_WORK_WORDS words */
    SMIRRADO_TOO_MANY_STATES = 4,  /* more than 7,874 live states */
    SMIRRADO_IMPOSSIBLE = 5,       /* no rule of starting keeps every job in time */
    SMIRRADO_OUTPUT_TOO_SHORT = 6, /* detail: the bytes that the file takes */
    SMIRRADO_BAD_FILE = 7,         /* detail: the lowest bad block, or 0 for a bad length */
    SMIRRADO_NO_ROW = 8,           /* the state, or the row number, is no row of the file */
    SMIRRADO_BAD_JOB_OR_EVENT = 9, /* a job or event byte that the file has not */
    SMIRRADO_NOT_POSSIBLE = 10,    /* the event is not possible in this state */
    SMIRRADO_NOT_ALLOWED = 11,     /* a start or tick that is possible, and not in the row */
    SMIRRADO_NO_LEEWAY = 12        /* the job is running or done */
};

/* The status of a job in a state. */
enum {
    SMIRRADO_STATUS_NOT_ARRIVED = 0,
    SMIRRADO_STATUS_READY = 1,
    SMIRRADO_STATUS_RUNNING = 2,
    SMIRRADO_STATUS_DONE = 3
};

/* The tick in a row. */
enum {
    SMIRRADO_TICK_NONE = 0, /* it is not possible */
    SMIRRADO_TICK_OPEN = 1, /* it is allowed */
    SMIRRADO_TICK_HELD = 2  /* it is possible, but one of the starts has to be taken first */
};

/* Event bytes. Jobs are numbered from 1. */
#define SMIRRADO_TICK ((uint8_t)0)
#define SMIRRADO_ARRIVAL(job) ((uint8_t)(job))       /* 1 to 8 */
#define SMIRRADO_START(job) ((uint8_t)(16 + (job)))  /* 17 to 24 */
#define SMIRRADO_ENDING(job) ((uint8_t)(32 + (job))) /* 33 to 40 */

struct smirrado_make_reply {
    uint32_t number, detail;
    uint32_t length; /* of the file, in bytes */
};

struct smirrado_row_reply {
    uint32_t number, detail;
    uint8_t starts; /* bit k - 1 is set where job k may be started */
    uint8_t tick;   /* SMIRRADO_TICK_NONE, _OPEN or _HELD */
};

struct smirrado_listing_reply {
    uint32_t number, detail;
    uint32_t jobs, rows;                 /* how many there are */
    uint16_t numbers[4 * SMIRRADO_JOBS]; /* A, B, W, D of each job, 0 past the last */
    uint32_t word;                       /* the row that was asked for: its state, */
    uint8_t starts, tick;                /* and its marks as in smirrado_row_reply */
};

struct smirrado_leeway_reply {
    uint32_t number, detail;
    int32_t leeway; /* in ticks, from -255 to 254 */
};

struct smirrado_step_reply {
    uint32_t number, detail;
};

struct smirrado_engine_reply {
    uint32_t number, detail;
};

/* A state as the host follows it. It belongs to the host: all zero is the start, and a copy kept
 * is a state kept. */
struct smirrado_desk {
    uint8_t now;                     /* the tick */
    uint8_t elapsed;                 /* the ticks of the running job, 0 where none runs */
    uint8_t statuses[SMIRRADO_JOBS]; /* SMIRRADO_STATUS_..; 0 past the last job */
};

/* A state as one number, its word:
 *
 *     now * 2^24 + elapsed * 2^16 + the sum over jobs i, from 1, of status * 4^(i - 1)
 *
 * The start is word 0. When the last job ends, now and elapsed are 0 again: there is one finished
 * state. */

/* The word of a desk. With a status above 3 it is one that no row has, so that the calls answer 8
 * as step does. */
static inline uint32_t smirrado_word_of(const struct smirrado_desk *desk)
{
    uint32_t word = (uint32_t)desk->now << 24 | (uint32_t)desk->elapsed << 16;
    for (int i = 0; i < SMIRRADO_JOBS; i++) {
        if (desk->statuses[i] > SMIRRADO_STATUS_DONE)
            return UINT32_MAX;
        word |= (uint32_t)desk->statuses[i] << 2 * i;
    }
    return word;
}

/* The desk of a word. */
static inline struct smirrado_desk smirrado_desk_of(uint32_t word)
{
    struct smirrado_desk desk;
    desk.now = (uint8_t)(word >> 24);
    desk.elapsed = (uint8_t)(word >> 16);
    for (int i = 0; i < SMIRRADO_JOBS; i++)
        desk.statuses[i] = (uint8_t)(word >> 2 * i & 3);
    return desk;
}

/* MAKE: the table of a sheet, written as a file.
 *
 * Takes    sheet   4 numbers a job, job after job: arrival tick A, fewest ticks B, most ticks W,
 *                  due ticks D from arrival. 1 to 8 jobs, each with 1 <= B <= W <= D and
 *                  A + D <= 255.
 *          work    room to work in; what it holds does not matter, and it need not be set before.
 *          out     room for the file; SMIRRADO_FILE_BYTES are always enough.
 *
 * Answers  0   length is the file's: 512 bytes a block, 2 to 128 blocks
 *          1   count is not 4, 8, .. 32
 *          2   a job is of bad form; detail is the lowest such job
 *          3   words is below SMIRRADO_WORK_WORDS
 *          4   the sheet has more than 7,874 live states
 *          5   the sheet is impossible: no rule of starting keeps every job in time whatever
 *              happens
 *          6   bytes is below the file's length; detail is that length. So null and 0 for out ask
 *              how much is needed.
 *
 * Leaves   number    the first SMIRRADO_WORK_WORDS of work    out
 *          0         zero                                     the file in its first length bytes
 *          1, 2, 3   as before                                as before
 *          4, 5, 6   zero                                     as before
 *
 *          All the rest of work and out is as before, always.
 *
 * The file is plain bytes, the same on every machine: store it, copy it, lend it to the calls
 * below. */
struct smirrado_make_reply smirrado_make(const uint16_t *sheet, size_t count, uint32_t *work,
                                         size_t words, uint8_t *out, size_t bytes);

/* The calls below take a file from anywhere and judge it each time, block by block: all of it, but
 * for smirrado_row_quick. A file of bad form is not read.
 * A file of good form that make did not write is read as it stands, and need not be safe to
 * follow. */

/* ROW: what may be started in a state, and whether the clock may tick.
 *
 * Takes    file, and the word of a state.
 *
 * Answers  0   starts and tick
 *          7   the file is of bad form; detail is its lowest bad block
 *          8   the word is no row of the file
 *
 * Leaves   everything as before. */
struct smirrado_row_reply smirrado_row(const uint8_t *file, size_t bytes, uint32_t word);

/* ROW QUICK: the same from no more blocks than it takes. Block 0 is read, then the blocks of rows
 * in order, up to the first that is bad or whose last word is not below the asked one: a row early
 * in the file is told soon. On a file of good form the answer is smirrado_row's. A bad block
 * behind those read is not seen.
 *
 * Takes    file, and the word of a state.
 *
 * Answers  0   starts and tick
 *          7   a block that was read is bad; detail is that block, and 0 where the length is no
 *              file's
 *          8   the word is no row of the blocks read
 *
 * Leaves   everything as before. */
struct smirrado_row_reply smirrado_row_quick(const uint8_t *file, size_t bytes, uint32_t word);

/* LISTING: the jobs, the count of rows, and one row by its number. Rows are numbered from 1, in
 * ascending order of word.
 *
 * Takes    file, and the number of a row. Row 1, the start, is in every file of good form.
 *
 * Answers  0   jobs, rows and numbers; word, starts and tick of that row
 *          7   the file is of bad form; detail is its lowest bad block
 *          8   row_number is 0 or above the count of rows
 *
 * Leaves   everything as before. */
struct smirrado_listing_reply smirrado_listing(const uint8_t *file, size_t bytes,
                                               uint32_t row_number);

/* LEEWAY: how many ticks a job that is not yet started can still wait and be sure to be out in
 * time, were the RIP its own: A + D - W - now. Below zero means too late to be sure. Whether the
 * job may be started is for the row to say.
 *
 * Takes    file, the word of a state, and the number of a job.
 *
 * Answers  0   leeway
 *          7   the file is of bad form; detail is its lowest bad block
 *          9   job is not 1 to the number of jobs
 *          8   the word is no row of the file
 *          12  the job is running or done in that state
 *
 * Leaves   everything as before. */
struct smirrado_leeway_reply smirrado_leeway(const uint8_t *file, size_t bytes, uint32_t word,
                                             uint32_t job);

/* STEP: an event happens, and the desk follows it.
 *
 * Takes    file, the desk, and an event byte: SMIRRADO_TICK, or SMIRRADO_ARRIVAL, SMIRRADO_START
 *          or SMIRRADO_ENDING of a job from 1 to the number of jobs. Any other byte is of no kind.
 *
 * Answers  0   done
 *          7   the file is of bad form; detail is its lowest bad block
 *          9   the byte is of no kind, or its job is not one of the file's
 *          8   the desk's state is no row of the file; a status above 3 is in no row
 *          10  the event is not possible in this state: an arrival at another tick, an ending
 *              before the fewest ticks, a start before an arrival of the same tick has been
 *              told, ..
 *          11  the start or the tick is possible, but the row does not allow it. Arrivals and
 *              endings are never stopped.
 *
 * Leaves   the desk, on 0, in the state after the event; on a refusal as it stood. It must be
 *          writable all the same.
 *
 * In a file that make did not write, a step may lead to a state that is no row; it is taken, and
 * the next answers 8. */
struct smirrado_step_reply smirrado_step(const uint8_t *file, size_t bytes,
                                         struct smirrado_desk *desk, uint8_t event);

/* ENGINE: whether a sheet of up to four jobs can be scheduled, told by playing every run to its
 * end. docs/ENGINE.md plays one by hand.
 *
 * Takes    sheet   as make does, of 1 to 4 jobs.
 *
 * Answers  0   the sheet can be scheduled
 *          1   count is not 4, 8, 12 or 16
 *          2   a job is of bad form; detail is the lowest such job
 *          5   the sheet is impossible, as make says
 *
 * Leaves   everything as before.
 *
 * It has no limit of live states and needs no room to work in. It keeps no state that it has met:
 * where two runs meet, it plays on twice, so that the time can double with every tick and job. It
 * is for small sheets; on a large impossible one it does not come back in a lifetime. Each event
 * that is still to come takes its part of the stack, at most 267 of them. */
struct smirrado_engine_reply smirrado_engine(const uint16_t *sheet, size_t count);

#ifdef __cplusplus
}
#endif

#endif
