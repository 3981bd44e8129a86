/* How much stack each call takes. The call runs on a stack of its own that was filled with a pattern; afterwards the lowest
 * byte that has changed is looked for. No call may take more than the header says. Prints a line for each call and closes
 * with 'N passed, M failed'. Linked with memcpy and its kin bound at once (-z now): the dynamic linker is not measured. */
#define _XOPEN_SOURCE 700
#include "smirrado.h"
#include "sheets.h"
#include <stdio.h>
#include <string.h>
#include <ucontext.h>

/* The stack of a call is this much longer than what the header says, so that a call that takes more is seen to. */
enum { SPARE = 1 << 14 };

static uint8_t stack[SMIRRADO_ENGINE_STACK + SPARE]; /* engine takes most */
_Static_assert(SMIRRADO_MAKE_STACK <= SMIRRADO_ENGINE_STACK, "make's stack");
static uint8_t *before; /* the stack pointer just before the call */

/* What the calls are lent. */
static const struct sheet *sheet;
static uint32_t work[SMIRRADO_WORK_WORDS];
static uint8_t out[SMIRRADO_FILE_BYTES];
static size_t words, bytes;
static uint8_t file[SMIRRADO_FILE_BYTES];
static size_t length;
static uint32_t asked_word, asked_number;
static struct smirrado_desk desk;
static uint8_t event;

static struct smirrado_make_reply made;
static struct smirrado_row_reply row;
static struct smirrado_row_reply row_quick;
static struct smirrado_listing_reply listing;
static struct smirrado_leeway_reply leeway;
static struct smirrado_step_reply stepped;
static struct smirrado_engine_reply judged;

/* Compiled without optimisation the stack pointer stays where it is from here to the call. */
#define HERE __asm__ volatile("mov %%rsp, %0" : "=m"(before))

static void call_make(void) { HERE; made = smirrado_make(sheet->numbers, sheet->count, work, words, out, bytes); }
static void call_row(void) { HERE; row = smirrado_row(file, length, asked_word); }
static void call_row_quick(void) { HERE; row_quick = smirrado_row_quick(file, length, asked_word); }
static void call_listing(void) { HERE; listing = smirrado_listing(file, length, asked_number); }
static void call_leeway(void) { HERE; leeway = smirrado_leeway(file, length, asked_word, asked_number); }
static void call_step(void) { HERE; stepped = smirrado_step(file, length, &desk, event); }
static void call_engine(void) { HERE; judged = smirrado_engine(sheet->numbers, sheet->count); }

struct measured {
    const char *name;
    void (*call)(void);
    size_t told, deepest, calls;
};

static struct measured make_call = {"smirrado_make", call_make, SMIRRADO_MAKE_STACK, 0, 0};
static struct measured row_call = {"smirrado_row", call_row, SMIRRADO_ROW_STACK, 0, 0};
static struct measured row_quick_call = {"smirrado_row_quick", call_row_quick, SMIRRADO_ROW_QUICK_STACK, 0, 0};
static struct measured listing_call = {"smirrado_listing", call_listing, SMIRRADO_LISTING_STACK, 0, 0};
static struct measured leeway_call = {"smirrado_leeway", call_leeway, SMIRRADO_LEEWAY_STACK, 0, 0};
static struct measured step_call = {"smirrado_step", call_step, SMIRRADO_STEP_STACK, 0, 0};
static struct measured engine_call = {"smirrado_engine", call_engine, SMIRRADO_ENGINE_STACK, 0, 0};

/* Four jobs that can wait until tick 255: no sheet has more events to come. */
static const struct sheet longest = {"longest runs", {0, 1, 1, 255, 0, 1, 1, 255, 0, 1, 1, 255, 0, 1, 1, 255}, 16, 0, 0, 0};

static size_t depth(const struct measured *m, int pattern)
{
    static ucontext_t here, there;
    size_t at = 0;
    memset(stack, pattern, m->told + SPARE);
    getcontext(&there);
    there.uc_stack.ss_sp = stack;
    there.uc_stack.ss_size = m->told + SPARE;
    there.uc_link = &here;
    makecontext(&there, m->call, 0);
    swapcontext(&here, &there);
    while (stack[at] == pattern)
        at++;
    return (size_t)(before - &stack[at]);
}

/* Two patterns, so that a byte written with one of them is still seen. */
static void measure(struct measured *m)
{
    static const int patterns[] = {0xA5, 0x5A};
    struct smirrado_desk kept = desk;
    for (int i = 0; i < 2; i++) {
        desk = kept;
        size_t found = depth(m, patterns[i]);
        if (found > m->deepest)
            m->deepest = found;
        m->calls++;
    }
}

/* Every so many rows: the row, leeway of each job number, the event bytes, and a word that is no row. */
static void measure_reading(size_t stride)
{
    struct smirrado_listing_reply first = smirrado_listing(file, length, 1);
    for (uint32_t number = 0; number <= first.rows + 1; number += (uint32_t)stride) {
        asked_number = number;
        measure(&listing_call);
        asked_word = listing.word;
        measure(&row_call);
        measure(&row_quick_call);
        for (asked_number = 0; asked_number <= 9; asked_number++)
            measure(&leeway_call);
        struct smirrado_desk there = smirrado_desk_of(asked_word);
        for (int byte = 0; byte <= 48; byte++) {
            desk = there;
            event = (uint8_t)byte;
            measure(&step_call);
        }
        asked_word ^= 1u << 31;
        measure(&row_call);
        measure(&row_quick_call);
    }
}

static int told(const struct measured *m)
{
    int good = m->calls > 0 && m->deepest > 0 && m->deepest <= m->told;
    printf("%s  %s takes %zu bytes of stack, the header says %zu (%zu calls)\n", good ? "passed" : "failed", m->name,
           m->deepest, m->told, m->calls);
    return good;
}

int main(void)
{
    const struct measured *all[] = {&make_call, &row_call, &row_quick_call, &listing_call, &leeway_call, &step_call, &engine_call};
    enum { CALLS = sizeof all / sizeof *all };
    int passed = 0;
    sheet = &longest;
    measure(&engine_call);
    for (int i = 0; i < SHEETS; i++) {
        sheet = &sheets[i];
        measure(&engine_call);
        words = SMIRRADO_WORK_WORDS - 1, bytes = sizeof out;
        measure(&make_call);
        words = SMIRRADO_WORK_WORDS, bytes = 0;
        measure(&make_call);
        bytes = sizeof out;
        measure(&make_call);
        if (made.number != SMIRRADO_DONE)
            continue;
        length = made.length;
        memcpy(file, out, length);
        measure_reading(length > 4096 ? 97 : 1);
        file[length - 1] ^= 1; /* the last block is bad */
        measure_reading(1);
        length--; /* no length of a file */
        measure_reading(1);
    }
    for (int i = 0; i < CALLS; i++)
        passed += told(all[i]);
    printf("%d passed, %d failed\n", passed, CALLS - passed);
    return passed != CALLS;
}
