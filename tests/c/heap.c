/* Calls good and bad on heap blocks of exactly the bytes that are lent, not set before where the header does not ask it. Run
 * under valgrind, which sees a touch outside a block, a decision on a byte that nobody set, and a block never given back.
 * Closes with 'N passed, M failed'. */
#include "smirrado.h"
#include "sheets.h"
#include <stdio.h>
#include <stdlib.h>
#include <string.h>

static int passed, failed;

static void test(const char *name, int good)
{
    printf("%s  %s\n", good ? "passed" : "failed", name);
    *(good ? &passed : &failed) += 1;
}

/* A block of its own for so many bytes, whatever they hold. */
static void *block(size_t bytes)
{
    void *at = malloc(bytes);
    if (at == NULL)
        abort();
    return at;
}

static void *copy_of(const void *bytes, size_t length)
{
    return memcpy(block(length), bytes, length);
}

/* Made with this much room; the file in a block of its own, or null. */
static struct smirrado_make_reply made(const struct sheet *sheet, size_t words, size_t bytes, uint8_t **file)
{
    uint16_t *numbers = copy_of(sheet->numbers, 2 * sheet->count);
    uint32_t *work = block(4 * words);
    uint8_t *out = block(bytes);
    struct smirrado_make_reply reply = smirrado_make(numbers, sheet->count, work, words, out, bytes);
    if (reply.number == 0 || reply.number >= 4)
        for (size_t i = 0; i < SMIRRADO_WORK_WORDS; i++)
            if (work[i] != 0)
                reply.number = UINT32_MAX;
    *file = reply.number == 0 ? copy_of(out, reply.length) : NULL;
    free(numbers);
    free(work);
    free(out);
    return reply;
}

static int answers(const struct sheet *sheet, size_t words, size_t bytes, uint32_t number, uint32_t detail)
{
    uint8_t *file;
    struct smirrado_make_reply reply = made(sheet, words, bytes, &file);
    free(file);
    return reply.number == number && reply.detail == detail && reply.length == (number == 0 ? sheet->length : 0);
}

/* Every answer of make; where there is a table, exactly enough room, a byte less and none. */
static int makes(const struct sheet *sheet)
{
    int early = sheet->number == 1 || sheet->number == 2, done = sheet->number == 0;
    int good = answers(sheet, SMIRRADO_WORK_WORDS, sheet->length, sheet->number, sheet->detail);
    good &= answers(sheet, SMIRRADO_WORK_WORDS - 1, 0, early ? sheet->number : 3, sheet->number == 2 ? sheet->detail : 0);
    good &= answers(sheet, SMIRRADO_WORK_WORDS, 0, done ? 6 : sheet->number, done ? sheet->length : sheet->detail);
    if (done)
        good &= answers(sheet, SMIRRADO_WORK_WORDS + 1, sheet->length - 1, 6, sheet->length);
    return good;
}

/* The engine's answer: make's, but that it has no limit of live states, within which these two can be scheduled, and four jobs. */
static int judges(const struct sheet *sheet)
{
    uint16_t *numbers = copy_of(sheet->numbers, 2 * sheet->count);
    struct smirrado_engine_reply reply = smirrado_engine(numbers, sheet->count);
    free(numbers);
    if (sheet->count > 4 * SMIRRADO_ENGINE_JOBS)
        return reply.number == 1 && reply.detail == 0;
    return reply.number == (sheet->number == 4 ? 0 : sheet->number) && reply.detail == sheet->detail;
}

/* A step from a state on a desk of its own: the desk afterwards tells whether it was taken. */
static int steps(const uint8_t *file, size_t length, uint32_t word, int event, uint32_t *number)
{
    struct smirrado_desk *desk = block(sizeof *desk), before;
    *desk = before = smirrado_desk_of(word);
    *number = smirrado_step(file, length, desk, (uint8_t)event).number;
    int same = memcmp(desk, &before, sizeof before) == 0;
    free(desk);
    return *number == 0 || same;
}

/* Every so many rows: the row found by its word, which is its desk's too, leeway of each job number, each event byte. */
static int reads(const uint8_t *file, size_t length, uint32_t stride)
{
    struct smirrado_listing_reply listing = smirrado_listing(file, length, 1);
    uint32_t rows = listing.rows, number, taken = 0;
    int good = listing.number == 0 && listing.word == 0;
    for (uint32_t at = 1; at <= rows; at += stride) {
        listing = smirrado_listing(file, length, at);
        struct smirrado_row_reply row = smirrado_row(file, length, listing.word);
        good &= row.number == 0 && row.starts == listing.starts && row.tick == listing.tick;
        struct smirrado_desk desk = smirrado_desk_of(listing.word);
        good &= smirrado_word_of(&desk) == listing.word;
        desk.statuses[at % SMIRRADO_JOBS] |= 4; /* no status: the desk is no row */
        good &= smirrado_row(file, length, smirrado_word_of(&desk)).number == SMIRRADO_NO_ROW;
        struct smirrado_row_reply quick = smirrado_row_quick(file, length, listing.word);
        good &= quick.number == 0 && quick.starts == row.starts && quick.tick == row.tick;
        for (uint32_t job = 0; job <= 9; job++) {
            number = smirrado_leeway(file, length, listing.word, job).number;
            good &= job >= 1 && job <= listing.jobs ? number == 0 || number == 12 : number == 9;
        }
        for (int event = 0; event <= 41; event++) {
            good &= steps(file, length, listing.word, event, &number) && number != 7 && number != 8;
            taken += number == 0;
        }
    }
    good &= smirrado_listing(file, length, rows + 1).number == 8 && smirrado_listing(file, length, 0).number == 8;
    return good && taken >= 1;
}

/* Each call answers with this refusal; the quick row is asked for the greatest word, so that it reads every block. */
static int refuses(const uint8_t *file, size_t length, uint32_t number, uint32_t detail)
{
    struct smirrado_row_reply row = smirrado_row(file, length, 0);
    struct smirrado_row_reply quick = smirrado_row_quick(file, length, number == 0 ? 0 : UINT32_MAX);
    struct smirrado_listing_reply listing = smirrado_listing(file, length, 1);
    struct smirrado_leeway_reply leeway = smirrado_leeway(file, length, 0, 1);
    uint32_t stepped;
    int kept = steps(file, length, 0, 1, &stepped);
    return kept && row.number == number && row.detail == detail && quick.number == number && quick.detail == detail && listing.number == number && listing.detail == detail &&
           leeway.number == number && leeway.detail == detail && stepped == number;
}

static int damaged_bytes(const uint8_t *file, size_t length)
{
    int good = 1;
    uint8_t *copy = copy_of(file, length);
    for (size_t at = 0; at < length; at++) {
        copy[at] ^= 1 << at % 8;
        good &= refuses(copy, length, 7, (uint32_t)(at / 512));
        copy[at] ^= 1 << at % 8;
    }
    free(copy);
    return good;
}

/* Cut, or longer than it was. */
static int other_lengths(const uint8_t *file, size_t length)
{
    int good = 1;
    for (size_t other = 0; other <= length + 600; other++) {
        uint8_t *copy = block(other);
        memset(copy, 0, other);
        memcpy(copy, file, other < length ? other : length);
        good &= refuses(copy, other, other == length ? 0 : 7, 0);
        free(copy);
    }
    return good;
}

static int random_bytes(void)
{
    uint32_t seed = 1;
    int good = 1;
    for (int turn = 0; turn < 200; turn++) {
        size_t length = 512 * (2 + (size_t)turn % 3);
        uint8_t *file = block(length);
        for (size_t at = 0; at < length; at++)
            file[at] = (uint8_t)((seed = seed * 1664525 + 1013904223) >> 24);
        good &= refuses(file, length, 7, 0);
        free(file);
    }
    return good;
}

static int nulls(void)
{
    static const uint16_t numbers[] = {0, 1, 1, 1};
    uint32_t *work = block(4 * SMIRRADO_WORK_WORDS);
    int good = smirrado_make(NULL, 0, NULL, 0, NULL, 0).number == 1;
    good &= smirrado_make(numbers, 4, NULL, 0, NULL, 0).number == 3;
    good &= smirrado_make(numbers, 4, work, SMIRRADO_WORK_WORDS, NULL, 0).detail == 1024;
    free(work);
    good &= smirrado_engine(NULL, 0).number == 1;
    return good && refuses(NULL, 0, 7, 0);
}

int main(void)
{
    for (int i = 0; i < SHEETS; i++) {
        uint8_t *file;
        test(sheets[i].what, makes(&sheets[i]));
        test("the engine judges it", judges(&sheets[i]));
        if (sheets[i].number != 0)
            continue;
        made(&sheets[i], SMIRRADO_WORK_WORDS, sheets[i].length, &file);
        test("its table is read", file != NULL && reads(file, sheets[i].length, sheets[i].length > 4096 ? 797 : 1));
        if (file != NULL && sheets[i].length == 1024) {
            test("each byte of it damaged", damaged_bytes(file, 1024));
            test("every other length", other_lengths(file, 1024));
        }
        free(file);
    }
    test("random bytes", random_bytes());
    test("null with length 0", nulls());
    printf("%d passed, %d failed\n", passed, failed);
    return failed != 0;
}
