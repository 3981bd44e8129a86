/* A host in C++: the header is C++ too, and each call links under its C name. It follows the one run of a sheet of one job.
 * Closes with 'N passed, M failed'. */
#include "smirrado.h"
#include <cstdio>
#include <vector>

namespace {

int passed, failed;

void test(const char *name, bool good)
{
    std::printf("%s  from C++: %s\n", good ? "passed" : "failed", name);
    ++(good ? passed : failed);
}

const std::vector<uint16_t> sheet = {0, 1, 1, 1};

/* The run of this sheet, and the word after each event; the last is the finished state. */
const uint8_t events[] = {SMIRRADO_ARRIVAL(1), SMIRRADO_START(1), SMIRRADO_TICK, SMIRRADO_ENDING(1)};
const uint32_t words[] = {1, 2, 16842754, 3};

std::vector<uint8_t> made()
{
    std::vector<uint32_t> work(SMIRRADO_WORK_WORDS);
    std::vector<uint8_t> out(SMIRRADO_FILE_BYTES);
    const smirrado_make_reply reply =
        smirrado_make(sheet.data(), sheet.size(), work.data(), work.size(), out.data(), out.size());
    test("make", reply.number == SMIRRADO_DONE && reply.length == 1024);
    out.resize(reply.length);
    return out;
}

bool follows(const std::vector<uint8_t> &file)
{
    smirrado_desk desk = smirrado_desk_of(0);
    bool good = true;
    for (int i = 0; i < 4; i++) {
        good &= smirrado_step(file.data(), file.size(), &desk, events[i]).number == SMIRRADO_DONE;
        good &= smirrado_word_of(&desk) == words[i];
    }
    return good && desk.statuses[0] == SMIRRADO_STATUS_DONE;
}

bool must_start(const smirrado_row_reply &row)
{
    return row.number == SMIRRADO_DONE && row.starts == 1 && row.tick == SMIRRADO_TICK_HELD;
}

} // namespace

int main()
{
    const std::vector<uint8_t> file = made();
    test("row", must_start(smirrado_row(file.data(), file.size(), 1)));
    test("quick row", must_start(smirrado_row_quick(file.data(), file.size(), 1)));
    const smirrado_listing_reply listing = smirrado_listing(file.data(), file.size(), 5);
    test("listing", listing.number == SMIRRADO_DONE && listing.rows == 5 && listing.word == 16842754);
    const smirrado_leeway_reply leeway = smirrado_leeway(file.data(), file.size(), 0, 1);
    test("leeway", leeway.number == SMIRRADO_DONE && leeway.leeway == 0);
    test("step", follows(file));
    test("engine", smirrado_engine(sheet.data(), sheet.size()).number == SMIRRADO_DONE);
    std::printf("%d passed, %d failed\n", passed, failed);
    return failed != 0;
}
