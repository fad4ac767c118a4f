// The gap of NEH to the lower bound, and that after a number of rounds of iterated greedy, on shops of Taillard's
// generator: one line for each seed.
// usage: gaps JOBS MACHINES ROUNDS SEED ..
#include "pfs.hpp"

#include <cinttypes>
#include <cstdio>
#include <cstdlib>

static double gap(std::uint64_t makespan, std::uint64_t bound) {
    return 100.0 * static_cast<double>(makespan - bound) / static_cast<double>(bound);
}

int main(int count, char** words) try {
    if (count < 5) {
        std::fputs("usage: gaps JOBS MACHINES ROUNDS SEED ..\n", stderr);
        return 3;
    }
    auto number = [&](int word) { return std::strtoull(words[word], nullptr, 10); };
    std::size_t jobs = number(1), machines = number(2);
    for (int word = 4; word < count; ++word) {
        pfs::List times(jobs * machines);
        pfs::check(pfs_generate(jobs, machines, number(word), times.data(), times.size()));
        pfs::Instance shop(times, jobs, machines);
        std::uint64_t bound = shop.bound();
        pfs::Solution neh = shop.neh();
        pfs_rounds_options options{1, jobs < 4 ? jobs : 4, 0, static_cast<std::uint32_t>(number(3)), 0};
        std::uint64_t found = shop.rounds(options, neh.order).makespan;
        std::printf("%s: bound %" PRIu64 ", NEH %" PRIu64 " (%.2f %%), found %" PRIu64 " (%.2f %%)\n", words[word],
                    bound, neh.makespan, gap(neh.makespan, bound), found, gap(found, bound));
    }
} catch (const std::exception& fault) {
    std::fprintf(stderr, "gaps: %s\n", fault.what());
    return 2;
}
