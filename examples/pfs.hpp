// libpfs in C++17 and later: instances that release themselves, and exceptions. Copy this file into your program.
#pragma once

#include <pfs.h>

#include <cstddef>
#include <cstdint>
#include <new>
#include <stdexcept>
#include <utility>
#include <vector>
#if __cplusplus >= 202002L
#include <span>
#endif

namespace pfs {

using List = std::vector<std::uint32_t>;
#if __cplusplus >= 202002L
using Numbers = std::span<const std::uint32_t>;
#else
using Numbers = const List&;
#endif

// A call of the library is rejected; `number` is that of pfs.h.
struct Fault : std::runtime_error {
    explicit Fault(int number) : std::runtime_error(pfs_message(number)), number(number) {}
    int number;
};

inline void check(int number) {
    if (number == PFS_MEMORY) {
        throw std::bad_alloc();
    }
    if (number != PFS_OK) {
        throw Fault(number);
    }
}

struct Solution {
    List order;
    std::uint64_t makespan;
};

struct Place {
    std::size_t place;
    std::uint64_t makespan;
};

// A prepared instance, which one thread at a time may use. One that was moved from holds none.
class Instance {
public:
    // The times are listed job by job.
    Instance(Numbers times, std::size_t jobs, std::size_t machines) : size(jobs) {
        check(pfs_prepare(times.data(), times.size(), jobs, machines, &held));
    }
    Instance(Instance&& other) noexcept : held(std::exchange(other.held, {nullptr})), size(other.size) {}
    Instance& operator=(Instance&& other) noexcept {
        std::swap(held, other.held);
        std::swap(size, other.size);
        return *this;
    }
    ~Instance() { pfs_release(&held); }

    std::uint64_t makespan(Numbers sequence) {
        std::uint64_t found;
        check(pfs_makespan(&held, sequence.data(), sequence.size(), &found));
        return found;
    }
    std::uint64_t bound() {
        std::uint64_t found;
        check(pfs_bound(&held, &found));
        return found;
    }
    Solution neh() {
        Solution found{List(size), 0};
        std::uint64_t cells;
        check(pfs_neh(&held, found.order.data(), size, &found.makespan, &cells));
        return found;
    }
    // Makes rounds of iterated greedy from an order.
    Solution rounds(const pfs_rounds_options& options, List order) {
        Solution found{std::move(order), 0};
        std::uint64_t cells;
        check(pfs_rounds(&held, &options, found.order.data(), found.order.size(), &found.makespan, &cells));
        return found;
    }
    // Finds the best place of a job in a sequence without it.
    Place insert(Numbers sequence, std::uint32_t job) {
        Place found;
        check(pfs_insert(&held, sequence.data(), sequence.size(), job, &found.place, &found.makespan));
        return found;
    }

private:
    pfs_instance held = {nullptr};
    std::size_t size;
};

}  // namespace pfs
