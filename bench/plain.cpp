// plain WHAT LAYOUT BLOCK FILE [NUMBER ..]: computes on a block of an instance file what pfs or its library for C does,
// and prints the same. It is written from the definitions, over flat tables of integers. WHAT, with its numbers:
//
//   value: the makespan of the order in which the jobs are numbered, as `pfs value`
//   solve32, solve64 ROUNDS TAKE SEED PASSES: NEH's order, and rounds of iterated greedy, as `pfs solve --cells`. A
//     TAKE of 0 is the smaller of 4 and the number of jobs. The lengths have 32 or 64 bits, which must be enough.
//   two, lanes COUNT: the makespans of the same 1,000 orders this many times, as library.c: two orders in a loop, or
//     sixteen in the lanes of vectors of 16 bits, which is rejected if a makespan is above 32,766
#include <algorithm>
#include <cstddef>
#include <cstdint>
#include <cstdio>
#include <cstdlib>
#include <emmintrin.h>
#include <numeric>
#include <string>
#include <vector>

struct Instance {
    uint64_t jobs = 0;
    uint64_t machines = 0;
    std::vector<uint32_t> times;  // job by job

    uint32_t time(size_t job, size_t machine) const { return times[job * machines + machine]; }
};

// Reads the blocks of a file by the rules of docs/FORMATS.md.
class BlockReader {
public:
    BlockReader(const char* path, bool is_orlib) : file(std::fopen(path, "rb")), is_orlib(is_orlib) {}

    // Reads the next block; returns whether the file has one without a fault.
    bool read(Instance& shop) { return read_sizes(shop) && read_times(shop); }

private:
    // Returns whether the file has more bytes within the limit.
    bool has_more() {
        if (at == end && file != nullptr) {
            at = piece;
            end = at + std::fread(piece, 1, std::min(sizeof piece, left), file);
            left -= (size_t)(end - at);
        }
        return at < end;
    }

    // Reads a line, and calls `take` with each number; returns whether the line has a byte of a word.
    template <typename Take>
    bool read_line(Take take) {
        bool has_word = false, in_number = false;
        uint64_t value = 0;
        while (has_more()) {
            for (const char* next = at; next < end; ++next) {
                uint32_t digit = (uint32_t)(*next - '0');
                if (digit < 10) {
                    value = std::min(value * 10 + digit, MOST_NOTE + 1);
                    in_number = true;
                    continue;
                }
                if (in_number) {
                    take(value);
                    value = 0;
                    in_number = false;
                }
                if (*next == '\n') {
                    at = next + 1;
                    return has_word;
                }
                has_word = has_word || (*next != ' ' && *next != '\t' && *next != '\r');
            }
            at = end;
        }
        if (in_number) {
            take(value);
        }
        return has_word;
    }

    // Reads up to the first line of numbers.
    bool read_sizes(Instance& shop) {
        while (has_more()) {
            uint64_t values[5] = {}, count = 0;
            bool has_word = read_line([&](uint64_t value) { values[std::min<uint64_t>(count++, 4)] = value; });
            if (count > 0 && !has_word) {
                shop.jobs = values[0], shop.machines = values[1];
                return count == (is_orlib ? 2 : 5) && 1 <= shop.jobs && shop.jobs <= MOST_JOBS && 1 <= shop.machines
                       && shop.machines <= MOST_MACHINES && std::max({values[2], values[3], values[4]}) <= MOST_NOTE;
            }
        }
        return false;
    }

    bool read_times(Instance& shop) {
        const size_t size = shop.jobs * shop.machines, due = is_orlib ? 2 * size : size;
        shop.times.assign(size, 0);
        size_t count = 0, job = 0, machine = 0;
        bool is_right = true;
        while (count < due && is_right && has_more()) {
            size_t before = count;
            bool has_word = read_line([&](uint64_t value) {
                if (count >= due) {
                    is_right = false;
                } else if (is_orlib && count % 2 == 0) {
                    is_right = is_right && value == machine;
                } else {
                    is_right = is_right && value <= LONGEST_TIME;
                    shop.times[job * shop.machines + machine] = (uint32_t)value;
                    size_t &inner = is_orlib ? machine : job, &outer = is_orlib ? job : machine;
                    inner = inner + 1 == (is_orlib ? shop.machines : shop.jobs) ? 0 : inner + 1;
                    outer += inner == 0;
                }
                ++count;
            });
            is_right = is_right && !(has_word && count > before);
        }
        return is_right && count == due;
    }

    static constexpr uint64_t MOST_JOBS = 5000, MOST_MACHINES = 200, LONGEST_TIME = 1000000000, MOST_NOTE = 4294967295,
                              LONGEST_INPUT = 67108864;
    std::FILE* file;
    bool is_orlib;
    size_t left = LONGEST_INPUT;
    char piece[4096];
    const char *at = piece, *end = piece;
};

using Jobs = std::vector<uint32_t>;

// The makespan of the order in which the jobs are numbered.
static int value(const Instance& shop) {
    std::vector<uint64_t> ends(shop.machines, 0);
    for (size_t job = 0; job < shop.jobs; ++job) {
        uint64_t before = 0;
        for (size_t machine = 0; machine < shop.machines; ++machine) {
            before = std::max(before, ends[machine]) + shop.time(job, machine);
            ends[machine] = before;
        }
    }
    std::printf("makespan %llu\n", (unsigned long long)ends.back());
    return 0;
}

// The generator of the random words of the rounds: PCG XSH RR 64/32 (O'Neill 2014), seeded with a number as rand_core's
// `seed_from_u64` does: the bytes of the state and of the increment are words of the same generator at a fixed
// increment, which steps first.
class Pcg32 {
public:
    explicit Pcg32(uint64_t number) {
        uint64_t words[4];
        for (uint64_t& word : words) {
            number = number * MULTIPLIER + 0xA17654E46FBE17F3;
            word = output(number);
        }
        increment = (words[2] | words[3] << 32) | 1;
        state = (words[0] | words[1] << 32) + increment;
        step();
    }

    uint32_t next() {
        uint32_t word = output(state);
        step();
        return word;
    }

private:
    static constexpr uint64_t MULTIPLIER = 6364136223846793005;

    static uint32_t output(uint64_t state) {
        uint32_t shifted = (uint32_t)(((state >> 18) ^ state) >> 27);
        uint32_t turn = (uint32_t)(state >> 59);
        return shifted >> turn | shifted << (-turn & 31);
    }

    void step() { state = state * MULTIPLIER + increment; }

    uint64_t state = 0;
    uint64_t increment = 0;
};

struct Placed {
    size_t place;
    uint64_t makespan;
};

// Inserts jobs at their best places (Taillard 1990), one row in a loop, and counts the cells computed.
template <typename Length>
class Inserter {
public:
    explicit Inserter(const Instance& shop)
        : shop(shop), heads((shop.jobs + 1) * shop.machines), tails((shop.jobs + 1) * shop.machines) {}

    // Puts the job at the earliest place of the partial order that gives the least makespan.
    uint64_t insert(Jobs& order, uint32_t job) {
        Placed placed = best(order, job);
        order.insert(order.begin() + (std::ptrdiff_t)placed.place, job);
        return placed.makespan;
    }

    uint64_t cells = 0;

private:
    const uint32_t* times(uint32_t job) const { return &shop.times[job * shop.machines]; }

    Placed best(const Jobs& order, uint32_t job) {
        fill_heads(order);
        fill_tails(order);
        Placed placed{0, UINT64_MAX};
        for (size_t place = 0; place <= order.size(); ++place) {
            Length makespan = makespan_at(place, job);
            if ((uint64_t)makespan < placed.makespan) {
                placed = Placed{place, (uint64_t)makespan};
            }
        }
        return placed;
    }

    // Row r + 1 has when the job at place r ends on each machine; row 0 is zero.
    void fill_heads(const Jobs& order) {
        size_t machines = shop.machines;
        for (size_t row = 0; row < order.size(); ++row) {
            const uint32_t* time = times(order[row]);
            const Length* above = &heads[row * machines];
            Length* here = &heads[(row + 1) * machines];
            Length before = 0;
            for (size_t machine = 0; machine < machines; ++machine) {
                before = std::max(above[machine], before) + (Length)time[machine];
                here[machine] = before;
            }
            cells += machines;
        }
    }

    // Row r has the time from the start of the job at place r on each machine to the end of the schedule; the row
    // after the last job is zero.
    void fill_tails(const Jobs& order) {
        size_t machines = shop.machines;
        std::fill_n(&tails[order.size() * machines], machines, 0);
        for (size_t row = order.size(); row-- > 0;) {
            const uint32_t* time = times(order[row]);
            const Length* below = &tails[(row + 1) * machines];
            Length* here = &tails[row * machines];
            Length tail = 0;
            for (size_t machine = machines; machine-- > 0;) {
                tail = std::max(below[machine], tail) + (Length)time[machine];
                here[machine] = tail;
            }
            cells += machines;
        }
    }

    // The makespan with the job at this place.
    Length makespan_at(size_t place, uint32_t job) {
        size_t machines = shop.machines;
        const uint32_t* time = times(job);
        const Length* head = &heads[place * machines];
        const Length* tail = &tails[place * machines];
        Length before = 0;
        Length makespan = 0;
        for (size_t machine = 0; machine < machines; ++machine) {
            before = std::max(head[machine], before) + (Length)time[machine];
            makespan = std::max<Length>(makespan, before + tail[machine]);
        }
        cells += 2 * machines;
        return makespan;
    }

    const Instance& shop;
    std::vector<Length> heads;
    std::vector<Length> tails;
};

// The jobs by decreasing total time, at equal totals the lower number first.
static Jobs ranking(const Instance& shop) {
    std::vector<uint64_t> totals(shop.jobs, 0);
    for (size_t job = 0; job < shop.jobs; ++job) {
        for (size_t machine = 0; machine < shop.machines; ++machine) {
            totals[job] += shop.time(job, machine);
        }
    }
    Jobs jobs(shop.jobs);
    std::iota(jobs.begin(), jobs.end(), 0);
    std::stable_sort(jobs.begin(), jobs.end(), [&](uint32_t a, uint32_t b) { return totals[a] > totals[b]; });
    return jobs;
}

// A pass: removes each job, in the order of the numbers, and reinserts it at its best place.
template <typename Length>
static uint64_t pass(Inserter<Length>& inserter, Jobs& order) {
    uint64_t length = 0;
    for (uint32_t job = 0; job < order.size(); ++job) {
        order.erase(std::find(order.begin(), order.end(), job));
        length = inserter.insert(order, job);
    }
    return length;
}

// A round of iterated greedy (Ruiz and Stuetzle 2007): removes a job for each random word, reinserts the jobs in the
// order of removal, makes the passes, and keeps the result unless its makespan is greater.
template <typename Length>
static void round_of(Inserter<Length>& inserter, const Jobs& words, uint64_t passes, Jobs& kept, uint64_t& makespan) {
    Jobs order = kept;
    Jobs taken;
    for (uint32_t word : words) {
        auto place = order.begin() + word % order.size();
        taken.push_back(*place);
        order.erase(place);
    }
    uint64_t length = 0;
    for (uint32_t job : taken) {
        length = inserter.insert(order, job);
    }
    for (uint64_t made = 0; made < passes; ++made) {
        length = pass(inserter, order);
    }
    if (length <= makespan) {
        kept = order;
        makespan = length;
    }
}

// Makes the search and prints its result.
template <typename Length>
static int search(const Instance& shop, uint64_t rounds, uint64_t take, uint64_t seed, uint64_t passes) {
    Inserter<Length> inserter(shop);
    Pcg32 random(seed);
    Jobs kept;
    uint64_t makespan = 0;
    for (uint32_t job : ranking(shop)) {
        makespan = inserter.insert(kept, job);
    }
    Jobs drawn(take != 0 ? take : std::min<uint64_t>(4, shop.jobs));
    for (uint64_t round = 0; round < rounds; ++round) {
        for (uint32_t& word : drawn) {
            word = random.next();
        }
        round_of(inserter, drawn, passes, kept, makespan);
    }
    std::printf("order2 %zu %zu\n", shop.jobs, shop.machines);
    for (size_t place = 0; place < kept.size(); ++place) {
        std::printf("%s%u", place == 0 ? "" : " ", kept[place] + 1);
    }
    std::printf("\nmakespan %llu\ncells %llu\n", (unsigned long long)makespan, (unsigned long long)inserter.cells);
    return 0;
}

constexpr size_t ORDERS = 1000, WIDTH = 16;

// As library.c draws them.
static Jobs draw_orders(size_t jobs) {
    Jobs orders(ORDERS * jobs);
    uint64_t state = 1;
    for (size_t first = 0; first < orders.size(); first += jobs) {
        for (size_t place = 0; place < jobs; ++place) {
            state = state * 6364136223846793005U + 1442695040888963407U;
            size_t other = (size_t)(state >> 33) % (place + 1);
            orders[first + place] = orders[first + other];
            orders[first + other] = (uint32_t)place;
        }
    }
    return orders;
}

// Two orders, whose cells don't wait for each other.
static void two(const Instance& shop, const uint32_t* order, int32_t (*ends)[2], uint64_t* found) {
    const uint32_t *one = order, *other = order + shop.jobs;
    std::fill(&ends[0][0], &ends[shop.machines][0], 0);
    for (size_t place = 0; place < shop.jobs; ++place) {
        const uint32_t* times = &shop.times[one[place] * shop.machines];
        const uint32_t* others = &shop.times[other[place] * shop.machines];
        int32_t before = 0, before_other = 0;
        for (size_t machine = 0; machine < shop.machines; ++machine) {
            ends[machine][0] = before = std::max(before, ends[machine][0]) + (int32_t)times[machine];
            ends[machine][1] = before_other = std::max(before_other, ends[machine][1]) + (int32_t)others[machine];
        }
    }
    found[0] = (uint64_t)ends[shop.machines - 1][0], found[1] = (uint64_t)ends[shop.machines - 1][1];
}

// Sixteen orders, each in its lane of two vectors. The rows of times have a multiple of eight entries.
class Lanes {
public:
    explicit Lanes(const Instance& shop)
        : shop(shop), wide((shop.machines + 7) / 8 * 8), rows(shop.jobs * wide), times(2 * wide), ends(2 * wide) {
        for (size_t job = 0; job < shop.jobs; ++job) {
            std::copy_n(&shop.times[job * shop.machines], shop.machines, &rows[job * wide]);
        }
    }

    void sixteen(const uint32_t* orders, size_t count, uint64_t* found) {
        std::fill(ends.begin(), ends.end(), _mm_setzero_si128());
        for (size_t place = 0; place < shop.jobs; ++place) {
            for (size_t half = 0; half < 2; ++half) {
                gather(orders, count, place, half);
                __m128i before = _mm_setzero_si128();
                for (size_t at = half; at < 2 * shop.machines; at += 2) {
                    ends[at] = before = _mm_adds_epi16(_mm_max_epi16(before, ends[at]), times[at]);
                }
            }
        }
        const int16_t* last = (const int16_t*)&ends[2 * shop.machines - 2];
        std::copy_n(last, count, found);
    }

private:
    // The times of eight orders at a place: a transpose of 8 x 8 for eight machines. Lanes beyond `count` repeat the
    // last order.
    void gather(const uint32_t* orders, size_t count, size_t place, size_t half) {
        const uint16_t* row[8];
        for (size_t lane = 0; lane < 8; ++lane) {
            size_t order = std::min(8 * half + lane, count - 1);
            row[lane] = &rows[orders[order * shop.jobs + place] * wide];
        }
        for (size_t first = 0; first < wide; first += 8) {
            __m128i a[8], b[8], c[8];
            for (size_t lane = 0; lane < 8; ++lane) {
                a[lane] = _mm_loadu_si128((const __m128i*)(row[lane] + first));
            }
            for (size_t k = 0; k < 4; ++k) {
                b[k] = _mm_unpacklo_epi16(a[2 * k], a[2 * k + 1]);
                b[k + 4] = _mm_unpackhi_epi16(a[2 * k], a[2 * k + 1]);
            }
            for (size_t k = 0; k < 4; ++k) {
                c[2 * k] = _mm_unpacklo_epi32(b[2 * k], b[2 * k + 1]);
                c[2 * k + 1] = _mm_unpackhi_epi32(b[2 * k], b[2 * k + 1]);
            }
            for (size_t k = 0; k < 2; ++k) {
                __m128i* to = &times[2 * (first + 4 * k) + half];
                to[0] = _mm_unpacklo_epi64(c[4 * k], c[4 * k + 2]);
                to[2] = _mm_unpackhi_epi64(c[4 * k], c[4 * k + 2]);
                to[4] = _mm_unpacklo_epi64(c[4 * k + 1], c[4 * k + 3]);
                to[6] = _mm_unpackhi_epi64(c[4 * k + 1], c[4 * k + 3]);
            }
        }
    }

    const Instance& shop;
    size_t wide;
    std::vector<uint16_t> rows;
    std::vector<__m128i> times, ends;
};

// Computes the makespans of the same 1,000 orders this many times, and prints their sum. Nothing is validated.
static int makespans(const Instance& shop, uint64_t times, bool in_lanes) {
    static int32_t ends[256][2];
    Lanes lanes(shop);
    Jobs orders = draw_orders(shop.jobs);
    std::vector<uint64_t> found(ORDERS);
    uint64_t sum = 0;
    for (uint64_t made = 0; made < times; ++made) {
        for (size_t first = 0, width = in_lanes ? WIDTH : 2; first < ORDERS; first += width) {
            const uint32_t* some = &orders[first * shop.jobs];
            if (in_lanes) {
                lanes.sixteen(some, std::min(WIDTH, ORDERS - first), &found[first]);
            } else {
                two(shop, some, ends, &found[first]);
            }
        }
        for (uint64_t makespan : found) {
            sum += makespan;
        }
    }
    if (in_lanes && *std::max_element(found.begin(), found.end()) == INT16_MAX) {
        std::fprintf(stderr, "plain: a makespan is too long\n");
        return 3;
    }
    std::printf("%llu makespans, sum %llu\n", (unsigned long long)(times * ORDERS), (unsigned long long)sum);
    return 0;
}

int main(int count, char** words) {
    if (count < 5) {
        std::fprintf(stderr, "usage: plain WHAT taillard|orlib BLOCK FILE [NUMBER ..]\n");
        return 3;
    }
    std::string what = words[1];
    BlockReader reader(words[4], words[2] == std::string("orlib"));
    Instance shop;
    for (uint64_t block = std::strtoull(words[3], nullptr, 10); block > 0; --block) {
        if (!reader.read(shop)) {
            std::fprintf(stderr, "plain: no block\n");
            return 2;
        }
    }
    uint64_t numbers[4] = {};
    for (int at = 5; at < std::min(count, 9); ++at) {
        numbers[at - 5] = std::strtoull(words[at], nullptr, 10);
    }
    if (what == "solve32") {
        return search<uint32_t>(shop, numbers[0], numbers[1], numbers[2], numbers[3]);
    }
    if (what == "solve64") {
        return search<int64_t>(shop, numbers[0], numbers[1], numbers[2], numbers[3]);
    }
    if (what == "two" || what == "lanes") {
        return makespans(shop, numbers[0], what == "lanes");
    }
    return value(shop);
}
