// Every operation at its worst sets, in several threads at once, each with a stack of exactly PLATEWRIGHT_STACK bytes
// and lists of its own: every answer and every lent list must be those of the main thread. Ends 'threads: ok'.
// With --measure: the stack that each operation really used, in bytes, found on a painted stack (without sanitizers).
#include <pthread.h>
#include <sys/mman.h>

#include <algorithm>
#include <cstdio>
#include <cstdlib>
#include <cstring>
#include <string>
#include <tuple>
#include <vector>

#include "platewright.h"

namespace {

constexpr size_t threads = 8;
constexpr size_t rounds = 3;
constexpr uint32_t allowance = 300; // more than any path is long
constexpr size_t rows_asked = 1;
constexpr size_t deepest_search = 254; // a split wants three open placements in a live group
constexpr size_t deepest_list = PLATEWRIGHT_MAX_PLACEMENTS;

// All that is lent for one set, and the answer. The used part and the group, added to it, make the table.
struct Lists {
    size_t n;
    std::vector<int16_t> table, used_part, group, strip_table;
    std::vector<uint8_t> strip;
    std::vector<uint8_t> plan = std::vector<uint8_t>(PLATEWRIGHT_MAX_PLACEMENTS);
    std::vector<int16_t> trail = std::vector<int16_t>(PLATEWRIGHT_MAX_PLACEMENTS);
    std::vector<uint8_t> rows = std::vector<uint8_t>(rows_asked * PLATEWRIGHT_MAX_PLACEMENTS);
    std::vector<int16_t> list = std::vector<int16_t>(PLATEWRIGHT_MAX_PLACEMENTS);
    std::vector<uint16_t> reasons = std::vector<uint16_t>(PLATEWRIGHT_MAX_PLACEMENTS);
    std::vector<size_t> starts = std::vector<size_t>(PLATEWRIGHT_MAX_GROUPS);
    std::vector<size_t> entries = std::vector<size_t>(PLATEWRIGHT_MAX_GROUPS);
    std::vector<int16_t> buffer = std::vector<int16_t>(PLATEWRIGHT_MAX_TABLE);
    std::vector<uint8_t> saved = std::vector<uint8_t>(PLATEWRIGHT_MAX_SAVED);
    std::vector<uint8_t> receipt = std::vector<uint8_t>(PLATEWRIGHT_RECEIPT);
    platewright_answer answer = {};

    auto all() const {
        return std::tie(table, used_part, group, strip_table, strip, plan, trail, rows, list, reasons, starts, entries,
                        buffer, saved, receipt, answer.number, answer.count, answer.place, answer.n, answer.used,
                        answer.rows, answer.group, answer.more);
    }
};

struct Operation {
    const char *name;
    void (*run)(Lists &);
};

const Operation operations[] = {
    {"check", [](Lists &l) { l.answer = platewright_check(l.table.data(), l.table.size(), l.n); }},
    {"check in parts",
     [](Lists &l) {
         size_t cut = l.table.size() / 2;
         platewright_pass pass = platewright_check_part(platewright_check_begin(l.n), l.table.data(), cut);
         pass = platewright_check_part(pass, l.table.data() + cut, l.table.size() - cut);
         l.answer = platewright_check_end(pass);
     }},
    {"search",
     [](Lists &l) {
         l.answer = platewright_search(l.table.data(), l.table.size(), l.n, allowance, l.plan.data(), l.plan.size(),
                                       l.trail.data(), l.trail.size());
     }},
    {"list",
     [](Lists &l) {
         l.answer = platewright_list(l.table.data(), l.table.size(), l.n, rows_asked, allowance, l.rows.data(),
                                     l.rows.size());
     }},
    {"settle",
     [](Lists &l) {
         l.answer = platewright_settle(l.table.data(), l.table.size(), l.n, l.list.data(), l.list.size(),
                                       l.reasons.data(), l.reasons.size());
     }},
    {"index",
     [](Lists &l) {
         l.answer = platewright_index(l.table.data(), l.table.size(), l.n, l.starts.data(), l.starts.size(),
                                      l.entries.data(), l.entries.size());
     }},
    {"preview",
     [](Lists &l) {
         l.answer = platewright_preview(l.used_part.data(), l.used_part.size(), l.used_part.size(), l.n,
                                        l.group.data(), l.group.size(), l.list.data(), l.list.size(),
                                        l.reasons.data(), l.reasons.size());
     }},
    {"add",
     [](Lists &l) {
         std::copy(l.used_part.begin(), l.used_part.end(), l.buffer.begin());
         l.answer = platewright_add(l.buffer.data(), l.buffer.size(), l.used_part.size(), l.n, l.group.data(),
                                    l.group.size());
     }},
    {"take back",
     [](Lists &l) {
         std::copy(l.table.begin(), l.table.end(), l.buffer.begin());
         l.answer = platewright_take_back(l.buffer.data(), l.buffer.size(), l.table.size(), l.n);
     }},
    {"read",
     [](Lists &l) {
         l.answer = platewright_read(l.strip.data(), l.strip.size(), l.strip_table.data(), l.strip_table.size());
     }},
    {"save",
     [](Lists &l) {
         l.answer = platewright_save(l.table.data(), l.table.size(), l.n, l.saved.data(), l.saved.size());
     }},
    {"window",
     [](Lists &l) {
         l.answer.number = platewright_window(l.strip.data(), l.strip.size(), allowance, l.plan.data(), l.plan.size(),
                                              l.receipt.data(), l.receipt.size());
     }},
};

// The sets ------------------------------------------------------------------------------------------------------------

struct Set {
    std::string name;
    size_t n;
    std::vector<std::vector<int16_t>> groups;
};

std::vector<int16_t> all_placements() {
    std::vector<int16_t> group;
    for (int16_t p = 1; p <= PLATEWRIGHT_MAX_PLACEMENTS; p++) group.push_back(p);
    return group;
}

// One group of all placements is split on 254 times, each time left out.
Set one_group() { return {"one group of 256", PLATEWRIGHT_MAX_PLACEMENTS, {all_placements()}}; }

// The same beside as many groups as there may be, which every choice meets.
Set one_group_and_rest() {
    Set set = one_group();
    set.name += " and 511 at rest";
    for (int16_t i = 1; i < PLATEWRIGHT_MAX_GROUPS; i++) {
        int16_t p = int16_t(1 + i % PLATEWRIGHT_MAX_PLACEMENTS);
        set.groups.insert(set.groups.begin(), {p, int16_t(-p)});
    }
    return set;
}

// List splits on every placement.
Set no_groups() { return {"no groups", PLATEWRIGHT_MAX_PLACEMENTS, {}}; }

// 64 times document 01's [1 2 3 0 1 2 4 0 1 3 4 0]: each split fails with its placement left out, so that the path goes
// along the second sides.
Set second_sides() {
    Set set{"64 second sides", PLATEWRIGHT_MAX_PLACEMENTS, {}};
    for (int16_t p = 1; p < PLATEWRIGHT_MAX_PLACEMENTS; p += 4) {
        int16_t q = p + 1, r = p + 2, s = p + 3;
        set.groups.insert(set.groups.end(), {{p, q, r}, {p, q, s}, {p, r, s}});
    }
    return set;
}

// 512 groups of four entries each that the layout of all even placements meets: every limit is reached.
Set full() {
    Set set{"512 groups, 2,048 entries", PLATEWRIGHT_MAX_PLACEMENTS, {}};
    uint32_t seed = 4;
    auto draw = [&seed] { return (seed = seed * 1664525u + 1013904223u) >> 24; };
    for (int i = 0; i < PLATEWRIGHT_MAX_GROUPS; i++) {
        std::vector<int16_t> group;
        for (int e = 0; e < 4; e++) {
            int16_t p = int16_t(1 + (e == 0 ? unsigned(i) % PLATEWRIGHT_MAX_PLACEMENTS : draw()));
            bool even = p % 2 == 0;
            group.push_back(even == (e == 0) ? p : int16_t(-p)); // the first entry alone holds
        }
        set.groups.push_back(group);
    }
    return set;
}

// 255 ties, each of a placement to the next lower one: every placement follows the first.
Set ties() {
    Set set{"255 ties", PLATEWRIGHT_MAX_PLACEMENTS, {}};
    for (int16_t p = PLATEWRIGHT_MAX_PLACEMENTS; p > 1; p--) set.groups.push_back({p, int16_t(p - 1)});
    return set;
}

void append(std::vector<int16_t> &table, const std::vector<int16_t> &group) {
    table.insert(table.end(), group.begin(), group.end());
    table.push_back(0);
}

// The strip of the set, with chapters before its end mark until it is as long as a strip may be.
std::vector<uint8_t> strip_of(const Set &set) {
    std::vector<uint8_t> strip = {PLATEWRIGHT_MARK_PLACEMENTS, uint8_t(set.n >> 8), uint8_t(set.n)};
    for (auto &group : set.groups) {
        strip.push_back(PLATEWRIGHT_MARK_GROUP);
        for (int16_t e : group) {
            uint8_t mark = e > 0 ? PLATEWRIGHT_MARK_TAKEN : PLATEWRIGHT_MARK_LEFT_OUT;
            strip.insert(strip.end(), {mark, uint8_t(std::abs(e) >> 8), uint8_t(std::abs(e))});
        }
        strip.push_back(PLATEWRIGHT_MARK_CLOSE);
    }
    while (strip.size() + 3 <= PLATEWRIGHT_MAX_STRIP) strip.insert(strip.end(), {PLATEWRIGHT_MARK_CHAPTER, 0});
    strip.push_back(PLATEWRIGHT_MARK_END);
    return strip;
}

Lists lists_of(const Set &set) {
    Lists lists;
    lists.n = set.n;
    for (size_t i = 0; i < set.groups.size(); i++) {
        append(lists.table, set.groups[i]);
        if (i + 1 < set.groups.size()) append(lists.used_part, set.groups[i]);
    }
    if (!set.groups.empty()) lists.group = set.groups.back();
    lists.strip = strip_of(set);
    lists.strip_table.resize(PLATEWRIGHT_MAX_TABLE);
    return lists;
}

// The threads ---------------------------------------------------------------------------------------------------------

struct Job {
    std::string name;
    void (*run)(Lists &);
    Lists lists;
};

std::vector<Job> all_jobs() {
    std::vector<Job> jobs;
    for (const Set &set : {one_group(), one_group_and_rest(), no_groups(), second_sides(), full(), ties()})
        for (const Operation &operation : operations)
            jobs.push_back({std::string(operation.name) + ", " + set.name, operation.run, lists_of(set)});
    return jobs;
}

void stop(const std::string &what) {
    std::printf("threads: %s\n", what.c_str());
    std::exit(1);
}

pthread_barrier_t all_there;

// Its own frame is as small as can be: all lists are on the heap, and were made before.
void *run_all(void *argument) {
    pthread_barrier_wait(&all_there);
    for (Job &job : *static_cast<std::vector<Job> *>(argument)) job.run(job.lists);
    return nullptr;
}

void run_threads(const std::vector<Job> &jobs, const std::vector<Job> &expected) {
    std::vector<std::vector<Job>> own(threads, jobs);
    std::vector<pthread_t> ids(threads);
    pthread_attr_t small;
    pthread_attr_init(&small);
    if (pthread_attr_setstacksize(&small, PLATEWRIGHT_STACK) != 0) stop("no such stack");
    pthread_barrier_init(&all_there, nullptr, threads);
    for (size_t i = 0; i < threads; i++)
        if (pthread_create(&ids[i], &small, run_all, &own[i]) != 0) stop("no thread");
    for (pthread_t id : ids) pthread_join(id, nullptr);
    pthread_barrier_destroy(&all_there);
    pthread_attr_destroy(&small);
    for (auto &mine : own)
        for (size_t j = 0; j < mine.size(); j++)
            if (mine[j].lists.all() != expected[j].lists.all()) stop(mine[j].name + ": differs in a thread");
}

const Lists &lists_after(const std::vector<Job> &jobs, const std::string &name) {
    for (const Job &job : jobs)
        if (job.name == name) return job.lists;
    stop(name + ": no such job");
    std::abort();
}

void expect(const std::vector<Job> &jobs, const char *name, uint32_t number, uint32_t count) {
    const platewright_answer &a = lists_after(jobs, name).answer;
    if (a.number != number || a.count != count)
        stop(std::string(name) + ": number " + std::to_string(a.number) + " count " + std::to_string(a.count));
}

// That the sets are the worst ones, as the main thread sees them.
void expect_depths(const std::vector<Job> &jobs) {
    expect(jobs, "search, one group of 256", PLATEWRIGHT_LAID_OUT, deepest_search);
    expect(jobs, "search, one group of 256 and 511 at rest", PLATEWRIGHT_LAID_OUT, deepest_search);
    expect(jobs, "search, 64 second sides", PLATEWRIGHT_LAID_OUT, 64);
    expect(jobs, "list, no groups", PLATEWRIGHT_LAID_OUT, deepest_list);
    expect(jobs, "settle, 512 groups, 2,048 entries", PLATEWRIGHT_SETTLED, 0);
    expect(jobs, "preview, 512 groups, 2,048 entries", PLATEWRIGHT_SETTLED, 0);
    expect(jobs, "add, 512 groups, 2,048 entries", PLATEWRIGHT_GROUP_ADDED, 0);
    expect(jobs, "save, 512 groups, 2,048 entries", PLATEWRIGHT_DONE, 0);
    expect(jobs, "read, 512 groups, 2,048 entries", PLATEWRIGHT_STRIP_READ, 0);
    expect(jobs, "window, one group of 256 and 511 at rest", PLATEWRIGHT_LAID_OUT, 0);
}

// The measure ---------------------------------------------------------------------------------------------------------

constexpr size_t painted = 4 * PLATEWRIGHT_STACK;
constexpr uint8_t paint = 0xA5;

void *run_one(void *argument) {
    Job *job = static_cast<Job *>(argument);
    if (job->run) job->run(job->lists);
    return nullptr;
}

// The bytes of a painted stack that a thread with this job changed, from its top to the lowest changed one.
size_t stack_of(Job job) {
    void *memory = mmap(nullptr, painted, PROT_READ | PROT_WRITE, MAP_PRIVATE | MAP_ANONYMOUS, -1, 0);
    if (memory == MAP_FAILED) stop("no memory");
    std::memset(memory, paint, painted);
    pthread_attr_t attributes;
    pthread_t id;
    pthread_attr_init(&attributes);
    if (pthread_attr_setstack(&attributes, memory, painted) != 0) stop("no such stack");
    if (pthread_create(&id, &attributes, run_one, &job) != 0) stop("no thread");
    pthread_join(id, nullptr);
    pthread_attr_destroy(&attributes);
    size_t low = 0;
    while (low < painted && static_cast<uint8_t *>(memory)[low] == paint) low++;
    munmap(memory, painted);
    return painted - low;
}

void measure(const std::vector<Job> &jobs) {
    size_t empty = stack_of({"nothing", nullptr, {}});
    std::printf("a thread that calls nothing: %zu bytes; the others without them:\n", empty);
    for (const Job &job : jobs) std::printf("%8zu  %s\n", stack_of(job) - empty, job.name.c_str());
}

} // namespace

int main(int count, char **words) {
    std::vector<Job> jobs = all_jobs();
    if (count == 2 && std::strcmp(words[1], "--measure") == 0) {
        measure(jobs);
        return 0;
    }
    std::vector<Job> expected = jobs;
    for (Job &job : expected) job.run(job.lists);
    expect_depths(expected);
    for (size_t i = 0; i < rounds; i++) run_threads(jobs, expected);
    std::puts("threads: ok");
    return 0;
}
