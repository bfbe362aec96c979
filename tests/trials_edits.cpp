/* Add, preview and take back in any order on one buffer, beside a list of groups that is kept without them: after each
 * call every element of the buffer is that of the list. */
#include "trials.hpp"

namespace trials {

namespace {

/* One call. What is lent is said from the used length and n at that time, so that steps may go while a disagreement is
 * shrunk. */
struct Step {
    enum Operation { ADD, PREVIEW, TAKE_BACK } operation = ADD;
    Entries group;
    size_t past = SIZE_MAX; /* elements lent past the used part; SIZE_MAX: all */
    enum { RIGHT, ANY, ONE_MORE, PAST_BUFFER, HUGE_USED } used = RIGHT;
    enum { SAME_N, TOO_MANY, MORE_N, LESS_N } n = SAME_N;
    size_t pick = 0; /* for ANY and LESS_N */
    size_t list_short = 0, list_long = 0, reasons_short = 0, reasons_long = 0;
};

struct Tallies {
    Tally add, take_back, preview;
};

struct Lending {
    Entries buffer;
    size_t used, n;
};

/* The buffer, and the groups that stand in its used part. */
struct Progress {
    Entries buffer;
    std::vector<Entries> groups;

    size_t used() const {
        size_t length = 0;
        for (const Entries &group : groups) length += group.size() + 1;
        return length;
    }

    Lending lending(const Step &s, size_t n) const {
        size_t right = used(), room = s.past == SIZE_MAX ? buffer.size() : std::min(buffer.size(), right + s.past);
        size_t lent_used = s.used == Step::RIGHT         ? right
                           : s.used == Step::ANY         ? s.pick % (right + 1)
                           : s.used == Step::ONE_MORE    ? right + 1
                           : s.used == Step::PAST_BUFFER ? room + 1
                                                         : SIZE_MAX;
        size_t lent_n = s.n == Step::SAME_N     ? n
                        : s.n == Step::TOO_MANY ? MAX_N + 1
                        : s.n == Step::MORE_N   ? n + 1
                        : n == 0                ? 0
                                                : s.pick % n;
        return {first(buffer, room), lent_used, lent_n};
    }

    /* The groups that stand in a used part that passes: it ends where one of them ends, or has empty ones besides. */
    void keep(size_t length) {
        while (used() > length) groups.pop_back();
        while (used() < length) groups.emplace_back();
    }
};

std::string step_shown(const Step &s) {
    static const char *names[] = {"add ", "preview ", "take back "};
    return names[s.operation] + shown(s.group) + ", past " + shown(s.past) + ", used " + shown((size_t)s.used) +
           ", n " + shown((size_t)s.n) + ", pick " + shown(s.pick) + "; ";
}

/* An edit's answer and buffer. The buffer that was lent is the first part of the one that is kept. */
void compare_edit(Progress &p, const Edited &expected, const Answer &came, const Lent<int16_t> &lent, Comparison &c) {
    c.same(expected.answer, came);
    c.same("buffer", expected.buffer, lent);
    Entries after = lent.now();
    std::copy(after.begin(), after.end(), p.buffer.begin());
    Entries whole;
    for (const Entries &group : p.groups) {
        whole.insert(whole.end(), group.begin(), group.end());
        whole.push_back(0);
    }
    c.same("the groups that stand in the buffer", whole, first(p.buffer, std::min(whole.size(), p.buffer.size())));
}

void add_once(Progress &p, const Step &s, const Lending &l, Tally &tally) {
    Lent<int16_t> buffer(l.buffer), group(s.group);
    Edited expected = add(l.buffer, l.used, l.n, s.group);
    Answer came = face::add(buffer.data(), buffer.size(), l.used, l.n, group.data(), group.size());
    if (expected.answer.number == PLATEWRIGHT_GROUP_ADDED) {
        p.keep(l.used);
        p.groups.push_back(s.group);
    }
    Comparison c;
    c.kept("group", group);
    compare_edit(p, expected, came, buffer, c);
    if (c.differs())
        c.disagree({"add, buffer", shown(l.buffer), "used", shown(l.used), "n", shown(l.n), "group", shown(s.group)});
    tally.number(came.number);
}

void take_back_once(Progress &p, const Lending &l, Tally &tally) {
    Lent<int16_t> buffer(l.buffer);
    Edited expected = take_back(l.buffer, l.used, l.n);
    Answer came = face::take_back(buffer.data(), buffer.size(), l.used, l.n);
    if (passes(expected.answer)) {
        p.keep(l.used);
        p.groups.pop_back();
    }
    Comparison c;
    compare_edit(p, expected, came, buffer, c);
    if (c.differs()) c.disagree({"take back, buffer", shown(l.buffer), "used", shown(l.used), "n", shown(l.n)});
    tally.number(came.number);
}

size_t room_of(size_t n, size_t fewer, size_t more) { return fewer > n ? 0 : n - fewer + more; }

/* Beside the rules taken step by step, and beside Settle of a copy to which Add has added the group. */
void preview_once(const Step &s, const Lending &l, Tally &tally) {
    size_t n = std::min(l.n, MAX_N);
    Lent<int16_t> buffer(l.buffer), group(s.group), list(filler<int16_t>(room_of(n, s.list_short, s.list_long)));
    Lent<uint16_t> reasons(filler<uint16_t>(room_of(n, s.reasons_short, s.reasons_long)));
    Settled expected = preview(l.buffer, l.used, l.n, s.group, list.now(), reasons.now());
    Answer came = face::preview(buffer.data(), buffer.size(), l.used, l.n, group.data(), group.size(), list.data(),
                                list.size(), reasons.data(), reasons.size());
    Comparison c;
    c.same(expected.answer, came);
    c.same("list", expected.list, list);
    c.same("reasons", expected.reasons, reasons);
    c.kept("buffer", buffer);
    c.kept("group", group);
    if (c.differs())
        c.disagree({"preview, buffer", shown(l.buffer), "used", shown(l.used), "n", shown(l.n), "group", shown(s.group),
                    "room for", shown(list.size()), "states and", shown(reasons.size()), "reasons"});
    tally.number(came.number);
    bool settled = came.number == PLATEWRIGHT_SETTLED || came.number == PLATEWRIGHT_NO_LAYOUT;
    if (settled && l.buffer.size() - l.used < s.group.size() + 1) tally.add("previews without room to add");
}

void step_once(Progress &p, const Step &s, size_t n, Tallies &tally) {
    Lending l = p.lending(s, n);
    if (s.operation == Step::ADD) add_once(p, s, l, tally.add);
    if (s.operation == Step::TAKE_BACK) take_back_once(p, l, tally.take_back);
    if (s.operation == Step::PREVIEW) preview_once(s, l, tally.preview);
}

/* Most often a group of the filing; at times the whole filing, nothing, other entries, or an element that is none. */
Entries any_list(const Filing &f, const Groups &groups, Random &r) {
    size_t pick = r.below(40);
    if (pick == 0) return f.table;
    Entries group;
    if (!groups.empty()) {
        const std::vector<int> &chosen = groups[r.below(groups.size())];
        group.assign(chosen.begin(), chosen.end());
    }
    if (pick < 9) return any_group(0, std::min(f.n, MAX_N), group, r);
    if (pick > 14 || group.empty()) return group;
    group[r.below(group.size())] = pick < 11    ? (int16_t)0
                                   : pick == 11 ? INT16_MIN
                                                : (int16_t)(std::min(f.n, MAX_N) + 1);
    return group;
}

void any_rooms(Step &s, Random &r) {
    size_t pick = r.below(16);
    s.list_short = pick == 0 || pick == 2 ? r.from_to(1, 2) : 0;
    s.reasons_short = pick == 1 || pick == 2 ? r.from_to(1, 2) : 0;
    s.list_long = pick > 8 ? r.below(4) : 0;
    s.reasons_long = pick > 10 ? r.below(4) : 0;
}

Step any_step(const Filing &f, const Groups &groups, Random &r) {
    Step s;
    size_t pick = r.below(8);
    s.operation = pick < 3 ? Step::ADD : pick < 5 ? Step::TAKE_BACK : Step::PREVIEW;
    s.group = s.operation == Step::TAKE_BACK ? Entries() : any_list(f, groups, r);
    if (r.once_in(3)) s.past = r.below(8);
    pick = r.below(48);
    s.used = pick < 2                    ? Step::PAST_BUFFER
             : pick == 2                 ? Step::ONE_MORE
             : pick < 5                  ? Step::ANY
             : pick == 5 && r.once_in(4) ? Step::HUGE_USED
                                         : Step::RIGHT;
    pick = r.below(64);
    s.n = pick == 0 ? Step::TOO_MANY : pick == 1 ? Step::MORE_N : pick == 2 ? Step::LESS_N : Step::SAME_N;
    s.pick = r.next() >> 16;
    any_rooms(s, r);
    return s;
}

enum { LONG_TABLE = 200, LONG_BUFFER = PLATEWRIGHT_MAX_TABLE + 16, SHORT_BUFFER = 320 };

/* The buffer begins with the groups of the filing, where they are all well, or with some of them. */
Progress any_start(const Filing &f, const Groups &groups, Random &r) {
    bool large = f.table.size() > LONG_TABLE;
    Progress p{filler<int16_t>(large ? LONG_BUFFER : SHORT_BUFFER), {}};
    size_t pick = r.below(3), kept = large || pick == 0 ? groups.size() : pick == 1 ? r.below(groups.size() + 1) : 0;
    for (size_t g = 0; g < kept; g++) {
        p.groups.emplace_back(groups[g].begin(), groups[g].end());
        if (p.used() > p.buffer.size()) p.groups.pop_back();
    }
    size_t at = 0;
    for (const Entries &group : p.groups) {
        std::copy(group.begin(), group.end(), p.buffer.begin() + (long)at);
        at += group.size() + 1;
        p.buffer[at - 1] = 0;
    }
    return p;
}

/* Twenty to forty calls; few on a long table, where settling by the letter is slow. */
void edit_filing(const Filing &f, Random r, Tallies &tally) {
    Groups groups = groups_of(f.table);
    Progress start = any_start(f, groups, r);
    std::vector<Step> steps;
    size_t count = f.table.size() > LONG_TABLE ? 12 : r.from_to(20, 40);
    for (size_t i = 0; i < count; i++) steps.push_back(any_step(f, groups, r));
    auto run = [&](const std::vector<Step> &some) {
        Progress p = start;
        for (const Step &s : some) step_once(p, s, f.n, tally);
    };
    if (!disagrees(run, steps)) return;
    steps = shrunk<Step>(steps, [&](const std::vector<Step> &some) { return disagrees(run, some); });
    try {
        run(steps);
    } catch (const Disagreement &d) {
        std::string before;
        for (const Step &step : steps) before += step_shown(step);
        throw Disagreement{d.what + "  after     " + before + "\n"};
    }
}

/* A list of more entries than 16 bits count, and lists of up to the last entries that there is room for. */
void add_long(Tally &tally) {
    for (size_t size : {MAX_ENTRIES - 1, MAX_ENTRIES, MAX_ENTRIES + 1, (size_t)UINT16_MAX + 1, (size_t)UINT16_MAX + 2})
        try_filing({1, Entries(size, 1)}, [&](const Filing &f) {
            Progress p{filler<int16_t>(MAX_ENTRIES + 8), {}};
            Step s;
            s.group = f.table;
            add_once(p, s, p.lending(s, f.n), tally);
        });
}

} // namespace

void edits_trial() {
    Tallies tally;
    for (size_t number = 0; number < ALL_FILINGS; number++)
        try_filing(filing_of(number), [&](const Filing &f) { edit_filing(f, Random(number + 8000), tally); });
    add_long(tally.add);
    printf("add\n");
    tally.add.show({{PLATEWRIGHT_GROUP_ADDED, "groups added"}});
    printf("take back\n");
    tally.take_back.show({{PLATEWRIGHT_DONE, "groups taken back"}});
    printf("preview\n");
    tally.preview.show({{PLATEWRIGHT_SETTLED, "settled"}, {PLATEWRIGHT_NO_LAYOUT, "dead ends"}});
}

} // namespace trials
