/* The window's call beside the slow reader and the tree by the letter: strips of random filings, damaged ones, strips
 * at the limits and strips written by hand, with plans and receipts that are short, just enough and longer. */
#include "trials_strips.hpp"

namespace trials {

namespace {

Tree whole_tree(const Filing &f) { return Search(f, UINT32_MAX).run(); }

/* At the limits, where the whole tree would be too much, up to the allowance. */
struct Up_to {
    uint32_t allowance;
    Tree operator()(const Filing &f) const {
        Tree tree = Search(f, allowance).run();
        if (tree.number == PLATEWRIGHT_STOPPED) tree.count++;
        return tree;
    }
};

using Whole = std::function<Tree(const Filing &)>;

void window_once(const Bytes &bytes, uint32_t allowance, size_t plan_room, size_t receipt_room, const Whole &tree,
                 Tally &tally) {
    Lent<uint8_t> strip(bytes), plan(filler<uint8_t>(plan_room)), receipt(filler<uint8_t>(receipt_room));
    Window expected = window(bytes, allowance, plan.now(), receipt.now(), tree);
    uint32_t came =
        face::window(strip.data(), strip.size(), allowance, plan.data(), plan.size(), receipt.data(), receipt.size());
    Comparison c;
    c.same("number", expected.number, came);
    c.same("plan", expected.plan, plan);
    c.same("receipt", expected.receipt, receipt);
    c.kept("strip", strip);
    if (c.differs())
        c.disagree({"window, allowance", shown(allowance), "plan room", shown(plan_room), "receipt room",
                    shown(receipt_room)});
    tally.number(came);
    if (receipt_room >= RECEIPT && expected.receipt[15] > 1) tally.add("unknown placements in a later group");
}

void try_window(const Bytes &strip, uint32_t allowance, size_t plan_room, size_t receipt_room, Tally &tally) {
    try_strip(strip,
              [&](const Bytes &bytes) { window_once(bytes, allowance, plan_room, receipt_room, whole_tree, tally); });
}

size_t any_receipt(Random &r) { return r.once_in(24) ? r.below(RECEIPT) : RECEIPT + (r.once_in(2) ? 0 : r.below(5)); }

enum { LARGER_FILINGS = 400 };

/* Whole with several allowances, and damaged. */
void try_strips(const Filing &f, Random &r, Tally &tally) {
    if (f.n > MAX_N || f.table.size() > 400) return;
    Bytes strip = strip_with_chapters(f, r);
    size_t room = r.room(f.n);
    for (uint32_t allowance : {UINT32_MAX, (uint32_t)r.below(2), (uint32_t)r.below(8)})
        try_window(strip, allowance, r.once_in(4) ? room : f.n + r.below(4), any_receipt(r), tally);
    for (int i = 0; i < 2; i++) try_window(damaged(strip, r), 1000, f.n + r.below(3), any_receipt(r), tally);
}

Bytes bytes_of(const char *hex) {
    Bytes bytes;
    for (char *end; *hex != 0; hex = end) {
        bytes.push_back((uint8_t)strtoul(hex, &end, 16));
        while (*end == ' ') end++;
    }
    return bytes;
}

/* Strips written by hand, with a plan of so many bytes: number, place and group. */
struct Hand {
    const char *hex;
    size_t plan;
    uint32_t number;
    size_t place;
    uint32_t group;
};

const Hand refused[] = {
    {"", 0, 21, 0, 0},
    {"50 01 01 5A", 4, 1, 0, 0},
    {"50 00 02 47 54 00 01 54 00 02 45 5A", 1, 6, 0, 0},
    {"50 00 02 51 5A", 4, 20, 3, 0},
    {"50 00 00 5A 00", 4, 20, 4, 0},
    {"50 00 02", 4, 21, 3, 0},
    {"50 00", 4, 21, 0, 0},
    {"50 00 02 47 54 00", 4, 21, 4, 0},
    {"47 5A", 4, 22, 0, 0},
    {"50 00 02 50 00 02 5A", 4, 22, 3, 0},
    {"50 00 02 54 00", 4, 22, 3, 0},
    {"50 00 02 47 5A", 4, 22, 4, 0},
    {"50 00 02 47 43 01 45 5A", 4, 22, 4, 0},
    {"50 00 00 5A 5A", 4, 22, 4, 0},
    /* in the first group, in a later one, after chapters and empty groups; a chapter or a placement may have the byte
       47 */
    {"50 00 02 47 54 00 03 45 5A", 4, 5, 4, 1},
    {"50 00 02 47 4C 00 00 45 5A", 4, 5, 4, 1},
    {"50 00 02 43 07 47 4C 00 03 45 47 54 00 03 45 5A", 4, 5, 6, 1},
    {"50 00 02 47 54 00 01 45 47 54 00 03 45 47 45 5A", 4, 5, 9, 2},
    {"50 00 02 47 54 00 01 45 47 45 47 54 00 02 4C 00 03 45 5A", 4, 5, 14, 3},
    {"50 00 02 43 01 47 54 00 01 45 43 47 43 02 47 4C 00 03 45 5A", 4, 5, 15, 2},
    {"50 00 02 47 45 43 47 47 54 00 00 45 5A", 4, 5, 8, 2},
    {"50 00 01 47 45 47 45 47 54 00 09 45 5A", 4, 5, 8, 3},
    {"50 00 47 47 54 00 47 45 47 4C 47 47 45 5A", 4, 5, 9, 2},
    /* 26 stands at the end mark: what comes after that is too late; neither n nor a chapter's number names a placement
     */
    {"50 00 01 5A", 4, 26, 3, 0},
    {"50 00 01 5A", 0, 26, 3, 0},
    {"50 00 01 5A 47", 4, 26, 3, 0},
    {"50 00 01 5A FF", 0, 26, 3, 0},
    {"50 00 01 5A 43", 4, 26, 3, 0},
    {"50 00 01 5A 5A", 4, 26, 3, 0},
    {"50 00 01 5A 47 54 00 01 45 5A", 4, 26, 3, 0},
    {"50 00 01 43 01 5A", 0, 26, 5, 0},
    {"50 00 01 47 45 5A", 4, 26, 5, 0},
    {"50 00 02 47 54 00 02 45 5A", 4, 26, 8, 0},
    {"50 00 02 47 4C 00 01 54 00 01 45 5A", 0, 26, 11, 0},
    {"50 00 03 47 54 00 01 45 43 02 47 4C 00 03 45 43 5A 5A", 4, 26, 17, 0},
    {"50 00 01 47 5A", 4, 22, 4, 0},
    {"50 00 02 47 54 00 01 5A", 4, 22, 7, 0},
    {"5A", 4, 22, 0, 0},
    {"50 00 01 FF 5A", 4, 20, 3, 0},
    {"50 00 01 43 5A", 4, 21, 5, 0},
    {"50 00 01", 4, 21, 3, 0},
};

/* Laid out without a split, with this plan. */
struct Named {
    const char *hex, *plan;
};

const Named named[] = {
    {"50 00 00 5A", ""},
    {"50 00 00 43 5A 5A", ""},
    {"50 00 01 47 4C 00 01 45 5A", "0"},
    {"50 00 01 47 54 00 01 4C 00 01 45 5A", "0"},
    {"50 00 02 47 54 00 01 45 43 07 47 54 00 02 45 5A", "1 1"},
    {"50 00 03 43 01 47 54 00 01 45 43 02 47 4C 00 02 45 43 03 47 4C 00 03 45 5A", "1 0 0"},
};

Bytes receipt_of(uint32_t number, size_t place, uint32_t count, uint32_t group) {
    Bytes receipt(RECEIPT);
    put_number(receipt, 0, number);
    put_number(receipt, 4, place);
    put_number(receipt, 8, count);
    put_number(receipt, 12, group);
    return receipt;
}

/* What is written here, and not the reference, says what must come. */
void by_hand(const Bytes &bytes, uint32_t allowance, const Bytes &plan_after, const Bytes &receipt_after,
             Tally &tally) {
    Lent<uint8_t> strip(bytes), plan(filler<uint8_t>(plan_after.size())), receipt(filler<uint8_t>(RECEIPT));
    uint32_t came =
        face::window(strip.data(), strip.size(), allowance, plan.data(), plan.size(), receipt.data(), receipt.size());
    Comparison c;
    c.same("number", (uint32_t)receipt_after[3], came);
    c.same("plan", plan_after, plan);
    c.same("receipt", receipt_after, receipt);
    try {
        if (c.differs()) c.disagree({"window, by hand"});
    } catch (const Disagreement &d) {
        report(shown_strip(bytes), d);
    }
    tally.number(came);
    tally.add("strips written by hand");
}

void refuse_by_hand(const Bytes &bytes, size_t plan, uint32_t number, size_t place, uint32_t group, Tally &tally) {
    by_hand(bytes, 100, filler<uint8_t>(plan), receipt_of(number, place, 0, group), tally);
}

void try_hand(Tally &tally) {
    for (const Hand &h : refused) {
        refuse_by_hand(bytes_of(h.hex), h.plan, h.number, h.place, h.group, tally);
        if (h.number == 26) refuse_by_hand(bytes_of(h.hex), 4 - h.plan, h.number, h.place, h.group, tally);
    }
    for (const Named &h : named) by_hand(bytes_of(h.hex), 0, bytes_of(h.plan), receipt_of(0, 0, 0, 0), tally);
    by_hand(bytes_of("50 00 03 47 54 00 01 54 00 02 54 00 03 45 5A"), 100, {0, 0, 1}, receipt_of(0, 0, 1, 0), tally);
}

/* Receipts of 0 to 16 bytes, for a strip that is laid out, one with an unknown and one with an unnamed placement, and
 * the empty one. */
void try_receipts(Tally &tally) {
    const char *strips[] = {"50 00 03 47 54 00 01 54 00 02 54 00 03 45 5A", "50 00 03 47 54 00 01 45 47 54 00 04 45 5A",
                            "50 00 03 47 54 00 01 54 00 02 45 5A", ""};
    for (size_t room = 0; room <= RECEIPT; room++)
        for (const char *hex : strips) try_window(bytes_of(hex), 100, 3, room, tally);
}

/* Plans and receipts of every length. */
void try_lengths(const Bytes &strip, size_t n, Tally &tally) {
    for (size_t plan = 0; plan <= n + SPARE; plan++)
        for (size_t receipt : {(size_t)0, RECEIPT - 1, RECEIPT, RECEIPT + SPARE})
            try_window(strip, 2, plan, receipt, tally);
}

/* One group of all 256 placements but one; with 0, of all. */
Bytes all_but(size_t missing) {
    Filing f{MAX_N, {}};
    for (size_t p = 1; p <= MAX_N; p++)
        if (p != missing) f.table.push_back((int16_t)p);
    f.table.push_back(0);
    return strip_of(f);
}

/* Groups with chapters between them, the last of them with an entry that is unknown. */
void try_many_groups(Tally &tally) {
    Bytes strip;
    put_command(strip, 0x50, 1);
    for (size_t g = 0; g < MAX_GROUPS - 1; g++) strip.insert(strip.end(), {0x43, 7, 0x47, 0x45});
    Bytes unknown = strip;
    unknown.push_back(0x47);
    put_command(unknown, 0x4C, 257);
    refuse_by_hand(unknown, 1, 5, 3 + 511 * 4 + 1, 512, tally);
    strip.insert(strip.end(), {0x43, 7, 0x47, 0x45});
    refuse_by_hand(strip, 0, 21, strip.size(), 0, tally);
    strip.insert(strip.end(), {0x43, 7, 0x47, 0x45, 0x5A});
    refuse_by_hand(strip, 4, 2, 3 + 512 * 4 + 2, 0, tally);
}

void try_many_entries(Tally &tally) {
    Bytes strip;
    put_command(strip, 0x50, 2);
    strip.push_back(0x47);
    for (size_t i = 0; i <= MAX_ENTRIES; i++) put_command(strip, 0x54, 1);
    strip.insert(strip.end(), {0x45, 0x5A});
    refuse_by_hand(strip, 4, 3, 4 + 2048 * 3, 0, tally);
}

/* The longest strip, with a placement that nobody names, and two that are too long. */
void try_longest(Tally &tally) {
    Bytes strip;
    put_command(strip, 0x50, 1);
    strip.resize(MAX_STRIP - 1, 0x43);
    strip.push_back(0x5A);
    refuse_by_hand(strip, 1, 26, MAX_STRIP - 1, 0, tally);
    strip.push_back(0x5A);
    refuse_by_hand(strip, 1, 24, 0, 0, tally);
    strip.assign(MAX_STRIP + 1, 0x43);
    refuse_by_hand(strip, 4, 24, 0, 0, tally);
}

/* Groups, entries and placements at their limits; placements above `names` stand in no group. */
Filing full_filing(size_t names) {
    Filing f{MAX_N, {}};
    for (size_t g = 0; g < MAX_GROUPS; g++) {
        for (size_t i = 0; i < 4; i++) f.table.push_back((int16_t)(1 + (g * 4 + i * 61) % names));
        f.table.push_back(0);
    }
    return f;
}

void try_limits(Tally &tally) {
    for (size_t p = 1; p <= MAX_N; p++) {
        Bytes strip = all_but(p);
        refuse_by_hand(strip, MAX_N, 26, strip.size() - 1, 0, tally);
    }
    for (uint32_t allowance : {0, 2, 10}) {
        auto once = [&](const Bytes &bytes) { window_once(bytes, allowance, MAX_N, RECEIPT, Up_to{allowance}, tally); };
        try_strip(all_but(0), once);
        try_strip(strip_of(full_filing(MAX_N)), once);
        try_strip(strip_of(full_filing(MAX_N - 1)), once);
    }
    try_many_groups(tally);
    try_many_entries(tally);
    try_longest(tally);
}

} // namespace

void window_trial() {
    Tally tally;
    try_hand(tally);
    try_receipts(tally);
    for (size_t number = 0; number < FILINGS; number++) {
        Random r(number + 11000);
        Filing f = filing_of(number);
        try_strips(f, r, tally);
        try_strips(completed(f, r), r, tally);
        Filing all = completed(f, r);
        try_strips(all, r, tally);
        if (has_all_lengths(number, f.n)) try_lengths(strip_of(all), f.n, tally);
    }
    for (size_t number = 0; number < LARGER_FILINGS; number++) {
        Random r(number + 13000);
        Filing f = completed(hard_filing(number % 2, r), r);
        try_window(strip_with_chapters(f, r), UINT32_MAX, f.n + r.below(2), RECEIPT, tally);
    }
    try_limits(tally);
    tally.show(
        {{PLATEWRIGHT_LAID_OUT, "laid out"}, {PLATEWRIGHT_NO_LAYOUT, "no layout"}, {PLATEWRIGHT_STOPPED, "stopped"}});
}

} // namespace trials
