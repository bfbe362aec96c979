/* Read beside a slow reader, and save beside a plain writer: strips with chapters, cut at every place, doubled,
 * damaged, too long, into tables with too little room, just enough and more. What was saved is read back, and what was
 * read is saved again. */
#include "trials_strips.hpp"

namespace trials {

namespace {

Answer read_once(const Bytes &bytes, size_t room, Tally &tally) {
    Lent<uint8_t> strip(bytes);
    Lent<int16_t> table(filler<int16_t>(room));
    Read expected = read(bytes, table.now());
    Answer came = face::read(strip.data(), strip.size(), table.data(), table.size());
    Comparison c;
    c.same(expected.answer, came);
    c.same("table", expected.table, table);
    c.kept("strip", strip);
    if (c.differs()) c.disagree({"read, room for", shown(room), "elements"});
    tally.number(came.number);
    if (came.number == PLATEWRIGHT_STRIP_READ) tally.most("longest strip read", bytes.size());
    tally.most("longest strip", bytes.size());
    return came;
}

/* The elements up to the end or the refusal: with just this room a refusal is nearest to another one. */
size_t elements_of(const Bytes &strip) {
    Reader reader(strip, SIZE_MAX);
    reader.read();
    return reader.table.size();
}

void try_read(const Bytes &strip, size_t room, Tally &tally) {
    try_strip(strip, [&](const Bytes &bytes) { read_once(bytes, room, tally); });
}

enum { DAMAGES = 4, SHORT_STRIP = 100, EVERY_CUT = 16, LONGEST_ONCE_IN = 40 };

void try_strips(const Filing &f, size_t number, Random &r, Tally &tally) {
    bool longest = r.once_in(LONGEST_ONCE_IN);
    Bytes strip = longest ? longest_strip(f, r) : strip_with_chapters(f, r);
    size_t room = r.room(f.table.size());
    try_read(strip, room, tally);
    try_read(strip, elements_of(strip), tally);
    for (int i = 0; i < DAMAGES; i++) {
        Bytes changed = damaged(strip, r);
        try_read(changed, room, tally);
        try_read(changed, elements_of(changed), tally);
    }
    Bytes twice = strip;
    twice.push_back(any_byte(r));
    try_read(twice, room, tally);
    for (size_t room = 0; has_all_lengths(number, f.n) && room <= f.table.size() + SPARE; room++)
        try_read(strip, room, tally);
    if (longest || strip.size() > SHORT_STRIP || number % EVERY_CUT != 0) return;
    twice = strip;
    twice.insert(twice.end(), strip.begin(), strip.end());
    try_read(twice, room, tally);
    for (size_t cut = 0; cut < strip.size(); cut++) {
        try_read(Bytes(strip.begin(), strip.begin() + (long)cut), room, tally);
        tally.add("strips cut at every place");
    }
}

/* Saved and read back */

Bytes save_once(const Filing &f, size_t room, Tally &tally) {
    Lent<int16_t> table(f.table);
    Lent<uint8_t> strip(filler<uint8_t>(room));
    Saved expected = save(f, strip.now());
    Answer came = face::save(table.data(), table.size(), f.n, strip.data(), strip.size());
    Comparison c;
    c.same(expected.answer, came);
    c.same("strip", expected.strip, strip);
    c.kept("table", table);
    if (c.differs()) c.disagree({"save, room for", shown(room), "bytes"});
    tally.number(came.number);
    Bytes written = strip.now();
    written.resize(passes(came) ? came.place : 0);
    return written;
}

/* "Reading the saved strip brings back n and the same table." */
void read_back(const Filing &f, const Bytes &written, Tally &tally) {
    Lent<uint8_t> strip(written);
    Lent<int16_t> table(filler<int16_t>(f.table.size()));
    Answer expected = answer(PLATEWRIGHT_STRIP_READ),
           came = face::read(strip.data(), strip.size(), table.data(), table.size());
    expected.n = f.n;
    expected.used = f.table.size();
    Comparison c;
    c.same(expected, came);
    c.same("table", f.table, table);
    if (c.differs()) c.disagree({"read of what was saved"});
    tally.add("read back");
    tally.most("longest strip saved", written.size());
}

void save_filing(const Filing &f, size_t number, Tally &tally) {
    Random r(number);
    size_t length = f.n <= MAX_N ? strip_of(f).size() : 4;
    Bytes written = save_once(f, r.room(length), tally);
    if (!written.empty()) read_back(f, written, tally);
    for (size_t room = 0; has_all_lengths(number, f.n) && room <= length + SPARE; room++) save_once(f, room, tally);
}

/* Strips of the greatest length and up to three bytes more, and of more than 16 bits count. */
void read_long(Tally &tally) {
    for (size_t length : {MAX_STRIP - 1, MAX_STRIP, MAX_STRIP + 1, MAX_STRIP + 2, (size_t)UINT16_MAX + 1 + MAX_STRIP}) {
        Bytes strip;
        put_command(strip, 0x50, 0);
        strip.resize(length - 1, 0x43);
        strip.push_back(0x5A);
        try_read(strip, 0, tally);
        strip.back() = 0x43;
        try_read(strip, 1, tally);
    }
}

/* "for a strip without chapter marks, reading and then saving brings back the same bytes" */
void save_again(const Bytes &bytes, Tally &tally) {
    Entries table(PLATEWRIGHT_MAX_TABLE);
    Lent<uint8_t> given(bytes);
    Answer read = face::read(given.data(), given.size(), table.data(), table.size());
    if (read.number != PLATEWRIGHT_STRIP_READ) return;
    table.resize(read.used);
    if (bytes.size() != 4 + 2 * groups_in(table) + 3 * entries_in(table)) return; /* chapters */
    Lent<uint8_t> strip(filler<uint8_t>(bytes.size()));
    Lent<int16_t> filing(table);
    Answer came = face::save(filing.data(), filing.size(), read.n, strip.data(), strip.size());
    Comparison c;
    c.same(answer(PLATEWRIGHT_DONE, bytes.size()), came);
    c.same("strip", bytes, strip);
    if (c.differs()) c.disagree({"read, then save"});
    tally.add("read, then saved");
}

} // namespace

void read_trial() {
    Tally tally;
    for (size_t number = 0; number < ALL_FILINGS; number++) {
        Random r(number + 9000);
        Filing f = filing_of(number);
        try_strips(f, number, r, tally);
        try_strips(completed(f, r), number, r, tally);
    }
    read_long(tally);
    tally.show({{PLATEWRIGHT_STRIP_READ, "strips read"}});
}

void save_trial() {
    Tally tally;
    for (size_t number = 0; number < ALL_FILINGS; number++) {
        Random r(number + 10000);
        Filing f = filing_of(number), all = completed(f, r);
        for (const Filing &given : {f, all}) {
            try_filing(given, [&](const Filing &g) { save_filing(g, number, tally); });
            if (given.n > MAX_N) continue;
            Bytes strip = strip_of(given);
            try_strip(strip, [&](const Bytes &bytes) { save_again(bytes, tally); });
            for (int i = 0; i < DAMAGES; i++)
                try_strip(damaged(strip, r), [&](const Bytes &bytes) { save_again(bytes, tally); });
        }
    }
    tally.show({{PLATEWRIGHT_DONE, "strips saved"}});
}

} // namespace trials
