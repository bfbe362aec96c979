/* Strips once more: read, save and the window's call, by documents 01 and 02 sentence by sentence. */
#ifndef REFERENCE_STRIPS_HPP
#define REFERENCE_STRIPS_HPP

#include "reference.hpp"

namespace reference {

struct Read {
    Answer answer;
    Entries table;
};

/* A reader goes command by command; elements are put on a list of its own, since a refusal leaves the table as it was.
 */
class Reader {
    enum Turn { BEFORE, OUTSIDE, INSIDE, AFTER }; /* before 50, outside a group, inside one, after 5A */

    const Bytes &strip;
    size_t room;
    size_t at = 0;
    Turn turn = BEFORE;
    size_t opened = 0, entries = 0;

    /* The bytes of a mark's operand, -1 where the byte is no command. */
    static int operand_bytes(uint8_t mark) {
        switch (mark) {
        case 0x50:
        case 0x54:
        case 0x4C: return 2;
        case 0x43: return 1;
        case 0x47:
        case 0x45:
        case 0x5A: return 0;
        default: return -1;
        }
    }

    static Turn turn_of(uint8_t mark) {
        switch (mark) {
        case 0x50: return BEFORE;
        case 0x54:
        case 0x4C:
        case 0x45: return INSIDE;
        default: return OUTSIDE;
        }
    }

    /* "23 (entries and closings each need an element)" */
    uint32_t store(int element) {
        if (table.size() == room) return PLATEWRIGHT_TABLE_SHORT;
        table.push_back((int16_t)element);
        return PLATEWRIGHT_DONE;
    }

    uint32_t entry(size_t p, int sign) {
        if (p == 0 || p > n) return PLATEWRIGHT_UNKNOWN_PLACEMENT;
        if (entries == MAX_ENTRIES) return PLATEWRIGHT_TOO_MANY_ENTRIES;
        entries++;
        return store(sign * (int)p);
    }

    /* "value (1 or 5), limit (2 at the 513th opening, 3 at the 2,049th entry), 23", and 26 at the end mark */
    uint32_t obey(uint8_t mark, size_t operand) {
        switch (mark) {
        case 0x50:
            if (operand > MAX_N) return PLATEWRIGHT_TOO_MANY_PLACEMENTS;
            n = operand;
            turn = OUTSIDE;
            return PLATEWRIGHT_DONE;
        case 0x47:
            if (opened == MAX_GROUPS) return PLATEWRIGHT_TOO_MANY_GROUPS;
            opened++;
            turn = INSIDE;
            return PLATEWRIGHT_DONE;
        case 0x54: return entry(operand, 1);
        case 0x4C: return entry(operand, -1);
        case 0x45: turn = OUTSIDE; return store(0);
        case 0x5A: turn = AFTER; return names_all(table, n) ? PLATEWRIGHT_DONE : PLATEWRIGHT_UNNAMED_PLACEMENT;
        default: return PLATEWRIGHT_DONE; /* a chapter doesn't change the table */
        }
    }

    /* "command by command 20, 22, 21" */
    uint32_t command() {
        int bytes = operand_bytes(strip[at]);
        if (bytes < 0) return PLATEWRIGHT_UNKNOWN_MARK;
        if (turn_of(strip[at]) != turn) return PLATEWRIGHT_OUT_OF_TURN;
        if (strip.size() - at <= (size_t)bytes) return PLATEWRIGHT_CUT_STRIP;
        uint32_t number = obey(strip[at], bytes == 2 ? strip[at + 1] * 256u + strip[at + 2] : 0);
        if (number == PLATEWRIGHT_DONE) at += (size_t)bytes + 1;
        return number;
    }

  public:
    size_t n = 0;
    Entries table; /* the elements up to the end or the refusal */

    Reader(const Bytes &bytes, size_t elements) : strip(bytes), room(elements) {}

    Answer read() {
        if (strip.size() > MAX_STRIP) return answer(PLATEWRIGHT_STRIP_TOO_LONG);
        while (at < strip.size()) {
            uint32_t number = command();
            bool unknown = number == PLATEWRIGHT_UNKNOWN_PLACEMENT;
            if (number != PLATEWRIGHT_DONE) return answer(number, at, unknown ? (uint32_t)opened : 0);
        }
        if (turn != AFTER) return answer(PLATEWRIGHT_CUT_STRIP, strip.size());
        Answer a = answer(PLATEWRIGHT_STRIP_READ);
        a.n = n;
        a.used = table.size();
        return a;
    }
};

inline Read read(const Bytes &strip, Entries table) {
    Reader reader(strip, table.size());
    Answer a = reader.read();
    if (a.number == PLATEWRIGHT_STRIP_READ) put_first(table, reader.table);
    return {a, table};
}

/* Save (A1): "placements, each group in table order, no chapter marks, the end" */

inline void put_command(Bytes &strip, uint8_t mark, size_t operand) {
    strip.push_back(mark);
    strip.push_back((uint8_t)(operand / 256 % 256));
    strip.push_back((uint8_t)(operand % 256));
}

/* A table as a strip, whether it passes or not; chapters(strip) may put something before each group and the end. */
template <class Chapters> Bytes strip_of(const Filing &f, Chapters chapters) {
    Bytes strip;
    put_command(strip, 0x50, f.n);
    bool inside = false;
    for (int16_t e : f.table) {
        if (!inside) {
            chapters(strip);
            strip.push_back(0x47);
        }
        inside = e != 0;
        if (e == 0)
            strip.push_back(0x45);
        else
            put_command(strip, e > 0 ? 0x54 : 0x4C, size_of(e));
    }
    chapters(strip);
    strip.push_back(0x5A);
    return strip;
}

inline Bytes strip_of(const Filing &f) {
    return strip_of(f, [](Bytes &) {});
}

struct Saved {
    Answer answer;
    Bytes strip;
};

inline Saved save(const Filing &f, Bytes room) {
    Answer a = check(f.table, f.n);
    if (!passes(a)) return {a, room};
    a = then(a, !names_all(f.table, f.n), PLATEWRIGHT_UNNAMED_PLACEMENT);
    Bytes strip = strip_of(f);
    a = then(a, room.size() < strip.size(), PLATEWRIGHT_STRIP_SHORT);
    if (!passes(a)) return {a, room};
    put_first(room, strip);
    return {answer(PLATEWRIGHT_DONE, strip.size()), room};
}

/* The window's call */

struct Window {
    uint32_t number;
    Bytes plan, receipt;
};

inline void put_number(Bytes &receipt, size_t at, size_t number) {
    for (size_t i = 0; i < 4; i++) receipt[at + i] = (uint8_t)(number >> 8 * (3 - i));
}

/* "number, place, count and group, four bytes each, high byte first"; tree(filing) is the tree without an allowance. */
template <class Whole> Window window(const Bytes &strip, uint32_t allowance, Bytes plan, Bytes receipt, Whole tree) {
    if (receipt.size() < RECEIPT) return {PLATEWRIGHT_RECEIPT_SHORT, plan, receipt};
    Reader reader(strip, SIZE_MAX);
    Answer a = reader.read();
    bool read = a.number == PLATEWRIGHT_STRIP_READ;
    if (read && plan.size() < reader.n)
        a = answer(PLATEWRIGHT_PLAN_SHORT);
    else if (read) {
        Searched s = search(tree(Filing{reader.n, reader.table}), allowance, plan, Entries(reader.n));
        a = s.answer;
        plan = s.plan;
    }
    put_number(receipt, 0, a.number);
    put_number(receipt, 4, a.place);
    put_number(receipt, 8, a.count);
    put_number(receipt, 12, a.group);
    return {a.number, plan, receipt};
}

} // namespace reference

#endif
