"""Tests of python/platewright.py: every operation, every refusal that can be provoked, wrong types, random sets beside
a trial of every choice, threads, and the file's constants and structs beside include/platewright.h.

Run with PLATEWRIGHT_LIBRARY naming the shared library; or with PYTHONPATH naming an installed platewright.py, which
finds its library by itself."""
import ctypes
import doctest
import itertools
import os
import pickle
import random
import re
import subprocess
import sys
import tempfile
import threading
import unittest

HERE = os.path.dirname(os.path.abspath(__file__))
HEADER = os.path.join(HERE, "..", "include", "platewright.h")
sys.path.append(os.path.join(HERE, "..", "python"))

sys.dont_write_bytecode = True
import platewright as p  # noqa: E402

PYTHON_STACK = 256 * 1024
THREADS = 6


def layouts_of(table, n):
    """Every choice is tried, in order: document 01's definition."""
    groups = p.groups_of(table)
    return [list(choice) for choice in itertools.product((0, 1), repeat=n)
            if all(sum(choice[abs(e) - 1] == (e > 0) for e in group) == 1 for group in groups)]


def refusal_of(table, n):
    """Refusals 1 to 5 in their order: number, place and group, or None."""
    if n > p.MAX_PLACEMENTS:
        return 1, 0, 0
    if table.count(0) > p.MAX_GROUPS:
        return 2, 0, 0
    if len(table) - table.count(0) > p.MAX_ENTRIES:
        return 3, 0, 0
    if table and table[-1] != 0:
        return 4, 0, 0
    for place, entry in enumerate(table):
        if abs(entry) > n:
            return 5, place, table[:place].count(0) + 1
    return None


def random_set(draw, most=7):
    n = draw.randrange(most)
    groups = [[draw.choice((1, -1)) * draw.randint(1, n) for _ in range(draw.randint(0, 4))] if n else []
              for _ in range(draw.choice((0, 1, 2, 2, 3, 3, 4, 5)))]
    return p.table_of([group for group in groups if group or draw.random() < 0.1]), n


def header_text():
    with open(HEADER, encoding="utf-8") as header:
        return header.read()


def header_constants():
    values = {}
    for name, value in re.findall(r"^#define PLATEWRIGHT_(\w+) +([^/\n]+)", header_text(), re.M):
        values[name] = eval(value.replace("PLATEWRIGHT_", ""), {}, dict(values))
    return values


class Case(unittest.TestCase):
    def refused(self, number, place, group, call, *arguments):
        with self.assertRaises(p.Refused) as caught:
            call(*arguments)
        fault = caught.exception
        self.assertEqual((fault.number, fault.place, fault.group), (number, place, group), f"{call} {arguments}")
        return fault


class Operations(Case):
    def test_tables_of_groups(self):
        self.assertEqual(p.table_of([[1, 2, 3], [-1, 2], []]), [1, 2, 3, 0, -1, 2, 0, 0])
        self.assertEqual(p.groups_of([1, 2, 3, 0, -1, 2, 0, 0]), [[1, 2, 3], [-1, 2], []])
        self.assertEqual((p.table_of([]), p.groups_of([])), ([], []))
        self.assertRaises(ValueError, p.table_of, [[1, 0]])
        self.assertRaises(ValueError, p.groups_of, [1, 0, 2])

    def test_check(self):
        self.assertIsNone(p.check([1, 2, 0], 2))
        self.assertIsNone(p.check((), 0))

    def test_check_in_parts(self):
        before = p.Pass(2).part([1, 0, 3])
        self.refused(4, 0, 0, before.end)
        self.refused(5, 2, 2, before.part([0]).end)
        self.refused(4, 0, 0, before.end)
        self.assertIsNone(p.Pass(3).part([1, 0, 3]).part([]).part([0]).end())

    def test_search(self):
        self.assertEqual(p.search([1, 2, 3, 4, 0], 4, 2), (p.LAID_OUT, 2, [0, 0, 0, 1], [-1, -2]))
        self.assertEqual(p.search([1, 2, 3, 4, 0], 4, 1), (p.STOPPED, 1, None, None))
        self.assertEqual(p.search([0], 1), (p.NO_LAYOUT, 0, None, None))
        self.assertEqual(p.search([], 0), (p.LAID_OUT, 0, [], []))
        self.assertEqual(p.search([1, 2, 3, 0, 1, 2, 4, 0, 1, 3, 4, 0], 4), (p.LAID_OUT, 1, [1, 0, 0, 0], [1]))

    def test_list_layouts(self):
        rows = [[0, 0, 1], [0, 1, 0], [1, 0, 0]]
        self.assertEqual(p.list_layouts([1, 2, 3, 0], 3, 2, 2), (p.LAID_OUT, 2, rows[:2], True))
        self.assertEqual(p.list_layouts([1, 2, 3, 0], 3, 4, 2), (p.LAID_OUT, 2, rows, False))
        self.assertEqual(p.list_layouts([1, 2, 3, 0], 3, 2, 1), (p.STOPPED, 1, [], False))
        self.assertEqual(p.list_layouts([1, 2, 3, 0], 3, 0), (p.LAID_OUT, 2, [], True))
        self.assertEqual(p.list_layouts([0], 1, 5), (p.NO_LAYOUT, 0, [], False))
        self.assertEqual(p.list_layouts([], 0, 2 ** 64 - 1), (p.LAID_OUT, 0, [[]], False))

    def test_settle(self):
        self.assertEqual(p.settle([1, 2, 0, 2, 3, 0], 3), (p.SETTLED, [1, -1, 1], [0, 1, 2]))
        self.assertEqual(p.settle([1, 2, 0, 1, -2, 3, 0], 3), (p.SETTLED, [-257, 257, 257], [2, 1, 2]))
        self.assertEqual(p.settle([1, 1, 0], 1), (p.NO_LAYOUT, None, None))

    def test_index(self):
        self.assertEqual(p.index([1, 2, 0, 0, 3, 0], 3), [(0, 2), (3, 0), (4, 1)])
        self.assertEqual(p.index([0] * 512, 0), [(i, 0) for i in range(512)])
        self.assertEqual(p.index([], 3), [])

    def test_add_take_back_preview(self):
        table = [1, 2, 0]
        self.assertEqual(p.preview(table, 3, [-2, 3]), (p.SETTLED, [1, -1, -1], [0, 1, 2]))
        self.assertEqual(p.preview(table, 3, []), (p.NO_LAYOUT, None, None))
        longer = p.add(table, 3, [-2, 3])
        self.assertEqual(longer, [1, 2, 0, -2, 3, 0])
        self.assertEqual(p.take_back(longer, 3), table)
        self.assertEqual(p.take_back(table, 3), [])
        self.assertEqual(table, [1, 2, 0])

    def test_read_and_save(self):
        strip = bytes.fromhex("50000247540001 4C0002455A")
        self.assertEqual(p.save([1, -2, 0], 2), strip)
        self.assertEqual(p.read(strip), (2, [1, -2, 0]))
        self.assertEqual(p.read(bytearray(b"P\0\1C\7GT\0\1EZ")), (1, [1, 0]))
        self.assertEqual(p.save([], 0), b"P\0\0Z")
        longest = p.table_of([[1 + i % 256, -1 - i * 7 % 256, 3, -4] for i in range(512)])
        self.assertEqual(len(p.save(longest, 256)), p.MAX_SAVED)
        self.assertEqual(p.read(p.save(longest, 256)), (256, longest))

    def test_window(self):
        strip = p.save([1, 2, 3, 0], 3)
        self.assertEqual(p.window(strip), (p.LAID_OUT, 1, [0, 0, 1], bytes(11) + b"\1" + bytes(4)))
        self.assertEqual(p.window(memoryview(strip), 0)[:3], (p.STOPPED, 0, None))
        self.assertEqual(p.window(b"P\0\1GT\0\1T\0\1EZ")[:3], (p.NO_LAYOUT, 0, None))
        self.assertEqual(p.window(b"P\0\0Z")[:3], (p.LAID_OUT, 0, []))


class Refusals(Case):
    CALLS = [p.check, p.search, p.settle, p.index, p.take_back, p.save, lambda t, n: p.list_layouts(t, n, 1),
             lambda t, n: p.add(t, n, []), lambda t, n: p.preview(t, n, []), lambda t, n: p.Pass(n).part(t).end()]

    def test_tables(self):
        for call in self.CALLS:
            self.refused(1, 0, 0, call, [9], 257)
            self.refused(1, 0, 0, call, [], 2 ** 64 - 1)
            self.refused(2, 0, 0, call, [1] * 3000 + [0] * 513, 0)
            self.refused(3, 0, 0, call, [1] * 2049, 0)
            self.refused(4, 0, 0, call, [9, 9], 1)
            self.refused(5, 2, 3, call, [0, 0, 9, 0], 1)
            self.refused(5, 1, 1, call, [1, -32768, 0], 256)

    def test_added_groups(self):
        for call in (p.add, p.preview):
            self.refused(2, 0, 0, call, [0] * 512, 1, [1])
            self.refused(3, 0, 0, call, [1] * 2048 + [0], 1, [9])
            self.refused(5, 4, 2, call, [1, 2, 0], 2, [1, -3])
            self.refused(5, 3, 2, call, [1, 2, 0], 2, [0, 1])
        self.refused(28, 0, 0, p.take_back, [], 5)

    def test_strips(self):
        for call in (p.read, p.window):
            self.refused(20, 3, 0, call, b"P\0\1\xff")
            self.refused(21, 0, 0, call, b"")
            self.refused(21, 4, 0, call, b"P\0\1GT\0")
            self.refused(22, 0, 0, call, b"Z")
            self.refused(24, 0, 0, call, bytes(16385))
            self.refused(26, 3, 0, call, b"P\0\1ZG")
            self.refused(1, 0, 0, call, b"P\1\1")
            self.refused(5, 8, 2, call, b"P\0\1GEC\7GT\0\2EZ"[:13])
            self.refused(2, 1027, 0, call, b"P\0\0" + b"GE" * 513)
            self.refused(3, 6148, 0, call, b"P\0\1G" + b"T\0\1" * 2049)
        self.refused(26, 0, 0, p.save, [1, 0], 2)

    def test_short_lists(self):
        """The lists that this file's functions lend are long enough; shorter ones are tried past them."""
        entries = [ctypes.c_int16 * i for i in range(4)]
        numbers = [ctypes.c_uint16 * i for i in range(4)]
        octets = [ctypes.c_uint8 * i for i in range(16)]
        sizes = [ctypes.c_size_t * i for i in range(2)]
        table = entries[3](1, 2, 0)
        for number, call in [
                (6, ("search", table, 2, 9, octets[1](), entries[1]())),
                (7, ("search", table, 2, 9, octets[2](), entries[1]())),
                (8, ("index", table, 2, sizes[1](), sizes[0]())),
                (8, ("index", table, 2, sizes[0](), sizes[1]())),
                (12, ("add", table, 4, 2, entries[0]())),
                (12, ("take_back", table, 4, 2)),
                (14, ("settle", table, 2, entries[1](), numbers[1]())),
                (19, ("settle", table, 2, entries[2](), numbers[1]())),
                (19, ("preview", table, 3, 2, entries[0](), entries[2](), numbers[1]())),
                (23, ("add", table, 3, 2, entries[0]())),
                (25, ("save", table, 2, octets[11]())),
                (27, ("list", table, 2, 2, 9, octets[3]()))]:
            self.refused(number, 0, 0, p._call, *call)
        strip = octets[4](*b"P\0\0Z")
        self.assertEqual(p._library.platewright_window(strip, 4, 0, octets[0](), 0, octets[15](), 15), 9)

    def test_words(self):
        fault = self.refused(5, 4, 2, p.add, [1, 2, 0], 2, [1, -3])
        self.assertEqual(str(fault), "unknown placement (5), place 4, group 2")
        self.assertEqual(fault.words, "unknown placement")
        self.assertEqual(str(self.refused(4, 0, 0, p.check, [1], 1)), "open group (4)")
        self.assertEqual(str(self.refused(21, 0, 0, p.read, b"")), "cut strip (21), place 0")
        copy = pickle.loads(pickle.dumps(fault))
        self.assertEqual((str(copy), copy.group), (str(fault), 2))


class WrongTypes(Case):
    TABLES = [None, 1, 1.5, "1 0", b"\1\0", {1, 0}, {1: 0}, object(), iter([1, 0]), [1.5], ["1"], [None], [[1]],
              [32768], [-32769], [10 ** 30]]
    SIZES = [None, 1.5, "1", b"1", [1], -1, 2 ** 64, 10 ** 30]
    ALLOWANCES = [None, 1.5, "1", -1, 2 ** 32]
    STRIPS = [None, 1, 1.5, "PZ", [80, 0], object()]

    def wrong(self, call, *arguments):
        with self.assertRaises((TypeError, ValueError), msg=f"{call} {arguments}"):
            call(*arguments)

    def test_tables(self):
        for wrong in self.TABLES:
            for call in Refusals.CALLS:
                self.wrong(call, wrong, 1)
            for call in (p.add, p.preview):
                self.wrong(call, [1, 0], 1, wrong)
            self.wrong(p.Pass(1).part, wrong)

    def test_groups(self):
        for wrong in self.TABLES[:-3]:
            self.wrong(p.table_of, wrong if wrong != [[1]] else [[[1]]])
            self.wrong(p.groups_of, wrong)

    def test_numbers(self):
        for wrong in self.SIZES:
            for call in Refusals.CALLS:
                self.wrong(call, [1, 0], wrong)
            self.wrong(p.list_layouts, [1, 0], 1, wrong)
        for wrong in self.ALLOWANCES:
            self.wrong(p.search, [1, 0], 1, wrong)
            self.wrong(p.list_layouts, [1, 0], 1, 1, wrong)
            self.wrong(p.window, b"P\0\0Z", wrong)

    def test_strips(self):
        for wrong in self.STRIPS:
            self.wrong(p.read, wrong)
            self.wrong(p.window, wrong)


class RandomSets(Case):
    SETS = 1500

    def test_beside_every_choice(self):
        draw = random.Random(4)
        for _ in range(self.SETS):
            table, n = random_set(draw)
            with self.subTest(table=table, n=n):
                self.one_set(draw, table, n, layouts_of(table, n))

    def one_set(self, draw, table, n, layouts):
        found = p.search(table, n)
        self.assertEqual(found.plan, layouts[0] if layouts else None)
        self.assertEqual(found.number, p.LAID_OUT if layouts else p.NO_LAYOUT)
        if found.count:
            self.assertEqual(p.search(table, n, found.count - 1).number, p.STOPPED)
        k = draw.randrange(len(layouts) + 2)
        listed = p.list_layouts(table, n, k)
        self.assertEqual((listed.rows, listed.more), (layouts[:k], len(layouts) > k))
        self.large_k(table, n, draw.randrange(6))
        self.settled(p.settle(table, n), layouts)
        group = [draw.choice((1, -1)) * draw.randint(1, n) for _ in range(draw.randint(0, 3))] if n else []
        longer = p.add(table, n, group)
        self.assertEqual(longer, table + group + [0])
        self.assertEqual(p.preview(table, n, group), p.settle(longer, n))
        self.assertEqual(p.take_back(longer, n), table)
        self.assertEqual([table[h.start:h.start + h.entries] for h in p.index(table, n)], p.groups_of(table))
        if {abs(e) for e in table} >= set(range(1, n + 1)):
            strip = p.save(table, n)
            self.assertEqual(p.read(strip), (n, table))
            self.assertEqual(p.window(strip)[:3], found[:3])
        else:
            self.refused(26, 0, 0, p.save, table, n)

    def large_k(self, table, n, allowance):
        """list_layouts asks for fewer rows than k where the allowance can't find k layouts."""
        k = allowance + 5
        rows = (ctypes.c_uint8 * (k * n))()
        answer = p._call("list", (ctypes.c_int16 * len(table))(*table), n, k, allowance, rows)
        expected = [rows[i * n:i * n + n] for i in range(answer.rows)]
        for larger in (k, 2 ** 64 - 1):
            self.assertEqual(p.list_layouts(table, n, larger, allowance),
                             (answer.number, answer.count, expected, answer.more))

    def settled(self, settled, layouts):
        if settled.number == p.NO_LAYOUT:
            self.assertEqual(layouts, [])
            return
        for place, (state, reason) in enumerate(zip(settled.list, settled.reasons)):
            self.assertEqual(reason == 0, state == place + 1)
            for layout in layouts:
                says = {p.STATE_TAKEN: 1, p.STATE_LEFT_OUT: 0}.get(state)
                if says is None:
                    says = layout[abs(state) - 1] ^ (state < 0)
                self.assertEqual(layout[place], says)

    def test_check_beside_its_definition(self):
        draw = random.Random(5)
        for _ in range(self.SETS):
            n = draw.choice((0, 1, 3, 256, 257))
            table = [draw.choice((0, 0, 1, -2, 3, 4, -256)) for _ in range(draw.choice((0, 1, 3, 9, 600, 5000)))]
            if draw.random() < 0.7:
                table.append(0)
            cut = draw.randrange(len(table) + 1)
            expected = refusal_of(table, n)
            for call, lent in ((p.check, (table, n)), (p.Pass(n).part(table[:cut]).part(table[cut:]).end, ())):
                if expected:
                    self.refused(*expected, call, *lent)
                else:
                    self.assertIsNone(call(*lent))


class Threads(Case):
    def test_threads(self):
        """Each thread searches a set that goes 254 splits deep and random sets, all at once."""
        sets = [(list(range(1, 257)) + [0], 256)] + [random_set(random.Random(i), 9) for i in range(60)]
        expected = [p.search(*one) for one in sets]
        self.assertEqual(expected[0].trail, [-i for i in range(1, 255)])
        found = [None] * THREADS
        begin = threading.Barrier(THREADS)

        def work(i):
            begin.wait()
            found[i] = [[p.search(*one) for one in sets] for _ in range(5)]

        before = threading.stack_size(p.STACK + PYTHON_STACK)
        threads = [threading.Thread(target=work, args=(i,)) for i in range(THREADS)]
        for thread in threads:
            thread.start()
        for thread in threads:
            thread.join()
        threading.stack_size(before)
        self.assertEqual(found, [[expected] * 5] * THREADS)


class Header(Case):
    def test_constants(self):
        constants = header_constants()
        self.assertEqual(len(constants), header_text().count("#define PLATEWRIGHT_") - 1, "all but the guard")
        for name, value in constants.items():
            self.assertEqual(getattr(p, name, None), value, name)
        own = {name for name in vars(p) if name.isupper() and not name.startswith("_")} - {"WORDS", "ALLOWANCE"}
        self.assertEqual(own - set(constants), set())

    def test_words(self):
        numbers = range(29)
        self.assertEqual(sorted(p.WORDS), list(numbers))
        self.assertEqual(len(set(p.WORDS.values())), len(numbers))

    def test_functions(self):
        declared = re.findall(r"\bplatewright_(\w+)\(", header_text())
        self.assertEqual(sorted(declared), sorted(p._FUNCTIONS))

    def test_structs(self):
        lines = []
        for name, struct in (("platewright_answer", p._Answer), ("platewright_pass", p._Pass)):
            lines.append(f'printf("{name} %zu\\n", sizeof({name}));')
            for field, _ in struct._fields_:
                lines.append(f'printf("{name} {field} %zu %zu\\n", offsetof({name}, {field}),'
                             f' sizeof((({name} *)0)->{field}));')
        expected = []
        for name, struct in (("platewright_answer", p._Answer), ("platewright_pass", p._Pass)):
            expected.append(f"{name} {ctypes.sizeof(struct)}")
            for field, _ in struct._fields_:
                expected.append(f"{name} {field} {getattr(struct, field).offset} {getattr(struct, field).size}")
        self.assertEqual(self.printed(lines), expected)

    def printed(self, lines):
        program = '#include <stdio.h>\n#include "platewright.h"\nint main(void) {\n' + "\n".join(lines) + "\n}\n"
        with tempfile.TemporaryDirectory() as folder:
            built = os.path.join(folder, "offsets")
            subprocess.run(["gcc", "-std=c11", "-I", os.path.dirname(HEADER), "-x", "c", "-", "-o", built],
                           input=program, text=True, check=True)
            return subprocess.run([built], capture_output=True, text=True, check=True).stdout.splitlines()


def load_tests(_loader, tests, _pattern):
    tests.addTests(doctest.DocTestSuite(p))
    return tests


if __name__ == "__main__":
    unittest.main()
