"""Platewright's exact-one layout search, for Python: every operation of platewright.h, over ctypes, without packages.

A set is n placements and a table of groups. Every placement is taken or left out, and in each group exactly one entry
must hold. A table is a list of ints: +p says that placement p is taken, -p that it is left out, 0 closes a group.
table_of and groups_of turn [[1, 2, 3], [-1, 2]] into such a table and back.

    >>> import platewright
    >>> platewright.search([1, 2, 3, 0], 3)
    Searched(number=0, count=1, plan=[0, 0, 1], trail=[-1])

What an operation can't do it refuses: the exception Refused, which says the number, its words, the place and the group.
A wrong type is a TypeError. A number that the library has no room for is a ValueError: an entry outside 16 bits
(-32768 to 32767), an n or a k that is negative or above 64 bits, an allowance that is negative or above 32 bits.

Lists that are given are never changed. Any number of threads may call at once; a thread needs a stack of STACK bytes
and 256 KiB more for Python's own use (threading.stack_size). A call doesn't see Ctrl-C until it answers.

The library is the file that the environment variable PLATEWRIGHT_LIBRARY names; else the one that was installed with
this file, in ../../../lib from here; else the system's."""
import collections.abc
import ctypes
import operator
import os
from typing import List, NamedTuple, Optional

VERSION = "4.7.0"
VERSION_MAJOR = 4
VERSION_MINOR = 7
VERSION_PATCH = 0

# The stack that a call needs at most, in bytes.
STACK = 1024 * 1024

# The limits of a set, and of what is made of one.
MAX_PLACEMENTS = 256
MAX_GROUPS = 512
MAX_ENTRIES = 2048
MAX_TABLE = MAX_ENTRIES + MAX_GROUPS
MAX_STRIP = 16384
MAX_SAVED = 4 + 2 * MAX_GROUPS + 3 * MAX_ENTRIES
RECEIPT = 16

# The splits that are allowed where nothing else is said: as many as the layout program allows.
ALLOWANCE = 1000000

# The numbers: outcomes first, then refusals.
LAID_OUT = 0
NO_LAYOUT = 10
STOPPED = 11
SETTLED = 13
GROUP_ADDED = 15
STRIP_READ = 16
INDEXED = 17
DONE = 18
TOO_MANY_PLACEMENTS = 1
TOO_MANY_GROUPS = 2
TOO_MANY_ENTRIES = 3
OPEN_GROUP = 4
UNKNOWN_PLACEMENT = 5
PLAN_SHORT = 6
TRAIL_SHORT = 7
HEADS_SHORT = 8
RECEIPT_SHORT = 9
USED_LENGTH_WRONG = 12
STATE_SHORT = 14
REASONS_SHORT = 19
UNKNOWN_MARK = 20
CUT_STRIP = 21
OUT_OF_TURN = 22
TABLE_SHORT = 23
STRIP_TOO_LONG = 24
STRIP_SHORT = 25
UNNAMED_PLACEMENT = 26
ROWS_SHORT = 27
NOTHING_TO_TAKE_BACK = 28

# The words of each number.
WORDS = {
    LAID_OUT: "laid out",
    TOO_MANY_PLACEMENTS: "too many placements",
    TOO_MANY_GROUPS: "groups over the filing",
    TOO_MANY_ENTRIES: "entries over the filing",
    OPEN_GROUP: "open group",
    UNKNOWN_PLACEMENT: "unknown placement",
    PLAN_SHORT: "plan short",
    TRAIL_SHORT: "trail short",
    HEADS_SHORT: "heads short",
    RECEIPT_SHORT: "receipt short",
    NO_LAYOUT: "no layout",
    STOPPED: "stopped",
    USED_LENGTH_WRONG: "used length wrong",
    SETTLED: "settled",
    STATE_SHORT: "state short",
    GROUP_ADDED: "group added",
    STRIP_READ: "strip read",
    INDEXED: "indexed",
    DONE: "done",
    REASONS_SHORT: "reason list short",
    UNKNOWN_MARK: "unknown mark",
    CUT_STRIP: "cut strip",
    OUT_OF_TURN: "out of turn",
    TABLE_SHORT: "table short",
    STRIP_TOO_LONG: "strip too long",
    STRIP_SHORT: "strip room short",
    UNNAMED_PLACEMENT: "unnamed placement",
    ROWS_SHORT: "row room short",
    NOTHING_TO_TAKE_BACK: "nothing to take back",
}

# What settle and preview say of a placement that is settled.
STATE_TAKEN = 257
STATE_LEFT_OUT = -257

# The marks of a strip.
MARK_PLACEMENTS = 0x50
MARK_CHAPTER = 0x43
MARK_GROUP = 0x47
MARK_TAKEN = 0x54
MARK_LEFT_OUT = 0x4C
MARK_CLOSE = 0x45
MARK_END = 0x5A


class Refused(Exception):
    """What an operation can't do. number is one of the refusals above and words its words; place is where, from 0 (an
    element of the table, a byte of the strip); group, with number 5 alone, is the group of the wrong entry, from 1."""

    def __init__(self, number, place=0, group=0, placed=False):
        super().__init__(number, place, group, placed)
        self.number = number
        self.words = WORDS.get(number, "number without words")
        self.place = place
        self.group = group
        self._placed = placed or number == UNKNOWN_PLACEMENT

    def __str__(self):
        text = f"{self.words} ({self.number})"
        if self._placed:
            text += f", place {self.place}"
        if self.number == UNKNOWN_PLACEMENT:
            text += f", group {self.group}"
        return text


class Searched(NamedTuple):
    """What search found. number is LAID_OUT, NO_LAYOUT or STOPPED; count the tree's splits; plan, of a layout, 1 or 0
    for each placement; trail, of a layout, the splits on the path to it, +p taken and -p left out. Without a layout plan
    and trail are None."""
    number: int
    count: int
    plan: Optional[List[int]]
    trail: Optional[List[int]]


class Listed(NamedTuple):
    """What list_layouts found. number is LAID_OUT, NO_LAYOUT or STOPPED; count the splits made; rows the layouts in
    order, 1 or 0 for each placement; more whether there is a further one. A list that was stopped has no rows."""
    number: int
    count: int
    rows: List[List[int]]
    more: bool


class Settled(NamedTuple):
    """What is settled without a split. number is SETTLED, or NO_LAYOUT at a dead end. list says for each placement p
    STATE_TAKEN, STATE_LEFT_OUT, +p where it is open, +r or -r where it is tied to r as equal or opposite; reasons the
    group that settled or tied it, 0 where it is open. Both are None at a dead end."""
    number: int
    list: Optional[List[int]]
    reasons: Optional[List[int]]


class Head(NamedTuple):
    """Where a group is: the index of its first element (of its 0 if it is empty) and the number of its entries."""
    start: int
    entries: int


class Read(NamedTuple):
    """A strip that was read: the number of placements, and the table."""
    n: int
    table: List[int]


class Windowed(NamedTuple):
    """What the window's call gave. number is LAID_OUT, NO_LAYOUT or STOPPED; count the tree's splits; plan, of a
    layout, 1 or 0 for each placement, else None; receipt its 16 bytes."""
    number: int
    count: int
    plan: Optional[List[int]]
    receipt: bytes


class _Answer(ctypes.Structure):
    _fields_ = [("number", ctypes.c_uint32), ("count", ctypes.c_uint32), ("place", ctypes.c_size_t),
                ("n", ctypes.c_size_t), ("used", ctypes.c_size_t), ("rows", ctypes.c_size_t),
                ("group", ctypes.c_uint32), ("more", ctypes.c_bool)]


class _Pass(ctypes.Structure):
    _fields_ = [("placements", ctypes.c_size_t), ("place", ctypes.c_size_t), ("group", ctypes.c_uint16),
                ("groups", ctypes.c_uint16), ("entries", ctypes.c_uint16), ("open", ctypes.c_bool),
                ("unknown", ctypes.c_bool)]


# Each function's answer and parameters; a list is a pointer and its number of elements.
_SIZE = [ctypes.c_size_t]
_COUNT = [ctypes.c_uint32]
_ENTRIES = [ctypes.POINTER(ctypes.c_int16), ctypes.c_size_t]
_NUMBERS = [ctypes.POINTER(ctypes.c_uint16), ctypes.c_size_t]
_SIZES = [ctypes.POINTER(ctypes.c_size_t), ctypes.c_size_t]
_BYTES = [ctypes.POINTER(ctypes.c_uint8), ctypes.c_size_t]
_FUNCTIONS = {
    "check": (_Answer, _ENTRIES + _SIZE),
    "check_begin": (_Pass, _SIZE),
    "check_part": (_Pass, [_Pass] + _ENTRIES),
    "check_end": (_Answer, [_Pass]),
    "search": (_Answer, _ENTRIES + _SIZE + _COUNT + _BYTES + _ENTRIES),
    "list": (_Answer, _ENTRIES + _SIZE + _SIZE + _COUNT + _BYTES),
    "settle": (_Answer, _ENTRIES + _SIZE + _ENTRIES + _NUMBERS),
    "index": (_Answer, _ENTRIES + _SIZE + _SIZES + _SIZES),
    "add": (_Answer, _ENTRIES + _SIZE + _SIZE + _ENTRIES),
    "take_back": (_Answer, _ENTRIES + _SIZE + _SIZE),
    "preview": (_Answer, _ENTRIES + _SIZE + _SIZE + _ENTRIES + _ENTRIES + _NUMBERS),
    "read": (_Answer, _BYTES + _ENTRIES),
    "save": (_Answer, _ENTRIES + _SIZE + _BYTES),
    "window": (ctypes.c_uint32, _BYTES + _COUNT + _BYTES + _BYTES),
}


def _load():
    name = f"libplatewright.so.{VERSION_MAJOR}"
    named = os.environ.get("PLATEWRIGHT_LIBRARY")
    beside = os.path.join(os.path.dirname(os.path.abspath(__file__)), "..", "..", "..", "lib", name)
    path = named or (beside if os.path.exists(beside) else name)
    try:
        library = ctypes.CDLL(path)
        for function, (answer, parameters) in _FUNCTIONS.items():
            entry = getattr(library, "platewright_" + function)
            entry.restype = answer
            entry.argtypes = parameters
    except (OSError, AttributeError) as fault:
        raise ImportError(f"no platewright library ({fault}); PLATEWRIGHT_LIBRARY may name the file") from fault
    return library


_library = _load()


def _number(value, bits, what):
    number = operator.index(value)
    if number < 0 or number >> bits:
        raise ValueError(f"{what} must be from 0 to {2 ** bits - 1}: {number}")
    return number


def _sequence(values, what):
    if isinstance(values, (str, bytes, bytearray, memoryview)) or not isinstance(values, collections.abc.Sequence):
        raise TypeError(f"{what} must be a list or tuple, not {type(values).__name__}")
    return values


def _elements(values, what):
    """Ints as the library's list of 16-bit elements: a copy."""
    numbers = [operator.index(value) for value in _sequence(values, what)]
    for place, number in enumerate(numbers):
        if not -32768 <= number <= 32767:
            raise ValueError(f"{what}: element {place} is outside 16 bits: {number}")
    return (ctypes.c_int16 * len(numbers))(*numbers)


def _strip(strip):
    if not isinstance(strip, (bytes, bytearray, memoryview)):
        raise TypeError(f"a strip must be bytes, not {type(strip).__name__}")
    copy = bytes(strip)
    return (ctypes.c_uint8 * len(copy)).from_buffer_copy(copy)


def _room(element, n):
    """A list of n elements; of none where n is refused, which comes before any question of room."""
    return (element * (n if n <= MAX_PLACEMENTS else 0))()


def _call(function, *arguments, placed=False):
    """Calls with each list as its pointer and length. Gives the answer, or raises the refusal."""
    flat = []
    for argument in arguments:
        flat.append(argument)
        if isinstance(argument, ctypes.Array):
            flat.append(len(argument))
    answer = getattr(_library, "platewright_" + function)(*flat)
    if answer.number in (LAID_OUT, NO_LAYOUT, STOPPED, SETTLED, GROUP_ADDED, STRIP_READ, INDEXED, DONE):
        return answer
    raise Refused(answer.number, answer.place, answer.group, placed)


def table_of(groups):
    """The table of a list of groups, each a list of entries: [[1, 2, 3], [-1, 2]] is [1, 2, 3, 0, -1, 2, 0]. An entry
    that is 0 is a ValueError: it would close its group."""
    table = []
    for group in _sequence(groups, "groups"):
        entries = [operator.index(entry) for entry in _sequence(group, "a group")]
        if 0 in entries:
            raise ValueError("an entry is 0")
        table += entries + [0]
    return table


def groups_of(table):
    """The groups of a table: [1, 2, 3, 0, -1, 2, 0] is [[1, 2, 3], [-1, 2]]. A table whose last element isn't 0 is a
    ValueError."""
    groups = []
    group = []
    for element in _sequence(table, "a table"):
        entry = operator.index(element)
        if entry:
            group.append(entry)
        else:
            groups.append(group)
            group = []
    if group:
        raise ValueError("the last group is open")
    return groups


def check(table, n):
    """Is the table within the limits? Gives nothing, or raises Refused: 1, 2, 3, 4, 5. Every operation on a table makes
    this check first, and refuses alike."""
    _call("check", _elements(table, "a table"), _number(n, 64, "n"))


class Pass:
    """The check of a table that comes in parts, cut anywhere: Pass(n), then part after part, then end. A pass is never
    changed: an editor keeps the passes and goes on from where something changed.

        >>> before = Pass(2).part([1, 0, 3])
        >>> before.part([0]).end()
        Traceback (most recent call last):
        platewright.Refused: unknown placement (5), place 2, group 2
    """

    def __init__(self, n):
        self._pass = _library.platewright_check_begin(_number(n, 64, "n"))

    def part(self, part):
        """The pass after one part more."""
        elements = _elements(part, "a part")
        after = Pass.__new__(Pass)
        after._pass = _library.platewright_check_part(self._pass, elements, len(elements))
        return after

    def end(self):
        """Says of all parts so far what check says of a table: nothing, or Refused."""
        _call("check_end", self._pass)


def search(table, n, allowance=ALLOWANCE):
    """The first layout: a Searched. Refused: 1 to 5."""
    n = _number(n, 64, "n")
    plan = _room(ctypes.c_uint8, n)
    trail = _room(ctypes.c_int16, n)
    answer = _call("search", _elements(table, "a table"), n, _number(allowance, 32, "an allowance"), plan, trail)
    if answer.number != LAID_OUT:
        return Searched(answer.number, answer.count, None, None)
    return Searched(answer.number, answer.count, list(plan), [split for split in trail if split])


def list_layouts(table, n, k, allowance=ALLOWANCE):
    """All layouts in order, up to k: a Listed. k may be 0, to ask whether there is a layout. Refused: 1 to 5."""
    n = _number(n, 64, "n")
    elements = _elements(table, "a table")
    allowance = _number(allowance, 32, "an allowance")
    # So many splits find one layout more at most: a larger k answers alike, and needs no room.
    k = min(_number(k, 64, "k"), allowance + 1)
    rows = (ctypes.c_uint8 * (k * n if n <= MAX_PLACEMENTS else 0))()
    answer = _call("list", elements, n, k, allowance, rows)
    return Listed(answer.number, answer.count, [list(rows[i * n:i * n + n]) for i in range(answer.rows)], answer.more)


def _settled(function, n, *lent):
    states = _room(ctypes.c_int16, n)
    reasons = _room(ctypes.c_uint16, n)
    answer = _call(function, *lent, states, reasons)
    if answer.number != SETTLED:
        return Settled(answer.number, None, None)
    return Settled(answer.number, list(states), list(reasons))


def settle(table, n):
    """What is already settled, without a split, and by which groups: a Settled. Refused: 1 to 5."""
    n = _number(n, 64, "n")
    return _settled("settle", n, _elements(table, "a table"), n)


def index(table, n):
    """Where the groups are: a list with a Head for each. Refused: 1 to 5."""
    elements = _elements(table, "a table")
    starts = (ctypes.c_size_t * MAX_GROUPS)()
    entries = (ctypes.c_size_t * MAX_GROUPS)()
    _call("index", elements, _number(n, 64, "n"), starts, entries)
    groups = sum(element == 0 for element in elements)
    return [Head(starts[i], entries[i]) for i in range(groups)]


def add(table, n, group):
    """A new table with one more group at the end. The group is a list of entries, without a closing 0. Refused: 1 to 5
    on the table; 2 and 3 with the group added; 5 on the group, with the table's length plus the index there as
    place."""
    elements = _elements(table, "a table")
    added = _elements(group, "a group")
    used = len(elements)
    buffer = (ctypes.c_int16 * (used + len(added) + 1))(*elements)
    answer = _call("add", buffer, used, _number(n, 64, "n"), added)
    return buffer[:answer.used]


def take_back(table, n):
    """A new table without the last group. Refused: 1 to 5, and 28 where the table has no group."""
    buffer = _elements(table, "a table")
    answer = _call("take_back", buffer, len(buffer), _number(n, 64, "n"))
    return buffer[:answer.used]


def preview(table, n, group):
    """What settle would say if the group were added: a Settled, whose reasons count the new group as the last. Refused
    as add."""
    buffer = _elements(table, "a table")
    n = _number(n, 64, "n")
    return _settled("preview", n, buffer, len(buffer), n, _elements(group, "a group"))


def read(strip):
    """A strip (bytes) as a table: a Read. Refused, with the place of the command: 24, 20, 22, 21, 1, 5, 2, 3, 26."""
    table = (ctypes.c_int16 * MAX_TABLE)()
    answer = _call("read", _strip(strip), table, placed=True)
    return Read(answer.n, table[:answer.used])


def save(table, n):
    """The table as a strip (bytes), without chapters. Refused: 1 to 5, and 26 where a placement stands in no entry."""
    strip = (ctypes.c_uint8 * MAX_SAVED)()
    answer = _call("save", _elements(table, "a table"), _number(n, 64, "n"), strip)
    return bytes(strip[:answer.place])


def window(strip, allowance=ALLOWANCE):
    """The drawing window's call: reads a strip (bytes) and searches it, a Windowed. Refused as read."""
    lent = _strip(strip)
    allowance = _number(allowance, 32, "an allowance")
    plan = (ctypes.c_uint8 * MAX_PLACEMENTS)()
    receipt = (ctypes.c_uint8 * RECEIPT)()
    _library.platewright_window(lent, len(lent), allowance, plan, len(plan), receipt, len(receipt))
    number, place, count, group = (int.from_bytes(receipt[i:i + 4], "big") for i in range(0, RECEIPT, 4))
    if number not in (LAID_OUT, NO_LAYOUT, STOPPED):
        raise Refused(number, place, group, placed=True)
    n = lent[1] << 8 | lent[2]
    return Windowed(number, count, plan[:n] if number == LAID_OUT else None, bytes(receipt))
