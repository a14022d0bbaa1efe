"""Even shares of a total over the units of a group, by proved code: safe calls over the functions of libdanivomel.so.

`level` and `narrow` work on the lists of one group; `read`, `settle`, `report` and `write` on a job text and a table of
its units' ranges. README.md says how to make the library, docs/USER-GUIDE.md what a job text and a report are.

Every call takes any lists, tables and texts, and raises `Refused` for what is not allowed. Arguments are copied, and
nothing is changed in place. The calls use no global state, so they can run on several threads at once.

Numbers are whole: a float or a string is a TypeError. A number that 64 bits without a sign cannot hold, so every
negative one too, is handed over as 2**64 - 1. That is beyond every range: the planner refuses it with 4 and its place.
A text is bytes, or a str, which is handed over in UTF-8; texts are answered as str.

>>> job = "(unit 0 10)\\n(unit 0 10)\\n(group 10 (dev 4) (spread any) (of 1 2))\\n"
>>> table, passes = settle(job)
>>> table[0]
Range(low=4, high=6)
>>> table[0] = Range(4, 4)
>>> settle(job, table).table
[Range(low=4, high=4), Range(low=6, high=6)]
"""

import os
from ctypes import CDLL, POINTER, Structure, c_bool, c_char_p, c_size_t, c_uint64, create_string_buffer
from operator import index
from pathlib import Path
from typing import Any, Iterable, List, NamedTuple, Optional, Tuple, Union

__all__ = ["level", "narrow", "read", "settle", "report", "write", "Refused", "REASONS", "RUNNING", "SHUT"]
__all__ += ["Levelled", "Range", "Read", "Reported", "Settled"]

RUNNING = 0  # the mark of a member that runs
SHUT = 1  # the mark of a member that is shut: its range is 0 to 0, and the figures leave it out

# What is wrong, by the number of the refusal, in the words of docs/USER-GUIDE.md.
REASONS = {
    1: "a list, table, scratch or buffer of a wrong length",
    2: "the text is longer than 65,536 bytes",
    3: "the line is not in the form",
    4: "a number is beyond its range",
    5: "a unit line after a group line",
    6: "too many: the 257th unit, the 65th group, or more than 4,096 memberships",
    7: "the low is above the high, or a shut unit's range is not 0 to 0",
    8: "a unit number that is 0 or above the number of units",
    9: "a unit twice in one group",
    10: "no unit line at all",
    11: "the group's total cannot be made: the lows add up to more, or the highs to less",
    12: "the total can be made, but every way breaks a limit",
    13: "the last line has no line feed at its end",
    14: "the brackets of the line do not match",
    15: "the line does not begin with (unit, (group or (shut",
}


class Refused(ValueError):
    """Why a call is refused: the number from 1 to 15, its reason in words, the place, counted from 1 (a line of the job
    text, a unit of lists or of a table, or a group; else 0), and of `settle` and `report` the passes for 11 and 12.

    >>> print(Refused(12, 1, 2))
    refused 12 at group 1: the total can be made, but every way breaks a limit (in pass 2)
    """

    def __init__(self, number: int, place: int, passes: int = 0) -> None:
        super().__init__(number, place, passes)
        self.number, self.place, self.passes = number, place, passes
        self.reason = REASONS.get(number, "no refusal has this number")

    def __str__(self) -> str:
        # 4 and 7 are found in a text and in lists, so that their place is a line or a unit, as the call had it
        counted = {4: "line or unit", 7: "line or unit", 11: "group", 12: "group"}.get(self.number, "line")
        place = f" at {counted} {self.place}" if self.place else ""
        passes = f" (in pass {self.passes})" if self.passes else ""
        return f"refused {self.number}{place}: {self.reason}{passes}"


class Range(NamedTuple):
    """The range of a unit, from 0 to 1,000,000: an entry of a table. Unit 1 is the table's first entry."""
    low: int
    high: int


class Levelled(NamedTuple):
    """What levelling answers. Each member takes the level, or its own low or high where the level is outside; copies
    left over go one each to the members with the most room up to their high (high - level), among equals to the
    earlier. Where all are at their highs the level is 1,000,000.
    Of n running members the deviation is the sum of |n * share - total|, the spread n * (sum of squared shares) - total
    * total, and pairs the sum of larger less smaller share over all pairs, each once; all are 0 where none runs."""
    shares: List[int]
    level: int
    deviation: int
    spread: int
    pairs: int


# What reading answers: the table of the unit lines' ranges, and how many groups the job has.
Read = NamedTuple("Read", [("table", List[Range]), ("groups", int)])
# What settling answers: the settled table, and the passes, the quiet one counted; and reporting, with the report.
Settled = NamedTuple("Settled", [("table", List[Range]), ("passes", int)])
Reported = NamedTuple("Reported", [("text", str), ("table", List[Range]), ("passes", int)])

Text = Union[str, bytes]
Table = Iterable[Tuple[int, int]]


def _struct(**fields: Any) -> Any:
    """A struct of include/danivomel.h. One with a single field, a figure's there, is laid out as the field is."""
    return type("Struct", (Structure,), {"_fields_": list(fields.items())})


_REFUSAL = _struct(number=c_uint64, place=c_uint64)
_LIMIT = _struct(any=c_bool, at_most=c_uint64)
_LIMITS = _struct(deviation=_LIMIT, spread=_LIMIT, pairs=_LIMIT)
_RANGE = _struct(low=c_uint64, high=c_uint64)
_LIST, _TABLE, _BYTES = [POINTER(c_uint64), c_size_t], [POINTER(_RANGE), c_size_t], [c_char_p, c_size_t]
# What each call takes, and what it answers after its refusal.
_CALLS = {
    "level": (_LIST * 3 + [c_uint64] + _LIST, dict.fromkeys(["level", "deviation", "spread", "pairs"], c_uint64)),
    "narrow": (_LIST * 3 + [c_uint64, _LIMITS], dict()),
    "read": (_BYTES + _TABLE, dict(units=c_size_t, groups=c_size_t)),
    "settle": (_BYTES + _TABLE + _LIST, dict(passes=c_uint64)),
    "report": (_BYTES + _TABLE + _LIST + _BYTES, dict(passes=c_uint64, length=c_size_t)),
    "write": (_BYTES + _TABLE + _BYTES, dict(length=c_size_t)),
}
_BEYOND = 2**64 - 1  # beyond the range of every number that a call takes
_MOST_UNITS = 256


def _load() -> CDLL:
    """The library that DANIVOMEL_LIBRARY names; else as installed, as the repository makes it, as the system has it."""
    name, parent = "libdanivomel.so", Path(__file__).resolve().parent.parent
    named, tried = os.environ.get("DANIVOMEL_LIBRARY"), []
    for path in [named] if named else [parent / name, parent.parent / "target" / "shared" / name, name]:
        try:
            library = CDLL(str(path))
            for call, (taken, answered) in _CALLS.items():
                function = getattr(library, f"danivomel_{call}")
                function.argtypes, function.restype = taken, _struct(refusal=_REFUSAL, **answered)
            return library
        except (OSError, AttributeError) as error:
            tried.append(str(error))
    mend = "'make install PREFIX=..' makes it, and DANIVOMEL_LIBRARY names one by its full path"
    raise ImportError(f"the planner's library cannot be loaded: {'; '.join(tried)}; {mend}")


_LIBRARY = _load()


def _call(name: str, *arguments: Any) -> Any:
    """What a call answers; a refusal is raised, and its number 0 says that there is none."""
    answer = getattr(_LIBRARY, f"danivomel_{name}")(*arguments)
    if answer.refusal.number:
        raise Refused(answer.refusal.number, answer.refusal.place, getattr(answer, "passes", 0))
    return answer


def _number(value: int) -> int:
    """A whole number as 64 bits hold it; ctypes alone would cut it, and hand over 2**64 as 0."""
    whole = index(value)
    return whole if 0 <= whole <= _BEYOND else _BEYOND


def _list(values: Iterable[int]) -> Any:
    """A list as an array and its count. No pointer may be null: the array has an entry also where the list has none."""
    numbers = [_number(value) for value in values]
    return (c_uint64 * max(len(numbers), 1))(*numbers), len(numbers)


def _group(lows: Iterable[int], highs: Iterable[int], marks: Optional[Iterable[int]]) -> Any:
    """The lists of a group, each as an array and its count; without marks all run."""
    low_list = _list(lows)
    return [*low_list, *_list(highs), *_list([RUNNING] * low_list[1] if marks is None else marks)]


def _table(table: Table) -> Any:
    """A table as ranges, and as an array and its count, as for a list."""
    try:
        given = [Range(index(low), index(high)) for low, high in table]
    except (TypeError, ValueError) as error:
        raise TypeError(f"a table has a low and a high for each unit, whole numbers: {error}") from error
    return given, (_RANGE * max(len(given), 1))(*[(_number(low), _number(high)) for low, high in given]), len(given)


def _text(text: Text) -> Any:
    """A text as bytes and their count. What a str holds and UTF-8 does not is handed over as well, and so refused."""
    if not isinstance(text, (str, bytes, bytearray, memoryview)):
        raise TypeError(f"a job text is a str or bytes, not {type(text).__name__}")
    taken = text.encode("utf-8", "surrogatepass") if isinstance(text, str) else bytes(text)
    return taken, len(taken)


def _settled(name: str, text: Text, table: Optional[Table], *buffer: Any) -> Any:
    """What settling or reporting answers, and the table that it leaves."""
    given, array, count = _table(read(text).table if table is None else table)
    scratch = (c_uint64 * (8 * _MOST_UNITS))()
    answer = _call(name, *_text(text), array, count, scratch, len(scratch), *buffer)
    # what is beyond 64 bits and not refused lies past the units, and comes back as it was
    left = [Range(entry.low, entry.high) for entry in array]
    return answer, [old if _BEYOND in new else new for old, new in zip(given, left)]


def level(lows: Iterable[int], highs: Iterable[int], marks: Optional[Iterable[int]], total: int) -> Levelled:
    """Levels a group: answers the most even shares within the lows and highs that add up to the total, with the level
    and the figures. No other such shares have a lesser deviation, spread or pair differences. Copies left over go one
    each to the members with the most room up to their high (high - level), among equals to the earlier. The marks have
    a number for each member: RUNNING, or SHUT for a member that is off the run, whose range is 0 to 0; None says that
    all run. A shut member's share is 0, and the figures leave it out.

    Refused in this order: 1 for lows, highs and marks empty, of unequal length or over 256; 4 for a low, high or mark
    of a unit beyond its range, place the unit, then for the total, place 0; 7 for a low above its high or a shut
    member's range other than 0 to 0, place the unit; 11 for a total out of reach, place 0.

    >>> level([8, 4, 1, 3], [10, 7, 5, 4], None, 20)
    Levelled(shares=[8, 4, 4, 4], level=4, deviation=24, spread=48, pairs=12)
    >>> level([1, 2, 3], [3, 6, 9], None, 10).shares
    [3, 3, 4]
    >>> level([0, 0, 0], [9, 0, 9], [RUNNING, SHUT, RUNNING], 10)
    Levelled(shares=[5, 0, 5], level=5, deviation=0, spread=0, pairs=0)
    """
    group = _group(lows, highs, marks)
    plan, count = _list([0] * group[1])
    answer = _call("level", *group, _number(total), plan, count)
    return Levelled(list(plan), answer.level, answer.deviation, answer.spread, answer.pairs)


def narrow(lows: Iterable[int], highs: Iterable[int], marks: Optional[Iterable[int]], total: int,
           deviation: Optional[int] = None, spread: Optional[int] = None, pairs: Optional[int] = None) -> List[Range]:
    """Narrows a group: answers for each member exactly the values that some plan takes, where a plan is a choice of
    shares within the lows and highs that add up to the total and are within the three limits; None limits nothing. The
    marks are those of `level`: the figures are the running members', and a shut member keeps its range 0 to 0.

    Refused as by `level`, with 4 for the limits too, place 0; then 12 where no shares are within the limits, place 0.

    >>> narrow([8, 4, 1, 3], [10, 7, 5, 4], None, 20, deviation=28, pairs=16)
    [Range(low=8, high=8), Range(low=4, high=5), Range(low=3, high=5), Range(low=3, high=4)]
    >>> narrow([0, 0, 0], [9, 0, 9], None, 10, deviation=4)
    Traceback (most recent call last):
    danivomel.Refused: refused 12: the total can be made, but every way breaks a limit
    """
    group = _group(lows, highs, marks)
    limits = [_LIMIT(limit is None, 0 if limit is None else _number(limit)) for limit in (deviation, spread, pairs)]
    _call("narrow", *group, _number(total), _LIMITS(*limits))
    return [Range(low, high) for low, high in zip(group[0], group[2])]


def read(text: Text) -> Read:
    """Reads a job text: answers the table of the unit lines' ranges, 0 to 0 for `(shut)`, and the number of groups.

    Refused in this order: 2 for a text over 65,536 bytes; the first of 13, 14, 15 and 3 to 9 at the first bad line,
    place the line; 10 for no unit line.

    >>> read("(unit 1 5)\\n(shut)\\n")
    Read(table=[Range(low=1, high=5), Range(low=0, high=0)], groups=0)
    """
    array = (_RANGE * _MOST_UNITS)()
    answer = _call("read", *_text(text), array, len(array))
    return Read([Range(entry.low, entry.high) for entry in array[:answer.units]], answer.groups)


def settle(text: Text, table: Optional[Table] = None) -> Settled:
    """Settles a table under the groups of a job text: opens with the ranges that it holds, without a table with those
    of the text, and answers the greatest ranges inside them in which each value is taken, in each of its unit's groups,
    by a plan drawn from them. Entries past the units come back as they were. The text says which units are shut: their
    range in the table is 0 to 0, and the figures of their groups leave them out.

    Refused as by `read`; 1 for a table too short for the units; 4, then 7 for the table's ranges (a low above its high,
    or a shut unit's range other than 0 to 0), place the unit; 11 and 12 where no such ranges exist, place the group.

    >>> job = "(unit 0 10)\\n(shut)\\n(unit 0 10)\\n(group 10 (dev 4) (spread any) (of 1 2 3))\\n"
    >>> settle(job, [(0, 5), (0, 0), (0, 10)])
    Settled(table=[Range(low=4, high=5), Range(low=0, high=0), Range(low=5, high=6)], passes=2)
    """
    answer, left = _settled("settle", text, table)
    return Settled(left, answer.passes)


def report(text: Text, table: Optional[Table] = None) -> Reported:
    """Settles as `settle` does, and answers the report too. Refused as by `settle`.

    >>> print(report("(unit 3 8)\\n(unit 0 9)\\n(group 10 (dev any) (spread any) (of 1 2))\\n").text, end="")
    (settled 2)
    (unit 1 3 8)
    (unit 2 2 7)
    (group 1 5 0 0 0 (plan 5 5))
    """
    buffer = create_string_buffer(65_536)
    answer, left = _settled("report", text, table, buffer, len(buffer))
    return Reported(buffer[:answer.length].decode("ascii"), left, answer.passes)


def write(text: Text, table: Table) -> str:
    """Writes a job as a job text: the unit lines hold the ranges of the table, those of shut units stay `(shut)`, and
    the group lines are those of the text. Entries past the units are not looked at. What is written reads as the same
    job with the table's ranges, and a settled job that was written settles in one pass.

    Refused as by `read`; 1 for a table too short for the units; then 4, then 7 for the table's ranges as by `settle`.

    >>> job = "(unit 0 10)\\n(unit 0 10)\\n(group 10 (dev 4) (spread any) (of 1 2))\\n"
    >>> write(job, settle(job).table)
    '(unit 4 6)\\n(unit 4 6)\\n(group 10 (dev 4) (spread any) (of 1 2))\\n'
    """
    _, array, count = _table(table)
    buffer = create_string_buffer(28_096)
    answer = _call("write", *_text(text), array, count, buffer, len(buffer))
    return buffer[:answer.length].decode("ascii")
