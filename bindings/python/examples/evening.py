"""The evening's change, from Python: settles a job, lowers the high of one unit in the table that this leaves, and
settles again. The job text stays as it is; the table carries the change.

    PYTHONPATH=bindings/python python3 bindings/python/examples/evening.py JOB UNIT HIGH
"""

import sys
from typing import List

from danivomel import Range, Settled, read, settle


def main() -> int:
    """The program's status. What is wrong is one line on standard error, a refusal as well, which is a ValueError."""
    try:
        if len(sys.argv) != 4:
            raise ValueError("call it as: evening.py JOB UNIT HIGH")
        evening(*sys.argv[1:])
    except ValueError as error:
        print(f"evening: {error}", file=sys.stderr)
        return 1
    return 0


def evening(path: str, unit_word: str, high_word: str) -> None:
    """Does the work of the program."""
    try:
        with open(path, "rb") as file:
            job = file.read()
    except OSError as error:
        raise ValueError(f"cannot read a job from '{path}': {error.strerror}") from error
    units = len(read(job).table)
    unit = number(unit_word, "no unit's number is")
    high = number(high_word, "no whole number is")
    if not 1 <= unit <= units:
        raise ValueError(f"the job has no unit {unit}")
    table = shown(settle(job))
    low, before = table[unit - 1]
    table[unit - 1] = Range(low, min(before, high))
    shown(settle(job, table))


def number(word: str, wrong: str) -> int:
    """A whole number in base ten."""
    if not (word.isascii() and word.isdigit()):
        raise ValueError(f"{wrong} '{word}'")
    return int(word)


def shown(settled: Settled) -> List[Range]:
    """Prints the settled ranges as a report does, and hands the table on."""
    print(f"(settled {settled.passes})")
    for unit, (low, high) in enumerate(settled.table, 1):
        print(f"(unit {unit} {low} {high})")
    return settled.table


if __name__ == "__main__":
    sys.exit(main())
