"""The calls from Python: every example job with its report, the known answers of the guide, and whatever a caller can
get wrong. README.md says how to run the tests."""

import copy
import itertools
import pickle
import random
import re
import unittest
from concurrent.futures import ThreadPoolExecutor
from decimal import Decimal
from pathlib import Path

from danivomel import RUNNING, SHUT, Levelled, Range, Read, Refused, level, narrow, read, report, settle, write

EXAMPLES = Path(__file__).resolve().parents[2] / "examples"
JOBS = sorted([*EXAMPLES.glob("*.job"), *EXAMPLES.glob("refused/*.job")])
PAIR = "(unit 0 10)\n(unit 0 10)\n(group 10 (dev 4) (spread any) (of 1 2))\n"
LOWS, HIGHS = [8, 4, 1, 3], [10, 7, 5, 4]
BEYOND = [-1, -(2**64), 2**64, 2**64 + 4, 10**30]
NOT_WHOLE = [1.0, "1", b"1", None, Decimal(1), 1j, [1]]


def answer(text):
    """What the program would write: the report, or the line of the refusal."""
    try:
        return report(text).text
    except Refused as refused:
        return f"(refused {refused.number} {refused.place})\n"


class Calls(unittest.TestCase):
    """What the tests share."""

    def refused(self, number, place, call, *arguments, **named):
        """Sees that a call is refused with a number and a place."""
        with self.subTest(call=call.__name__, arguments=arguments, named=named):
            with self.assertRaises(Refused) as raised:
                call(*arguments, **named)
            self.assertEqual((raised.exception.number, raised.exception.place), (number, place))
        return raised.exception


class Examples(Calls):
    """The jobs of examples/ and examples/refused/."""

    def test_every_report_byte_by_byte(self):
        self.assertGreater(len(JOBS), 30)
        numbers = set()
        for path in JOBS:
            with self.subTest(job=path.name):
                job, expected = path.read_bytes(), path.with_suffix(".report").read_bytes()
                self.assertEqual(answer(job).encode(), expected)
                self.assertEqual(answer(job.decode()).encode(), expected)
                numbers.update(int(number) for number in re.findall(rb"^\(refused (\d+) ", expected))
        self.assertEqual(numbers, set(range(3, 16)))

    def test_settled_ranges_and_passes_are_those_of_the_report(self):
        for path in JOBS:
            expected = path.with_suffix(".report").read_text()
            if expected.startswith("(refused "):
                continue
            with self.subTest(job=path.name):
                job = path.read_bytes()
                units = re.findall(r"^\(unit \d+ (\d+) (\d+)\)$", expected, re.MULTILINE)
                settled, reported = settle(job), report(job)
                self.assertEqual(settled.table, [Range(int(low), int(high)) for low, high in units])
                self.assertTrue(expected.startswith(f"(settled {settled.passes})\n"))
                self.assertEqual((reported.table, reported.passes), settled)
                self.assertEqual(read(job).groups, expected.count("(group "))

    def test_what_was_read_is_written_as_the_same_text(self):
        for path in JOBS:
            job = path.read_bytes()
            try:
                table = read(job).table
            except Refused:
                continue
            with self.subTest(job=path.name):
                self.assertEqual(write(job, table).encode(), job)

    def test_settled_job_is_handed_on(self):
        before = (EXAMPLES / "evening-before.job").read_bytes()
        handed = write(before, settle(before).table)
        self.assertEqual(handed, (EXAMPLES / "evening-handed.job").read_text())
        self.assertEqual(settle(handed).passes, 1)
        day = read(handed).table
        day[3] = Range(day[3].low, 20_000)
        after = (EXAMPLES / "evening-after.report").read_text()
        self.assertEqual(report(handed, day).text.splitlines()[1:], after.splitlines()[1:])

    def test_passes_of_a_refusal(self):
        job = (EXAMPLES / "refused" / "12-limits.job").read_bytes()
        for call in (settle, report):
            refusal = self.refused(12, 1, call, job)
            self.assertEqual(refusal.passes, 1)
            self.assertTrue(str(refusal).endswith(" breaks a limit (in pass 1)"))
        self.assertEqual(self.refused(11, 0, level, [0], [1], None, 2).passes, 0)

    def test_several_threads_at_once(self):
        jobs = [path.read_bytes() for path in JOBS]
        alone = [answer(job) for job in jobs]
        with ThreadPoolExecutor(8) as threads:
            self.assertEqual(list(threads.map(answer, jobs * 20)), alone * 20)


class Groups(Calls):
    """One group on lists."""

    def test_known_shares(self):
        self.assertEqual(level(LOWS, HIGHS, None, 20), Levelled([8, 4, 4, 4], 4, 24, 48, 12))
        self.assertEqual(level(iter(LOWS), tuple(HIGHS), (RUNNING for _ in LOWS), 20).shares, [8, 4, 4, 4])
        self.assertEqual(level([3], [3], [RUNNING], 3), Levelled([3], 1_000_000, 0, 0, 0))
        self.assertEqual(level([1, 2, 3], [3, 6, 9], None, 10), Levelled([3, 3, 4], 3, 4, 2, 2))
        self.assertEqual(level([0] * 4, [8, 9, 0, 9], [RUNNING, RUNNING, SHUT, RUNNING], 10).shares, [3, 4, 0, 3])
        self.assertEqual(sum(level([0] * 256, [1_000_000] * 256, None, 256_000_000).shares), 256_000_000)

    def test_known_ranges(self):
        self.assertEqual(narrow(LOWS, HIGHS, None, 20, deviation=28), [(8, 8), (4, 5), (3, 5), (3, 4)])
        self.assertEqual(narrow(LOWS, HIGHS, None, 20), [(8, 10), (4, 7), (1, 5), (3, 4)])
        self.assertEqual(narrow(LOWS, HIGHS, None, 20, pairs=16), [(8, 8), (4, 5), (3, 5), (3, 4)])
        self.assertEqual(narrow(LOWS, HIGHS, None, 20, 28, None, 15), [(8, 8), (4, 4), (4, 4), (4, 4)])
        wish = ([0] * 4, [40_000] * 4, None, 100_000)
        self.assertEqual(narrow(*wish, deviation=8_000), [Range(24_000, 26_000)] * 4)
        self.assertEqual(narrow(*wish, spread=4_000_000), [Range(24_134, 25_866)] * 4)
        self.assertEqual(narrow(*wish, pairs=3_000), [Range(24_250, 25_750)] * 4)
        self.assertEqual(narrow(*wish, 8_000, 4_000_000), [Range(24_134, 25_866)] * 4)
        self.assertEqual(narrow(*wish, 8_000, 4_000_000, 3_000), [Range(24_250, 25_750)] * 4)
        self.assertEqual(narrow(*wish, 0, 0, 0), [Range(25_000, 25_000)] * 4)

    def test_a_limit_of_0_is_a_limit(self):
        self.refused(12, 0, narrow, [0] * 3, [9] * 3, None, 10, deviation=0)
        self.refused(12, 0, narrow, [0] * 3, [9] * 3, None, 10, spread=0)
        self.refused(12, 0, narrow, [0] * 3, [9] * 3, None, 10, pairs=0)
        self.refused(12, 0, narrow, [0] * 3, [9] * 3, None, 10, pairs=1)
        self.assertEqual(narrow([0] * 3, [9] * 3, None, 10, pairs=2), [Range(3, 4)] * 3)

    def test_shut_member(self):
        shut, runs = [RUNNING, SHUT, RUNNING, RUNNING], [RUNNING] * 4
        lists = ([0] * 4, [40_000, 0, 40_000, 40_000])
        plan = [30_000, 0, 30_000, 30_000]
        self.assertEqual(level(*lists, shut, 90_000), Levelled(plan, 30_000, 0, 0, 0))
        self.assertEqual(level(*lists, runs, 90_000), Levelled(plan, 30_000, 180_000, 2_700_000_000, 90_000))
        running = Range(29_250, 30_750)
        self.assertEqual(narrow(*lists, shut, 90_000, 4_500), [running, Range(0, 0), running, running])
        self.refused(12, 0, narrow, *lists, runs, 90_000, 4_500)
        self.assertEqual(narrow(*lists, shut, 90_000, pairs=0)[:2], [Range(30_000, 30_000), Range(0, 0)])
        self.refused(12, 0, narrow, *lists, runs, 90_000, pairs=89_999)
        for call in (level, narrow):
            self.refused(7, 2, call, [0] * 4, [40_000] * 4, shut, 90_000)

    def test_small_groups_by_trying_all_shares(self):
        dice = random.Random(1)
        for _ in range(300):
            lows = [dice.randrange(4) for _ in range(dice.randrange(1, 5))]
            highs = [low + dice.randrange(4) for low in lows]
            count, total = len(lows), dice.randrange(sum(lows), sum(highs) + 1)
            plans = {}
            for shares in itertools.product(*[range(low, high + 1) for low, high in zip(lows, highs)]):
                deviation = sum(abs(count * share - total) for share in shares)
                spread = count * sum(share * share for share in shares) - total * total
                pairs = sum(abs(one - other) for one, other in itertools.combinations(shares, 2))
                if sum(shares) == total:
                    plans[shares] = deviation, spread, pairs
            levelled = level(lows, highs, None, total)
            figures = (levelled.deviation, levelled.spread, levelled.pairs)
            self.assertEqual(plans[tuple(levelled.shares)], figures)
            self.assertEqual(tuple(map(min, *plans.values(), figures)), figures)
            # each figure of another plan, so that now one limit is the tightest and now another
            limits = [dice.choice(sorted(plans.values()))[figure] for figure in range(3)]
            within = [shares for shares, figures in plans.items() if all(map(int.__le__, figures, limits))]
            left = [Range(min(shares), max(shares)) for shares in zip(*within)]
            self.assertEqual(narrow(lows, highs, None, total, *limits), left)


class Wrong(Calls):
    """What is refused or is a TypeError, and what a call leaves alone."""

    def test_lengths_of_lists(self):
        for call in (level, narrow):
            for lows, highs in [([], []), ([1], []), ([], [1]), ([1], [1, 1])]:
                self.refused(1, 0, call, lows, highs, None, 1)
                self.refused(1, 0, call, lows, highs, [], 1)
            self.refused(1, 0, call, [1, 1], [1, 1], [0], 1)
            self.refused(1, 0, call, [1], [1], [0, 0], 1)
            self.refused(1, 0, call, [0] * 257, [1] * 257, None, 1)

    def test_numbers_beyond_their_range(self):
        for number in [*BEYOND, 256_000_001]:
            for call in (level, narrow):
                self.refused(4, 2, call, [0, number], [1, 1], None, 1)
                self.refused(4, 2, call, [0, 0], [1, number], None, 1)
                self.refused(4, 2, call, [0, 0], [1, 1], [RUNNING, number], 1)
                self.refused(4, 0, call, [0, 0], [1, 1], None, number)
        for number in [*BEYOND, 10**18]:
            self.refused(4, 0, narrow, [0, 0], [1, 1], None, 1, deviation=number)
            self.refused(4, 0, narrow, [0, 0], [1, 1], None, 1, spread=number)
            self.refused(4, 0, narrow, [0, 0], [1, 1], None, 1, pairs=number)
            for call in (settle, report, write):
                self.refused(4, 2, call, PAIR, [(0, 10), (number, 10)])
                self.refused(4, 2, call, PAIR, [(0, 10), (0, number)])

    def test_greatest_pairs_limit(self):
        self.assertEqual(narrow([0, 0], [1, 1], None, 1, pairs=10**11), [Range(0, 1)] * 2)
        self.refused(4, 0, narrow, [0, 0], [1, 1], None, 1, pairs=10**11 + 1)

    def test_numbers_that_are_not_whole(self):
        for number in NOT_WHOLE:
            with self.subTest(number=number):
                for call in (level, narrow):
                    for lists in [([number], [1], [0]), ([0], [number], [0]), ([0], [1], [number])]:
                        self.assertRaises(TypeError, call, *lists, 1)
                    self.assertRaises(TypeError, call, [0], [1], None, number)
                for call in (settle, report, write):
                    self.assertRaises(TypeError, call, PAIR, [(0, 10), (0, number)])
                if number is not None:
                    self.assertRaises(TypeError, narrow, [0], [1], None, 1, deviation=number)
                    self.assertRaises(TypeError, narrow, [0], [1], None, 1, spread=number)
                    self.assertRaises(TypeError, narrow, [0], [1], None, 1, pairs=number)

    def test_tables(self):
        for call in (settle, report, write):
            for table in ([], [(0, 10)]):
                self.refused(1, 0, call, PAIR, table)
            self.refused(7, 1, call, PAIR, [(5, 4), (0, 10)])
            self.refused(7, 1, call, "(shut)\n", [(0, 5)])
            for table in (5, "ab", [1, 2], [(1,), (1,)], [(0, 1, 2)], [None], [("0", "1")]):
                with self.subTest(call=call.__name__, table=table):
                    self.assertRaisesRegex(TypeError, "a low and a high for each unit", call, PAIR, table)

    def test_table_longer_than_the_units(self):
        past = [(7, 3), (-1, 2), (0, 2**70)] + [(9, 9)] * 300
        for call in (settle, report):
            self.assertEqual(call(PAIR, [(0, 10), (0, 10), *past]).table, [(4, 6), (4, 6), *past])
        self.assertEqual(write(PAIR, [(4, 6), (4, 6), *past]), PAIR.replace("0 10", "4 6"))

    def test_texts(self):
        for call in (read, settle, report):
            self.refused(10, 0, call, "")
            self.refused(10, 0, call, b"")
            self.refused(15, 1, call, "\0\n")
            self.refused(15, 2, call, "(unit 0 10)\n\ud800\n")
            self.refused(3, 1, call, "(unit 0 1\u0661)\n")
            self.refused(2, 0, call, b" " * 65_537)
            self.refused(2, 0, call, "\u00e9" * 32_769)
            for text in (None, 5, [PAIR], Path("a.job")):
                with self.subTest(call=call.__name__, text=text):
                    self.assertRaisesRegex(TypeError, "^a job text is a str or bytes, not ", call, text)
        self.refused(10, 0, write, "", [])
        self.assertEqual(read(memoryview(bytearray(b"(shut)\n"))), Read([Range(0, 0)], 0))

    def test_arguments_stay_as_they_were(self):
        table, text = [[0, 10], [0, 10], [9, 9]], bytearray(PAIR.encode())
        for call, arguments in [
            (level, [LOWS, HIGHS, [RUNNING] * 4, 20]), (level, [LOWS, HIGHS, [RUNNING] * 4, 99]),
            (narrow, [LOWS, HIGHS, [RUNNING] * 4, 20, 28]), (narrow, [LOWS, HIGHS, [RUNNING] * 4, 20, 0]),
            (read, [text]), (settle, [text, table]), (report, [text, table]), (write, [text, table]),
            (settle, [text, [[0, 1], [0, 1]]]), (report, [text, [[0, 1], [0, 1]]]), (write, [text, [[1, 0]]]),
        ]:
            with self.subTest(call=call.__name__, arguments=arguments):
                before = copy.deepcopy(arguments)
                try:
                    call(*arguments)
                except Refused:
                    pass
                self.assertEqual(arguments, before)

    def test_refusal_as_an_error(self):
        refusal = self.refused(9, 3, read, "(unit 0 1)\n(unit 0 1)\n(group 1 (dev any) (spread any) (of 1 1))\n")
        self.assertIsInstance(refusal, ValueError)
        self.assertEqual(str(refusal), "refused 9 at line 3: a unit twice in one group")
        self.assertEqual(refusal.reason, "a unit twice in one group")
        again = pickle.loads(pickle.dumps(Refused(12, 1, 2)))
        self.assertEqual((again.number, again.place, again.passes), (12, 1, 2))


if __name__ == "__main__":
    unittest.main()
