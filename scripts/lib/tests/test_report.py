import unittest

from .. import report

LOG = "\n".join(
    [
        "== low",
        *(f"fn low::f{number}: proved" for number in range(60)),
        "rt: low proved",
        "== high",
        *(f"note {number}" for number in range(60)),
        "src/lib.rt:1:1: error: it is not proved",
        "rt: high NOT PROVED",
        "== short: its tests",
        "a test fails",
        "rt: short: its tests are NOT PROVED",
        "rt: above NOT PROVED: its library high failed",
        "low/must-fail/wrong.edit: NOT REFUSED",
        *(f"low ran {number}" for number in range(60)),
        "rt: FAILED: high short",
        "9 passed, 3 failed",
    ]
)


class Counts(unittest.TestCase):
    def test_counts(self):
        self.assertEqual(report.count("2 passed, 1 failed\nmore\n12 passed, 3 failed\n", 1), (12, 3))
        self.assertEqual(report.count("12 passed, 0 failed\n", 0), (12, 0))

    def test_a_step_that_ends_early_has_failed(self):
        self.assertEqual(report.count("1 passed, 0 failed\nTraceback", 1), (0, 1))
        self.assertEqual(report.count("", 0), (0, 1))
        self.assertEqual(report.count("12 passed, 0 failed\n", 1), (12, 1))


class Why(unittest.TestCase):
    def test_lines_and_blocks(self):
        told = report.why(LOG)
        self.assertEqual(told[:5], [it for it in LOG.splitlines() if "NOT" in it or "FAILED" in it])
        self.assertEqual(told[5:7], ["note 22", "note 23"])
        ends = ["src/lib.rt:1:1: error: it is not proved", "rt: high NOT PROVED", "== short: its tests", "a test fails"]
        self.assertEqual(told[-5:], [*ends, "rt: short: its tests are NOT PROVED"])
        self.assertEqual(len(told), 5 + 40 + 3)

    def test_the_end_where_no_block_has_failed(self):
        said = "a/x: NOT REJECTED: f is proved with it\n" + "a/y: rejected\n" * 60 + "60 passed, 1 failed\n"
        self.assertEqual(report.why(said), [said.splitlines()[0], *["a/y: rejected"] * 39, "60 passed, 1 failed"])
