"""The end of a suite: each failure in one line, and last the line 'N passed, M failed'."""

import unittest


class Differs(AssertionError):
    """A result isn't the expected one."""


def same(what, expected, actual):
    if expected != actual:
        raise Differs(f"{what}: {difference(expected, actual)}")


def difference(expected, actual):
    """Both values; of long texts the part around the first difference."""
    if type(expected) is not type(actual) or not isinstance(expected, (str, bytes)):
        return f"expected {short(expected)}, got {short(actual)}"
    at = next((at for at, (a, b) in enumerate(zip(expected, actual)) if a != b), min(len(expected), len(actual)))
    start = max(0, at - 30)
    where = f" at offset {start}" if start else ""
    return f"expected{where} {short(expected[start:start + 250])}, got {short(actual[start:start + 250])}"


def short(value):
    text = repr(value)
    return text if len(text) <= 300 else text[:297] + "..."


def one_line(text, most=1500):
    return " ".join(str(text).split("\n"))[:most]


def finish(passed, failed):
    """Writes the last line, and gives the status."""
    print(f"{passed} passed, {failed} failed")
    return 0 if passed and not failed else 1


class Result(unittest.TestResult):
    """Counts tests, and writes a line for each that fails."""

    def __init__(self, suite):
        super().__init__()
        self.suite, self.passed, self.failed = suite, 0, 0

    def addSuccess(self, test):
        self.passed += 1

    def addFailure(self, test, err):
        self.failed += 1
        name, _, part = test.id().partition(" ")
        kind = "" if issubclass(err[0], AssertionError) else f"{err[0].__name__}: "
        print(one_line(f"{self.suite}/{name.split('.')[-1]}{part}: {kind}{err[1]}"), flush=True)

    addError = addFailure

    def addSubTest(self, test, subtest, err):
        if err:
            self.addFailure(subtest, err)


def run(suite, *cases):
    """Runs the test methods of these classes, and gives the status."""
    result = Result(suite)
    for case in cases:
        unittest.defaultTestLoader.loadTestsFromTestCase(case).run(result)
    return finish(result.passed, result.failed)
