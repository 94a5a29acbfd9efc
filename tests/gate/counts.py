"""What a test prints of what it passes over, and its last line; and how those of unittest are run so that both are right."""
import sys
import unittest


def over(what, why):
    """Says that something is passed over. Where it stands for several rows, it begins with their number."""
    print(f"passed over: {what}: {why}", flush=True)


def ended(passed, failed, skipped=0):
    """Prints the last line of a test, and answers its exit status."""
    print(f"{passed} passed, {failed} failed" + (f", {skipped} skipped" if skipped else ""))
    return 1 if failed or not passed + skipped else 0


class Result(unittest.TextTestResult):
    """Counts as passed what has ended well, and nothing else."""

    def __init__(self, *how, **more):
        super().__init__(*how, **more)
        self.passed = 0

    def addSuccess(self, test):
        super().addSuccess(test)
        self.passed += 1


def tests_of(suite):
    for it in suite:
        yield from tests_of(it) if isinstance(it, unittest.TestSuite) else [it]


def name_of(test):
    """The name of a test method, of whichever of its lines."""
    return getattr(test, "test_case", test).id()


def of_modules(names, is_chosen=lambda name: True):
    """How many of the test methods of these modules passed, failed, and were passed over."""
    suite = unittest.TestLoader().loadTestsFromNames(names)
    chosen = [it for it in tests_of(suite) if is_chosen(it.id())]
    result = unittest.TextTestRunner(stream=sys.stdout, resultclass=Result).run(unittest.TestSuite(chosen))
    failed = {name_of(it) for it, _ in [*result.failures, *result.errors]}
    skipped = {name_of(it): why for it, why in result.skipped if name_of(it) not in failed}
    for name, why in skipped.items():
        over(name, why)
    return result.passed, len(failed), len(skipped)
