"""Runs the tests of this folder, several files at once, prints a line for each test, and tells at the end what was left out."""
import argparse
import compileall
import concurrent.futures
import glob
import json
import os
import signal
import subprocess
import sys
import tempfile
import threading
import time
import unittest

from packages import is_installed, lacking_in

HERE = os.path.dirname(os.path.abspath(__file__))
# The files that take longest begin first, so that none of them is left alone at the end.
LONGEST = (
    "test_sql_views", "test_editor", "test_hub", "test_mirror", "test_mirror_guards", "test_hub_page", "test_package",
    "test_shell", "test_take", "test_sql_servers",
)
# How many tests that were wrong are tried once more: a busy machine may be too slow for a test that waits.
MOST_AGAIN = 3
# How long (in seconds) the tests of one file may take: a test that hangs is ended, and counts as wrong.
MOST_SECONDS = 900


def said(errors):
    """What a client wrote to standard error, without what ./serve tells there of a program that is not proved."""
    return "".join(line for line in errors.splitlines(True) if not line.startswith("serve: this program is not proved"))


class Lines(unittest.TestResult):
    """Prints a line a test: its name, how it went, and its time."""

    def startTest(self, test):
        super().startTest(test)
        self.began = time.monotonic()

    def tell(self, test, how):
        # (a class whose tests are left out has no test that began)
        seconds = time.monotonic() - getattr(self, "began", time.monotonic())
        print(f"{name_of(test)}: {how}, {seconds:.1f} s", flush=True)

    def addSuccess(self, test):
        self.tell(test, "right")

    def addSkip(self, test, reason):
        super().addSkip(test, reason)
        package = lacking_in(reason)
        if package and is_installed(package):
            self.failures.append((test, f"It was left out, though Debian's package {package} is installed.\n"))
            self.tell(test, "WRONG")
        else:
            self.tell(test, f"left out, since {reason}")

    def addFailure(self, test, error):
        super().addFailure(test, error)
        self.tell(test, "WRONG")

    def addError(self, test, error):
        super().addError(test, error)
        self.tell(test, "WRONG")

    def addSubTest(self, test, subtest, error):
        super().addSubTest(test, subtest, error)
        if error:
            self.tell(test, "WRONG")

    def addExpectedFailure(self, test, error):
        super().addExpectedFailure(test, error)
        self.tell(test, "fails as expected")


def name_of(test):
    return test.id() if hasattr(test, "id") else str(test)


def run_here(names, report):
    """Runs the tests of these names in this process, and writes to a file how they went."""
    # A shell that starts this in the background lets it ignore interrupts, and so would the programs that tests end by one.
    signal.signal(signal.SIGINT, signal.default_int_handler)
    result, load = Lines(), unittest.defaultTestLoader.loadTestsFromName
    unittest.TestSuite(load(name) for name in names).run(result)
    wrong = [(name_of(test), text) for test, text in result.failures + result.errors]
    with open(report, "w", encoding="utf-8") as file:
        json.dump({"run": result.testsRun, "wrong": wrong, "left_out": [reason for _, reason in result.skipped]}, file)


class Runs:
    """Runs of tests in processes of their own. Their lines are printed as they come, whole."""

    def __init__(self, room):
        self.room, self.turn, self.count, self.running = room, threading.Lock(), 0, set()

    def run(self, names):
        """How the tests of these names went."""
        with self.turn:
            self.count += 1
            report = f"{self.room}/{self.count}"
        words = [sys.executable, "-W", "error", os.path.abspath(__file__), "--report", report, *names]
        # The run has a session of its own, so that all that it started can be ended with it.
        how = {"stdout": subprocess.PIPE, "stderr": subprocess.STDOUT, "text": True, "errors": "replace", "start_new_session": True}
        with subprocess.Popen(words, **how) as process:
            self.running.add(process.pid)
            timer = threading.Timer(MOST_SECONDS, os.killpg, (process.pid, signal.SIGKILL))
            timer.start()
            for line in process.stdout:
                with self.turn:
                    print(line, end="", flush=True)
            timer.cancel()
            self.running.remove(process.pid)
        try:
            with open(report, encoding="utf-8") as file:
                return json.load(file)
        except (OSError, ValueError):
            ended = f"The tests did not come to their end: status {process.returncode}.\n"
            return {"run": 0, "wrong": [(", ".join(names), ended)], "left_out": []}

    def interrupt(self):
        """Hands an interrupt (Ctrl-C) on to all runs."""
        for process in list(self.running):
            os.killpg(process, signal.SIGINT)


def names_of(files):
    """The names of the files' modules, those first that take longest."""
    names = [os.path.basename(path)[:-3] for path in files or sorted(glob.glob(f"{HERE}/test_*.py"))]
    return sorted(names, key=lambda name: LONGEST.index(name) if name in LONGEST else len(LONGEST))


def tell_wrong(wrong):
    for name, text in wrong:
        print(f"\n{name}\n{text}")


def run_all(names, processes):
    """Runs the tests of each of these modules, and gives the status."""
    began = time.monotonic()
    # Tests start the command hundreds of times, and where Python keeps no bytecode each start would compile the package anew.
    compileall.compile_dir(f"{os.path.dirname(HERE)}/cigrelk", quiet=2)
    with tempfile.TemporaryDirectory() as room, concurrent.futures.ThreadPoolExecutor(processes) as pool:
        runs = Runs(room)
        try:
            found = list(pool.map(runs.run, [[name] for name in names]))
        except KeyboardInterrupt:
            runs.interrupt()
            raise
        wrong = [tuple(one) for result in found for one in result["wrong"]]
        again = sorted({name for name, _ in wrong})
        if 0 < len(again) <= MOST_AGAIN and all(name.startswith("test_") and " " not in name for name in again):
            tell_wrong(wrong)
            print("\ntried once more:", flush=True)
            wrong = runs.run(again)["wrong"]
    tell_wrong(wrong)
    left_out = [reason for result in found for reason in result["left_out"]]
    print(f"{sum(result['run'] for result in found)} tests in {time.monotonic() - began:.0f} s: {len(wrong)} wrong, {len(left_out)} left out")
    for reason in sorted(set(left_out)):
        print(f"left out: {reason}")
    return int(bool(wrong))


def main():
    parser = argparse.ArgumentParser(description=__doc__)
    parser.add_argument("files", nargs="*", metavar="FILE", help="files of this folder; all of them if none is named")
    parser.add_argument("--processes", type=int, default=max(2, min(4, os.cpu_count() or 2)), help="how many files at once")
    parser.add_argument("--report", help=argparse.SUPPRESS)
    options = parser.parse_args()
    if options.report:
        run_here(options.files, options.report)
        return 0
    return run_all(names_of(options.files), options.processes)


if __name__ == "__main__":
    sys.exit(main())
