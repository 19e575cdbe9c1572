"""The package and its command: installed in an environment of its own, and how the command ends."""
import os
import shutil
import subprocess
import sys
import tempfile
import unittest

HERE = os.path.dirname(os.path.abspath(__file__))
CLIENTS = os.path.dirname(HERE)
sys.path[:0] = [CLIENTS, HERE]
from cigrelk import TOP
from cigrelk.command import COMMANDS
from packages import wants


def run(*words, text="", **settings):
    return subprocess.run(words, input=text, capture_output=True, text=True, env={**os.environ, **settings})


class Command(unittest.TestCase):
    def test_help(self):
        told = run(f"{TOP}/cigrelk", "--help")
        self.assertEqual((told.returncode, told.stderr), (0, ""))
        for name in COMMANDS:
            self.assertRegex(told.stdout, rf"(?m)^    {name} +[a-z]")
            of_command = run(f"{TOP}/cigrelk", name, "--help")
            self.assertEqual((of_command.returncode, of_command.stderr, f"usage: cigrelk {name}" in of_command.stdout), (0, "", True))

    def test_wrong_usage(self):
        for words in ((), ("edid",), ("edit", "--port"), ("mirror", "a.db"), ("rebuild",), ("shell", "a.db", "b.db")):
            told = run(f"{TOP}/cigrelk", *words)
            self.assertEqual((told.returncode, told.stdout), (2, ""), words)
            self.assertIn("usage: cigrelk", told.stderr)

    def test_a_program_that_is_missing(self):
        for name, more in (("shell", ()), ("mirror", ("--schema",))):
            with tempfile.TemporaryDirectory() as room:
                told = run(f"{TOP}/cigrelk", name, f"{room}/a.db", *more, CIGRELK=f"{room}/nothing")
                self.assertEqual((told.returncode, told.stdout, told.stderr.count("\n")), (1, "", 1))
                self.assertRegex(told.stderr, rf"^cigrelk {name}: the program {room}/nothing cannot be started")

    def test_nobody_reads_what_is_printed(self):
        done = subprocess.run(f"'{TOP}/cigrelk' --help | true; '{TOP}/cigrelk' shell --help | true", shell=True, capture_output=True, text=True)
        self.assertEqual((done.returncode, done.stderr), (0, ""))


@wants("python3-pip", "python3-wheel")
class Installed(unittest.TestCase):
    """The package in an environment of its own, made without a network."""

    @classmethod
    def setUpClass(cls):
        room = tempfile.TemporaryDirectory()
        cls.addClassCleanup(room.cleanup)
        cls.room = room.name
        shutil.copytree(CLIENTS, f"{cls.room}/clients", ignore=shutil.ignore_patterns("tests", "__pycache__", "build", "*.egg-info"))
        # What builds the package (setuptools and wheel) is that of the system; a network would bring it else.
        cls.must("-m", "venv", "--system-site-packages", "--without-pip", f"{cls.room}/environment")
        cls.must("-m", "pip", "--python", f"{cls.room}/environment/bin/python", "install", "--quiet", "--no-index", "--no-build-isolation", f"{cls.room}/clients")
        shutil.rmtree(f"{cls.room}/clients")

    @classmethod
    def must(cls, *words):
        # (what is deprecated in tools of the system is not for us to tell)
        done = subprocess.run([sys.executable, *words], capture_output=True, text=True, cwd=cls.room)
        if done.returncode:
            raise AssertionError(done.stdout + done.stderr)

    def in_it(self, program, *words, text="", **settings):
        done = subprocess.run([f"{self.room}/environment/bin/{program}", *words], input=text, capture_output=True, text=True, cwd=self.room, env={**os.environ, **settings})
        return done.returncode, done.stdout, done.stderr

    def test_the_command(self):
        program = os.environ.get("CIGRELK") or f"{TOP}/serve"
        self.assertEqual(self.in_it("cigrelk", "shell", text="table goods (name text)\nlist\n", CIGRELK=program)[:2], (0, "table goods (name text)\n"))
        self.assertEqual(self.in_it("python", "-m", "cigrelk", "--help")[::2], (0, ""))
        for name in COMMANDS:
            self.assertEqual(self.in_it("cigrelk", name, "--help")[::2], (0, ""), name)

    def test_without_a_program(self):
        settings = {"CIGRELK": ""}
        status, printed, told = self.in_it("cigrelk", "shell", **settings)
        self.assertEqual((status, printed), (1, ""))
        self.assertEqual(told, "cigrelk shell: there is no program: set CIGRELK to the path of one, since this package lies in no clone that has `serve`\n")

    def test_the_page_is_there(self):
        status, printed, _ = self.in_it("python", "-c", "from cigrelk.editor import web; print(open(web.PAGE).read()[:15])")
        self.assertEqual((status, printed), (0, "<!doctype html>\n"))


if __name__ == "__main__":
    unittest.main()
