"""The gate, with a toolchain and checks that only tell that they were called, and the command that installs packages for tests."""
import os
import shutil
import subprocess
import tempfile
import unittest

from packages import PACKAGES

TOP = os.path.dirname(os.path.dirname(os.path.dirname(os.path.abspath(__file__))))
CALLED = "#!/bin/sh\necho {name} $CIGRELK >>{room}/called\nexit {status}\n"


class Gate(unittest.TestCase):
    def setUp(self):
        room = tempfile.TemporaryDirectory()
        self.addCleanup(room.cleanup)
        self.room = room.name
        self.write("bin/id", "#!/bin/sh\necho 0\n")
        for name in ("bin/rt", "bin/apt-get", "tools/install_test_packages", "examples/check", "clients/check"):
            self.stub(name)
        os.mkdir(f"{self.room}/.ci")
        shutil.copy(f"{TOP}/.ci/run", f"{self.room}/.ci/run")

    def write(self, name, text):
        os.makedirs(os.path.dirname(f"{self.room}/{name}"), exist_ok=True)
        with open(f"{self.room}/{name}", "w") as file:
            file.write(text)
        os.chmod(f"{self.room}/{name}", 0o755)

    def stub(self, name, status=0):
        self.write(name, CALLED.format(name=name, room=self.room, status=status))

    def run_gate(self):
        """The status, what was printed, and what was called."""
        settings = {**os.environ, "PATH": f"{self.room}/bin:/usr/bin:/bin"}
        settings.pop("CIGRELK", None)
        done = subprocess.run([".ci/run"], cwd=self.room, env=settings, stdout=subprocess.PIPE, stderr=subprocess.STDOUT, text=True)
        with open(f"{self.room}/called") as file:
            called = file.read().split("\n")[:-1]
        os.remove(f"{self.room}/called")
        return done.returncode, done.stdout, [line.split()[0] for line in called]

    ALL = ["bin/rt", "tools/install_test_packages", "examples/check", "clients/check"]

    def test_all_is_run_in_order(self):
        self.assertEqual(self.run_gate(), (0, "", self.ALL))

    def test_each_failure_is_its_status(self):
        for name, called in (("bin/rt", 1), ("examples/check", 3), ("clients/check", 4)):
            self.stub(name, 3)
            status, _, found = self.run_gate()
            self.assertEqual((status, found), (3, self.ALL[:called]))
            self.stub(name)

    def test_a_check_that_is_missing(self):
        for name in ("examples/check", "clients/check"):
            os.chmod(f"{self.room}/{name}", 0o644)
            status, told, found = self.run_gate()
            self.assertEqual((status, name in told, name in found), (1, True, False))
            os.remove(f"{self.room}/{name}")
            self.assertEqual(self.run_gate()[0], 1)
            self.stub(name)

    def test_packages_that_cannot_be_installed(self):
        self.write("tools/install_test_packages", "#!/bin/sh\necho a line\necho no network\nexit 100\n")
        self.write("clients/check", "#!/bin/sh\necho left out: all\n: >>called\n")
        status, told, _ = self.run_gate()
        self.assertEqual((status, told.split("\n")[-3:]), (0, ["left out: all", ".ci/run: tools/install_test_packages failed: no network", ""]))
        self.write("clients/check", "#!/bin/sh\n: >>called\nexit 7\n")
        self.assertEqual(self.run_gate()[0], 7)

    def test_packages_are_installed_by_root_alone(self):
        self.write("bin/id", "#!/bin/sh\necho 1000\n")
        self.assertEqual(self.run_gate(), (0, "", [name for name in self.ALL if not name.startswith("tools")]))

    def install(self, installed):
        """The calls of apt-get by the command that installs packages, where some are installed."""
        self.write("bin/apt-get", f'#!/bin/sh\necho "$*" >>{self.room}/called\n')
        self.write("bin/dpkg-query", f"#!/bin/sh\nfor last; do :; done\ncase ' {' '.join(installed)} ' in *\" $last \"*) echo installed ;; *) exit 1 ;; esac\n")
        settings = {**os.environ, "PATH": f"{self.room}/bin:/usr/bin:/bin"}
        with open(f"{self.room}/called", "w"):
            pass
        subprocess.run([f"{TOP}/tools/install_test_packages"], env=settings, check=True)
        with open(f"{self.room}/called") as file:
            return file.read().split("\n")[:-1]

    def test_packages_that_are_not_there_are_installed(self):
        for installed in ([], ["chromium", "python3-wheel"]):
            update, install = self.install(installed)
            self.assertEqual(update, "update")
            self.assertEqual([word for word in install.split()[1:] if not word.startswith("-")], [name for name in PACKAGES if name not in installed])
        self.assertEqual(self.install(list(PACKAGES)), [])


if __name__ == "__main__":
    unittest.main()
