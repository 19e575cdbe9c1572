"""What tests want of Debian's packages. A test without its package is left out; one that is left out while Debian has the package
installed is wrong."""
import glob
import importlib.util
import os
import shutil
import subprocess
import sys
import unittest

LEFT_OUT = "Debian's package {} is not there (tools/install_test_packages installs it)"
# The interpreter that Debian's packages of Python are for.
DEBIANS_PYTHON = "/usr/bin/python3"


def chromium():
    """The path of a Chromium, or None."""
    return next(filter(None, map(shutil.which, ("chromium", "chromium-browser", "google-chrome"))), None)


def postgresql():
    """The folder with the programs of a PostgreSQL server, or None."""
    found = sorted(glob.glob("/usr/lib/postgresql/*/bin"), reverse=True) + [os.path.dirname(shutil.which("initdb") or "")]
    return found[0] or None if shutil.which("psql") else None


def module(name):
    """What tells whether a module of Python can be imported."""
    return lambda: importlib.util.find_spec(name) is not None


PACKAGES = {
    "chromium": chromium,
    "postgresql": postgresql,
    "python3-aiohttp": module("aiohttp"),
    "python3-jsonschema": module("jsonschema"),
    "python3-pandas": module("pandas"),
    "python3-pip": module("pip"),
    "python3-psycopg2": module("psycopg2"),
    "python3-wheel": module("wheel"),
}


def wants(*packages):
    """A decorator of tests and of their classes, which are left out if one of these packages is not there."""
    lacking = [package for package in packages if not PACKAGES[package]()]
    return unittest.skipIf(lacking, LEFT_OUT.format(lacking[0]) if lacking else "")


def lacking_in(reason):
    """The package that a test was left out for, or None."""
    return next((package for package in PACKAGES if reason == LEFT_OUT.format(package)), None)


def is_installed(package):
    """Whether Debian has this package installed for the interpreter that runs."""
    if package.startswith("python3-") and os.path.realpath(sys.executable) != os.path.realpath(DEBIANS_PYTHON):
        return False
    try:
        done = subprocess.run(["dpkg-query", "-W", "-f", "${db:Status-Status}", package], capture_output=True, text=True)
    except OSError:
        return False
    return done.stdout == "installed"
