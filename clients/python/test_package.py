#!/usr/bin/env python3
"""Tests of the package of the client for Python, as a user installs it: a wheel, types, the fixtures for pytest.

    PYTHONPATH=tests clients/python/test_package.py [PROGRAM]

tests/clients runs them. The wheel is made and installed without a network, by pip, setuptools and wheel of Debian. Run as
root this installs what isn't there; else the tests are skipped, or have failed if the variable CI is `true`. The last line
is `N passed, M failed`.
"""
import os
import shutil
import subprocess
import sys
import tempfile
import unittest

from harness import packages, suite
from harness.places import PYTHON
from support import PROGRAM, real

LIBRARIES = "/usr/lib/python3/dist-packages/"
PACKAGES = {"python3-pip": LIBRARIES + "pip", "python3-setuptools": LIBRARIES + "setuptools",
            "python3-wheel": LIBRARIES + "wheel", "python3-pytest": LIBRARIES + "pytest",
            "python3-venv": "/usr/share/doc/python3-venv", "mypy": "/usr/bin/mypy"}
DEBIAN = "/usr/bin/python3"
SECONDS = 300
TYPED = """
import dchm
import dchm.aio

def work(client: dchm.Client) -> int:
    number: int | None = client.longs().get("a")
    text: str | None = client.texts().put("t", "x")
    value: int | str | None = client.merge("a", dchm.SUM, 1)
    changed: int | None = client.longs().update("a", lambda old: (old or 0) + 1)
    return (number or 0) + len(text or "") + (changed or 0) + client.count()

async def task(client: dchm.aio.AsyncClient) -> str:
    return await client.texts().get_or_default("t", "none")
"""
WRONGLY_TYPED = ('client.texts().put("t", 1)', 'client.longs().put("t", "x")', "client.get(5)", "client.merge('a', 4, 1)",
                 "client.put('a', None)")
FIXTURES = """
import dchm

def test_client(dchm_client, dchm_port):
    assert dchm_client.merge("a", dchm.SUM, 1) == 1
    with dchm.connect(dchm_port) as other:
        assert other.get("a") == 1

def test_each_test_has_an_empty_map(dchm_client):
    assert dchm_client.count() == 0
"""


def run(*words, **options):
    """A run to its end: its status, and what it printed."""
    environment = {name: value for name, value in os.environ.items() if name != "PYTHONPATH"}
    environment.update(DCHM=PROGRAM, PIP_DISABLE_PIP_VERSION_CHECK="1", **options.pop("more", {}))
    ended = subprocess.run(words, env=environment, stdin=subprocess.DEVNULL, stdout=subprocess.PIPE, stderr=subprocess.STDOUT,
                           text=True, errors="replace", timeout=SECONDS, **options)
    return ended.returncode, ended.stdout


class Package(unittest.TestCase):
    @classmethod
    def setUpClass(cls):
        missing = packages.install(PACKAGES)
        if missing and not suite.is_ci():
            raise unittest.SkipTest(f"there is no {' '.join(missing)}")
        cls.room = tempfile.mkdtemp(prefix="dchm-")
        cls.addClassCleanup(shutil.rmtree, cls.room)
        source, cls.venv = os.path.join(cls.room, "source"), os.path.join(cls.room, "venv")
        shutil.copytree(PYTHON, source, ignore=shutil.ignore_patterns("__pycache__", "build", "*.egg-info"))
        wheel = (DEBIAN, "-m", "pip", "wheel", "--no-build-isolation", "--no-deps", "--no-index", "-w", cls.room, source)
        for words in (wheel,
                      (DEBIAN, "-m", "venv", cls.venv),
                      (os.path.join(cls.venv, "bin", "pip"), "install", "--no-index", "--find-links", cls.room, "dchm")):
            status, said = run(*words, cwd=cls.room)
            if status:
                raise AssertionError(f"{words}: status {status}, {said}")

    def python(self, *words):
        return run(os.path.join(self.venv, "bin", "python"), *words, cwd=self.room)

    def written(self, name, text):
        with open(os.path.join(self.room, name), "w", encoding="utf-8") as file:
            file.write(text)
        return os.path.join(self.room, name)

    def test_the_version_is_the_server_s(self):
        version = run(PROGRAM, "--version")[1].split()
        said = self.python("-c", "import dchm, importlib.metadata as m; print(dchm.__version__, m.version('dchm'))")
        self.assertEqual(said, (0, f"{version[1]} {version[1]}\n"))

    def test_the_first_program_runs_installed(self):
        with real() as port:
            self.assertEqual(self.python(os.path.join(PYTHON, "examples", "first.py"), str(port)), (0, "3 6\n"))
        said = self.python("-c", "import dchm.aio, dchm.testing, os; print(os.path.dirname(dchm.__file__))")
        self.assertEqual(said[1].strip(), os.path.realpath(self.installed("dchm")))

    def installed(self, *names):
        status, said = self.python("-c", "import sysconfig; print(sysconfig.get_path('purelib'))")
        self.assertEqual(status, 0, said)
        return os.path.join(said.strip(), *names)

    def test_the_package_is_typed(self):
        self.assertTrue(os.path.exists(self.installed("dchm", "py.typed")))
        mypy = ("/usr/bin/mypy", "--strict", "--cache-dir", os.path.join(self.room, "cache"))
        words = (*mypy, "--python-executable", os.path.join(self.venv, "bin", "python"))
        for status, said in (run(*mypy, "dchm", cwd=PYTHON), run(*words, self.written("typed.py", TYPED), cwd=self.room)):
            self.assertEqual(status, 0, said)
        wrong = "import dchm\ndef work(client: dchm.Client) -> None:\n" + "".join(f"    {line}\n" for line in WRONGLY_TYPED)
        _, said = run(*words, self.written("wrong.py", wrong), cwd=self.room)
        self.assertEqual(sum("error:" in line for line in said.splitlines()), len(WRONGLY_TYPED), said)

    def test_pytest_has_its_fixtures(self):
        test = self.written("test_fixtures.py", FIXTURES)
        for more in ({"PYTHONPATH": self.installed()}, {"PYTHONPATH": PYTHON, "PYTEST_PLUGINS": "dchm.testing"}):
            status, said = run(DEBIAN, "-m", "pytest", "-q", "-p", "no:cacheprovider", test, cwd=self.room, more=more)
            self.assertEqual((status, "2 passed" in said), (0, True), said)


if __name__ == "__main__":
    sys.exit(suite.run_tests())
