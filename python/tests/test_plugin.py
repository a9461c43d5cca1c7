"""The fixtures for pytest: in a run of pytest, or by their functions."""

import importlib
import importlib.util
import os
import subprocess
import sys
import tempfile
import types
import unittest
from unittest import mock

from excp import Area, Ccw, Code, NoPost, NoSite, Op, Site

PACKAGE = os.path.dirname(os.path.dirname(os.path.realpath(__file__)))
HAS_PYTEST = importlib.util.find_spec("pytest") is not None

# The plugin, once, also if the package is installed.
PLUGINS = "-p", "no:excp", "-p", "excp.pytest_plugin", "-p", "no:cacheprovider"

# A file of tests. "A job in ten lines" (docs/TUTORIAL.md) prints HELLO and ends with code 7F.
TESTS = """
from excp import Area, Ccw, Code, Op

def hello():
    area = Area(0x1000)
    area.iob()
    area.ecb()
    area.program(Ccw(Op.PR1, "LINE", 0, 5))
    area.data("LINE", "HELLO".encode("cp037"))
    return area

def test_prints(site, run):
    printer = site.printer(lines=100, pages=5)
    dcb = printer.open()
    assert run(dcb, hello()).code == Code.ENDED
    assert run(dcb, hello()).name.number == 2
    assert [it.text for it in printer.printed()] == ["HELLO", "HELLO"]

def test_has_a_site_of_its_own(site):
    assert site.units == []
"""


def no_operation(count):
    area = Area(0x1000)
    area.iob()
    area.ecb()
    area.program(Ccw(Op.NOP, count=count))
    return area


class Plugin(unittest.TestCase):
    @unittest.skipUnless(HAS_PYTEST, "pytest is not installed")
    def test_fixtures_in_pytest(self):
        with tempfile.TemporaryDirectory() as folder:
            with open(f"{folder}/test_printer.py", "w", encoding="ascii") as it:
                it.write(TESTS)
            words = [sys.executable, "-B", "-m", "pytest", "-q", *PLUGINS, folder]
            path = os.pathsep.join([PACKAGE, os.environ.get("PYTHONPATH", "")]).rstrip(os.pathsep)
            environment = {**os.environ, "PYTHONPATH": path}
            ran = subprocess.run(words, env=environment, cwd=folder, stdout=subprocess.PIPE, text=True, check=False)
        self.assertIn("2 passed", ran.stdout)
        self.assertEqual(ran.returncode, 0, ran.stdout)

    def test_functions(self):
        """With a module in place of pytest, whose fixtures are the functions."""
        stub = types.ModuleType("pytest")
        stub.fixture = lambda name: lambda function: function
        with mock.patch.dict(sys.modules, {"pytest": stub}):
            sys.modules.pop("excp.pytest_plugin", None)
            plugin = importlib.import_module("excp.pytest_plugin")
        fixture = plugin.site()
        site = next(fixture)
        self.assertIsInstance(site, Site)
        run, printer = plugin.run(site), site.printer(lines=1, pages=1)
        dcb = printer.open()
        site.issue(0, dcb, no_operation(1))
        # the post of the request before is passed over
        post = run(dcb, no_operation(2))
        self.assertEqual((post.name.number, post.code, post.csw.residual), (2, Code.ENDED, 2))
        with self.assertRaises(NoPost):
            site.post(0)
        with self.assertRaises(StopIteration):
            next(fixture)
        with self.assertRaises(NoSite):
            site.post(0)


if __name__ == "__main__":
    unittest.main()
