"""The package as `pip` builds it from its folder, without a network."""
import os
import re
import shutil
import subprocess
import sys
import tempfile
import unittest
import zipfile

from vectors import TOP

FOLDER = os.path.join(TOP, "clients", "python")
# What pip asks of the folder's backend; ends with 3 where setuptools is none that builds a wheel, of 70.1 or beside `wheel`.
BUILD = """
import importlib.util, sys, warnings
warnings.simplefilter("ignore")
if importlib.util.find_spec("setuptools") is None:
    sys.exit(3)
import setuptools.build_meta
version = tuple(map(int, setuptools.__version__.split(".")[:2]))
if version < (61, 0) or version < (70, 1) and importlib.util.find_spec("wheel") is None:
    sys.exit(3)
setuptools.build_meta.build_wheel(sys.argv[1])
"""
USE = "import yoritzal; print(yoritzal.__file__); print(sorted(vars(yoritzal)))"


def built(source, target):
    """What building the wheel comes to, by the first Python here that can, or None."""
    for python in dict.fromkeys([sys.executable, "/usr/bin/python3"]):
        if os.path.exists(python):
            done = subprocess.run([python, "-c", BUILD, target], cwd=source, capture_output=True, text=True, check=False)
            if done.returncode != 3:
                return done
    return None


def version():
    """That of the program."""
    with open(os.path.join(TOP, "crates", "edge", "src", "usage.rt"), encoding="ascii") as file:
        return re.search(r'"taosd ([0-9.]+)', file.read()).group(1)


def modules(folder):
    return sorted(each for each in os.listdir(os.path.join(folder, "yoritzal")) if each.endswith(".py"))


class Install(unittest.TestCase):
    def test_the_folder_is_a_package_that_pip_takes(self):
        with tempfile.TemporaryDirectory() as folder:
            source, target = os.path.join(folder, "source"), os.path.join(folder, "target")
            # Building leaves files beside the source.
            shutil.copytree(FOLDER, source, ignore=shutil.ignore_patterns("__pycache__", "tests"))
            os.mkdir(target)
            done = built(source, target)
            if done is None:
                self.skipTest("no setuptools that builds a wheel")
            self.assertEqual(done.returncode, 0, done.stdout + done.stderr)
            wheel, = os.listdir(target)
            self.assertEqual(wheel, f"yoritzal-{version()}-py3-none-any.whl")
            with zipfile.ZipFile(os.path.join(target, wheel)) as packed:
                packed.extractall(target)
            self.assertEqual(modules(target), modules(FOLDER))
            used = subprocess.run([sys.executable, "-c", USE], capture_output=True, text=True, check=True, cwd=folder,
                                  env={**os.environ, "PYTHONPATH": target})
            self.assertTrue(used.stdout.startswith(target), used.stdout)
            self.assertIn("'AsyncSession'", used.stdout)


if __name__ == "__main__":
    unittest.main()
