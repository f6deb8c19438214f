"""The examples of the docstrings and the tests, in a folder of their own: run.py [--fabio], with python/ on the path. The plug-in's need FabIO."""
import doctest
import importlib
import os
import pathlib
import sys
import tempfile
import unittest

import files

PLAIN = ["quayrudder", "quayrudder.refusals", "quayrudder.images", "quayrudder.holding"], ["test_images", "test_holding"]
FABIO = ["quayrudder.fabio_plugin"], ["test_fabio"]


def suite(modules: list[str], tests: list[str]) -> unittest.TestSuite:
    found = unittest.TestSuite(doctest.DocTestSuite(importlib.import_module(name)) for name in modules)
    found.addTests(unittest.defaultTestLoader.loadTestsFromNames(tests))
    return found


def main() -> int:
    tests = suite(*(FABIO if sys.argv[1:] == ["--fabio"] else PLAIN))
    with tempfile.TemporaryDirectory() as folder:
        files.fill(pathlib.Path(folder))
        os.chdir(folder)
        result = unittest.TextTestRunner().run(tests)
        os.chdir("/")
    return 0 if result.wasSuccessful() else 1


if __name__ == "__main__":
    sys.exit(main())
