"""The examples of the docstrings, run."""
import doctest
import importlib
import pkgutil
import unittest

import urszovely


def load_tests(loader: unittest.TestLoader, tests: unittest.TestSuite, pattern: object) -> unittest.TestSuite:
    for module in pkgutil.iter_modules(urszovely.__path__):
        if module.name != "__main__":
            tests.addTests(doctest.DocTestSuite(importlib.import_module("urszovely." + module.name)))
    tests.addTests(doctest.DocTestSuite(urszovely))
    return tests
