"""The library is looked for where it is said, and what is wrong with it is told."""

import contextlib
import ctypes
import importlib
import io
import os
import shlex
import subprocess
import sys
import unittest
from pathlib import Path
from unittest import mock

import checks
from thondrimai.library import _declare, _load, _missing, _path, library

PACKAGE = Path(__file__).resolve().parent.parent / "thondrimai"


class Library(unittest.TestCase):
    def test_missing(self) -> None:
        # PYTHON_COMMAND is set where this Python runs under an emulator.
        python = shlex.split(os.environ.get("PYTHON_COMMAND", shlex.quote(sys.executable)))
        result = subprocess.run(
            [*python, "-c", "import thondrimai"],
            cwd=PACKAGE.parent,
            env={**os.environ, "DESK_LIBRARY": "no-such/libdesk.so"},
            capture_output=True,
            text=True,
        )
        self.assertNotEqual(result.returncode, 0)
        self.assertIn("there is no desk library no-such/libdesk.so; run hosts/build first", result.stderr)

    def test_where(self) -> None:
        self.assertEqual(_path("other/libdesk.so", PACKAGE), Path("other/libdesk.so"))
        for named in (None, ""):
            self.assertEqual(_path(named, PACKAGE), PACKAGE.parents[2] / "target" / "hosts" / "libdesk.so")

    def test_an_installed_copy_has_its_own(self) -> None:
        for package in ("/thondrimai", "/site-packages/thondrimai"):
            path = _path(None, Path(package))
            self.assertEqual(path, Path(package) / "libdesk.so")
            self.assertIn("has lost its desk library", _missing(path, Path(package)))
        with self.assertRaisesRegex(ImportError, "install it anew by pip install --force-reinstall hosts/python"):
            _load(PACKAGE / "libdesk.so")

    def test_no_library(self) -> None:
        with self.assertRaisesRegex(ImportError, f"{__file__} cannot be loaded .*; it is for x86-64 Linux, and this Python is for "):
            _load(Path(__file__))

    def test_another_library(self) -> None:
        with self.assertRaisesRegex(ImportError, "has no function desk_fresh; it is of another version"):
            _declare(ctypes.PyDLL(None), Path("libother.so"))

    def test_a_call_keeps_the_interpreters_lock(self) -> None:
        self.assertIsInstance(library, ctypes.PyDLL)

    def test_an_interpreter_without_its_lock(self) -> None:
        if present := getattr(sys, "_is_gil_enabled", None):
            self.addCleanup(setattr, sys, "_is_gil_enabled", present)
        else:
            self.addCleanup(delattr, sys, "_is_gil_enabled")
        setattr(sys, "_is_gil_enabled", lambda: False)
        with self.assertRaisesRegex(ImportError, "needs a Python with its interpreter lock"):
            _load(Path("libdesk.so"))


class Checks(unittest.TestCase):
    def test_an_imported_door_answers_nothing(self) -> None:
        """By PYTHONPATH=hosts/python a student may import it unawares."""
        with mock.patch("sys.stdin", io.StringIO("bytes\n")), contextlib.redirect_stdout(io.StringIO()) as told:
            importlib.import_module("door")
        self.assertEqual(told.getvalue(), "")

    def test_no_tests_are_a_failure(self) -> None:
        with self.assertRaisesRegex(SystemExit, "no tests to run"):
            checks.collected([])
        with self.assertRaisesRegex(SystemExit, "has no tests"):
            checks.collected([Path("desks.py")])
