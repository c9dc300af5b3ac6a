"""The shared library: where it is looked for, and its functions."""

import ctypes
import os
import platform
import sys
from pathlib import Path

from .boundary import FUNCTIONS

NAME = "libdesk.so"
PACKAGE = Path(__file__).resolve().parent

# What to do where the library is of another version.
AGAIN = "run hosts/build again in the repository, and where the package is installed also pip install hosts/python"


def _path(named: str | None, package: Path) -> Path:
    """The library that is named, or else the one in the package, or else, where that is the repository's own, the one that is built there."""
    if named:
        return Path(named)
    installed = package / NAME
    if installed.is_file() or not (package.parent / "pyproject.toml").is_file():
        return installed
    return package.parent.parent.parent / "target" / "hosts" / NAME


def _missing(path: Path, package: Path) -> str:
    if path.parent == package:
        return f"the package has lost its desk library {path}; install it anew by pip install --force-reinstall hosts/python, or name a library in DESK_LIBRARY"
    return f"there is no desk library {path}; run hosts/build first, or name one in DESK_LIBRARY"


def _load(path: Path) -> ctypes.PyDLL:
    """Loads the library so that a call keeps the interpreter's own lock.

    No other thread, no signal handler and no fork can then come between the beginning of a call and its end, and a desk needs no
    lock of its own that could be held by another thread at a fork, or by the very thread that a signal handler has interrupted.
    """
    if not getattr(sys, "_is_gil_enabled", lambda: True)():
        raise ImportError("thondrimai needs a Python with its interpreter lock: each call is made alone by holding it")
    if not path.is_file():
        raise ImportError(_missing(path, PACKAGE))
    try:
        return ctypes.PyDLL(str(path.resolve()))
    except OSError as error:
        here = f"{platform.machine()} {platform.system()}"
        raise ImportError(f"the desk library {path} cannot be loaded ({error}); it is for x86-64 Linux, and this Python is for {here}") from None


def _declare(library: ctypes.PyDLL, path: Path) -> None:
    for name, (returns, takes) in FUNCTIONS.items():
        try:
            function = getattr(library, "desk_" + name)
        except AttributeError:
            raise ImportError(f"the desk library {path} has no function desk_{name}; it is of another version: {AGAIN}") from None
        function.argtypes = list(takes.values())
        function.restype = returns


def _open() -> ctypes.PyDLL:
    path = _path(os.environ.get("DESK_LIBRARY"), PACKAGE)
    library = _load(path)
    _declare(library, path)
    return library


library = _open()
