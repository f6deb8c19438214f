"""Where the shared library and the command are: beside this module, in a prefix or in the source folder, or where the system looks."""
from __future__ import annotations

import os
import pathlib
import shutil
import sysconfig

_HERE = pathlib.Path(__file__).resolve()
_SOURCES = _HERE.parents[2] / "target"
# PREFIX/lib, where this is PREFIX/lib/python3/dist-packages/quayrudder/places.py
_LIB = _HERE.parents[3]
_SONAME = "libquayrudder.so.0"


def library() -> str:
    """The shared library; the environment's QUAYRUDDER_LIBRARY comes first."""
    folders = [_SOURCES / "sharedlib", _LIB / (sysconfig.get_config_var("MULTIARCH") or "."), _LIB]
    return _first("QUAYRUDDER_LIBRARY", [folder / _SONAME for folder in folders]) or _SONAME


def command() -> str:
    """The command; the environment's QUAYRUDDER_COMMAND comes first."""
    found = _first("QUAYRUDDER_COMMAND", [_SOURCES / "cli/release/quayrudder", _LIB.parent / "bin/quayrudder"])
    found = found or shutil.which("quayrudder")
    if found is None:
        raise FileNotFoundError("the command quayrudder is not installed; QUAYRUDDER_COMMAND may name it")
    return found


def _first(variable: str, paths: list[pathlib.Path]) -> str | None:
    return os.environ.get(variable) or next((str(path) for path in paths if path.is_file()), None)
