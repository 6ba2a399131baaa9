"""Finds the shared library: where JDR_LIBRARY says, else in the package's folder (a wheel has it there), else where the system looks."""

from __future__ import annotations

import ctypes
import ctypes.util
import os
from pathlib import Path

# the file's name in a wheel, and the name that the system knows it by, with the major version of the C interface
IN_PACKAGE = "libjdr_c.so"
INSTALLED = "libjdr_c.so.1"


def load() -> ctypes.CDLL:
    """The library; ImportError where there is none. A file that JDR_LIBRARY names is taken or refused, and nothing else is tried."""
    named = os.environ.get("JDR_LIBRARY")
    beside = Path(__file__).with_name(IN_PACKAGE)
    if named:
        places = [named]
    elif beside.exists():
        places = [str(beside)]
    else:
        places = [INSTALLED, ctypes.util.find_library("jdr_c") or IN_PACKAGE]
    failures = []
    for place in places:
        try:
            return ctypes.CDLL(place)
        except OSError as failure:
            failures.append(str(failure))
    raise ImportError("no JDR library: set JDR_LIBRARY to the path of libjdr_c.so, or install it with tools/install (" + "; ".join(failures) + ")")
