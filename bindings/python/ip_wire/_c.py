"""The C library, with the types of its calls."""
from __future__ import annotations

import ctypes
import os
from ctypes import POINTER
from typing import Any, Iterator, Tuple

from ._declarations import *  # noqa: F403
from ._declarations import CALLS, VERSION

MAX_LEN = (1 << 40) - 1  # LK_MAX_LEN


def argument_types(kinds: Tuple[Any, ...]) -> Iterator[Any]:
    """The types of ctypes for parameters in CALLS."""
    for kind in kinds:
        if isinstance(kind, tuple):
            yield from kind
        elif issubclass(kind, ctypes.Array):
            yield POINTER(kind._type_)
        elif issubclass(kind, ctypes.Structure):
            yield POINTER(kind)
        else:
            yield kind


def _load() -> ctypes.CDLL:
    """The library, if the processor can run it, and it has the calls above."""
    series = VERSION.rpartition(".")[0]
    soname = "libip_wire.so." + series
    packed = os.path.join(os.path.dirname(os.path.abspath(__file__)), soname)
    path = os.environ.get("IP_WIRE_LIBRARY") or (packed if os.path.exists(packed) else soname)
    try:
        found = ctypes.CDLL(path)
        is_supported = found.lk_cpu_supported()
        number = found.lk_version() if is_supported else 0
    except (OSError, AttributeError) as error:
        raise ImportError(
            f"the C library ip_wire is not found: {error}. `make install` installs it. If it is not where the system "
            "looks, set IP_WIRE_LIBRARY to the path of libip_wire.so."
        ) from None
    if not is_supported:
        raise ImportError("the C library ip_wire needs an x86-64-v2 processor (SSE4.2 and POPCNT)")
    version = f"{number >> 16}.{number >> 8 & 255}.{number & 255}"
    lacks = "".join([f" without {name}" for name in CALLS if not hasattr(found, name)][:1])
    if version.rpartition(".")[0] != series or lacks:
        raise ImportError(f"this package needs the C library ip_wire {VERSION}, and {path} has version {version}{lacks}")
    for name, (result, *kinds) in CALLS.items():
        call = getattr(found, name)
        call.restype, call.argtypes = result, list(argument_types(tuple(kinds)))
    return found


library = _load()
