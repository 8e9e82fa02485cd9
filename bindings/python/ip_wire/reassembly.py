"""Packets that are put together from their fragments."""
from __future__ import annotations

import ctypes
import time
from typing import List, Optional

from . import _c as c
from ._convert import Data, call, data_of, number_of, written

_LONGEST_FRAME = 14 + 40 + 65535


class Reassembler:
    """Puts IPv4 and IPv6 packets together from their fragments (RFC 791, section 3.2; RFC 8200, section 4.5): at most
    `packets` at a time, each with a payload of at most `longest` bytes. If all places are in use, the packet that expires
    first makes room.

    `now` is a clock in milliseconds that never goes back, by default `time.monotonic`. Fragments are kept for 60 seconds.
    Two threads must not use one reassembler at once. A host calls `Host.answer` for each fragment before. If there is an
    answer, the fragment has a fault: send the answer, and discard the fragment.
    """

    def __init__(self, packets: int = 64, longest: int = 65535) -> None:
        count = number_of(ctypes.c_uint16, packets, "packets")
        blocks = (number_of(ctypes.c_uint16, longest, "longest") + 7) // 8
        self._reassemblies = (c.Reassembly * count)()
        self._memory = ctypes.create_string_buffer(count * blocks * 9)

    def reassemble(self, frame: Data, now: Optional[int] = None) -> Optional[bytes]:
        """Takes the fragment in an Ethernet frame. Returns the frame with the whole packet, or None if a part of it is
        missing. A packet that is not fragmented is returned at once: of IPv4 each, of IPv6 one with an atomic fragment
        header. Fails with LK_PAYLOAD_TOO_LONG, LK_NO_HEADER or LK_DROPPED."""
        data = data_of(frame)
        return written(_LONGEST_FRAME, "lk_reassemble", self._reassemblies, self._memory, _time(now), data) or None

    def expire(self, now: Optional[int] = None) -> List[bytes]:
        """Frees the packets whose time is over. Returns the frames with their fragments of offset 0, as far as these were
        received: an ICMP error tells their senders (time exceeded, code 1)."""
        found: List[bytes] = []
        out = ctypes.create_string_buffer(_LONGEST_FRAME)
        while length := call("lk_expire_reassembly", self._reassemblies, self._memory, _time(now), out):
            found.append(out.raw[:length])
        return found


def _time(now: Optional[int]) -> int:
    return time.monotonic_ns() // 1_000_000 if now is None else now
