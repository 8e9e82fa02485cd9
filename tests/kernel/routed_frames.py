"""Frames for a router or a NAT between the sides left and right: recorded, changed and random ones, and ICMP messages."""
import functools

import compare
import icmp
import packets
from dice import ANY as random
from forwarded import with_header_checksum
from bridge import is_hex
from links import ELSEWHERE
from rebuilt import recorded

# The Ethernet addresses of the hosts on both sides, and of the program.
HOSTS = {"left": bytes.fromhex("020000000102"), "right": bytes.fromhex("020000000202")}
HARDWARE = {"left": bytes.fromhex("02000000aa01"), "right": bytes.fromhex("02000000aa02")}
RANDOM_FRAMES = 6_000


@functools.lru_cache(maxsize=None)
def made_frames():
    """Recorded frames, random ones, and changed ones."""
    lines = (line.strip() for line in compare.corpus(random.randrange(1 << 32), RANDOM_FRAMES))
    return [frame for frame, _ in recorded()] + [bytes.fromhex(line.decode()) for line in lines if is_hex(line)]


def hostile_frames(count, name):
    """Some of them, most of which could be routed from this side to the other one, and ICMP messages."""
    for frame in random.choices(made_frames(), k=count):
        frame = icmp_frame(frame) if random.random() < 0.15 else frame
        frame = extended(frame) if random.random() < 0.15 and frame[12:14] == b"\x86\xdd" and 54 <= len(frame) <= 1400 else frame
        frame = routed(frame, name) if len(frame) >= 34 and frame[12:14] in (b"\x08\0", b"\x86\xdd") else frame
        if 14 <= len(frame) <= 1514 and frame[12:14] not in (b"\x81\0", b"\x88\xa8"):
            yield frame


def icmp_frame(frame):
    """A message of any type, which quotes the packet of this frame."""
    src, dst = random.choice(((packets.HOST_A, packets.HOST_B), (packets.HOST_C, packets.HOST_D)))
    kind = random.choice((0, 3, 8, 11, 12, 128, 129, 135, 136, random.randrange(256)))
    body = icmp.message(kind, random.choice((0, 0, 1, 4)), random.randrange(2**32), frame[14:600], src, dst)
    return icmp.framed(body[: random.choice((len(body), len(body), 7, 0))], src, dst, packets.SRC, packets.DST)


def extended(frame):
    """The IPv6 frame with extension headers before its payload. Mostly they are whole."""
    number, headers = frame[20], b""
    for kind in random.choices((0, 43, 44, 44, 51, 60, 60, 135, 139, 140), k=random.randrange(1, 4)):
        size = 8 if kind == 44 else 8 * random.randrange(1, 4)
        units = size // 4 - 2 if kind == 51 else size // 8 - 1
        second = random.randrange(256) if random.random() < 0.05 else units
        offset = random.randrange(1 << 16) if random.random() < 0.3 else random.randrange(8)
        headers = bytes([number, second]) + offset.to_bytes(2, "big") + random.randbytes(size - 4) + headers
        number = kind
    payload_len = min(0xFFFF, int.from_bytes(frame[18:20], "big") + len(headers)).to_bytes(2, "big")
    return frame[:18] + payload_len + bytes([number]) + frame[21:54] + headers + frame[54:]


def routed(frame, name):
    """The frame from an address of this side to one of the other side, mostly."""
    chance, other = random.random(), {"left": "right", "right": "left"}[name]
    blocks = {"left": (bytes([203, 0, 113]), b"\x3f\xff\x0f"), "right": (bytes([198, 18, 7]), b"\x20\x01\x0d\xb8")}
    is_ipv6 = frame[12] == 0x86
    at, size = (22, 16) if is_ipv6 else (26, 4)
    for place, side in ((at, name), (at + size, other)):
        if random.random() < 0.9 and len(frame) >= at + 2 * size:
            front = blocks[side][is_ipv6]
            frame = frame[:place] + (front + random.randbytes(size - len(front))) + frame[place + size :]
    if random.random() < 0.05:
        hop_limit = 21 if is_ipv6 else 22
        frame = frame[:hop_limit] + random.choice((b"\0", b"\1")) + frame[hop_limit + 1 :]
    if not is_ipv6 and chance < 0.9:
        header_len = max(20, frame[14] % 16 * 4)
        frame = frame[:14] + with_header_checksum(frame[14 : 14 + header_len]) + frame[14 + header_len :]
    return (HARDWARE[name] if chance < 0.95 else ELSEWHERE) + frame[6:]
