"""Lines that ask one call of the library each, in the words of crates/ip_calls: at the edges, and random ones."""
import collections
import ipaddress
import itertools

from text_lines import TEXTS

SACK_BLOCKS = 4
EDGES = {width: [0, 1, (1 << width - 1) - 1, 1 << width - 1, (1 << width) - 1] for width in (8, 16, 32)}
V4 = ("192.0.2.1", "192.0.2.2")
V6 = ("2001:db8::1", "fe80::200:ff:fe00:2")
OLD = [0, 255, 0x5A]


def hexed(octets):
    return bytes(octets).hex() or "-"


def word(value):
    """An operand: nothing, a pair, yes or no, bytes or a number."""
    if value is None:
        return "-"
    if isinstance(value, tuple):
        return "%d,%d" % value
    return hexed(value) if isinstance(value, bytes) else str(int(value) if isinstance(value, bool) else value)


def line(kind, *operands):
    return " ".join([kind, *map(word, operands)])


def number(rng, width):
    """A number of so many bits, often one at an edge or a small one."""
    return rng.choice([rng.choice(EDGES[width]), rng.randrange(20), rng.randrange(1 << width), rng.randrange(1 << width)])


def maybe(rng, make):
    return make() if rng.random() < 0.5 else None


def octets(rng, most):
    """Bytes, also many of one value and of values at the ends."""
    size = rng.choice([0, 1, 2, 3, 4, 8, rng.randrange(most), rng.randrange(most)])
    return rng.choice([rng.randbytes(size), bytes([rng.choice([0, 255, rng.randrange(256)])]) * size,
                       bytes(rng.choice([0, 1, 0xFE, 0xFF]) for _ in range(size))])


def address(rng, size):
    raw = b"".join(rng.choice([b"\0\0", b"\xff\xff", rng.randbytes(2), rng.randbytes(2)]) for _ in range(size // 2))
    if size == 16 and rng.random() < 0.1:
        raw = bytes(10) + b"\xff\xff" + raw[12:]
    return str(ipaddress.ip_address(raw))


def ends(rng):
    size = rng.choice([4, 16])
    return address(rng, size), address(rng, size)


def sent(rng):
    """Whether checksums are computed, and what the buffer was full of."""
    return rng.random() < 0.8, rng.choice([*OLD, rng.randrange(256)])


def random_sum(rng):
    return line("sum", octets(rng, 200))


def edges_sum():
    for size in itertools.chain(range(20), [63, 64, 65, 255, 256, 1499, 1500]):
        for octet in [b"\0", b"\xff", b"\xff\xfe", b"\0\1", b"\x80", b"\x7f\xff\x80\0"]:
            yield line("sum", (octet * size)[:size])
    for high, low in itertools.product([0, 1, 0x7F, 0x80, 0xFE, 0xFF], repeat=2):
        yield line("sum", bytes([high, low]))
        yield line("sum", bytes([0xFF, 0xFF, high, low, 0]))


def random_udp(rng):
    return line("udp", *ends(rng), number(rng, 16), number(rng, 16), octets(rng, 100), *sent(rng))


def edges_udp():
    for host, tx in itertools.product([V4, V6], [True, False]):
        for size in [*range(10), 64, 1472]:
            yield line("udp", *host, 41319, 53, bytes(range(1, 256)) * 6 if size == 1472 else bytes(range(size)), tx, 255)
        for src, dst in itertools.product(EDGES[16], repeat=2):
            yield line("udp", *host, src, dst, b"\xaa\0\0\xff", tx, 0)
    # Sources of 1 to 65535, of which one makes the sum 0 and is sent as ffff.
    for host, payload in itertools.product([V4, V6], [b"", b"\1", b"\xff\xff\xff"]):
        total = sum(int.from_bytes(ipaddress.ip_address(a).packed[i:i + 2], "big") for a in host for i in range(0, 16, 2))
        total += 17 + 2 * (8 + len(payload)) + 53 + sum(b << 8 * (1 - i % 2) for i, b in enumerate(payload))
        for off in [-1, 0, 1]:
            yield line("udp", *host, (off - total) % 65535, 53, payload, True, 0x5A)


def random_header(rng):
    host = ends(rng)
    most = 65535 if ":" in host[0] else 65515
    return line("header", *host, rng.choice([6, 17, 1, 58, 44, number(rng, 8)]),
                rng.choice([0, 1, most, most - 1, rng.randrange(most)]), number(rng, 8), *sent(rng))


def edges_header():
    for host, tx, old in itertools.product([V4, V6], [True, False], [0, 255]):
        for length in [0, 1, 255, 256, 65514, 65515] + [65516, 65535] * (host is V6):
            yield line("header", *host, 17, length, 64, tx, old)
    for host, protocol in itertools.product([V4, V6], range(256)):
        yield line("header", *host, protocol, 20, 255 - protocol, True, 0x5A)
    for src, dst in itertools.product(["0.0.0.0", "255.255.255.255", "127.0.0.1", "224.0.0.1", "1.2.3.4"], repeat=2):
        yield line("header", src, dst, 1, 8, 1, True, 255)
    for src, dst in itertools.product(["::", "::1", "ff02::1", "::ffff:1.2.3.4", "1:2:3:4:5:6:7:8"], repeat=2):
        yield line("header", src, dst, 58, 8, 255, True, 255)


def random_frag(rng):
    return line("frag", number(rng, 16), rng.random() < 0.5, number(rng, 32), rng.choice([*OLD, rng.randrange(256)]))


def edges_frag():
    for offset, more, old in itertools.product([*(1 << i for i in range(16)), 0, 8191, 8193, 65535], [False, True], OLD):
        yield line("frag", offset, more, 0x12345678, old)
    for ident in EDGES[32]:
        yield line("frag", 185, True, ident, 255)


def tcp(host=V4, ports=(48896, 80), control="none", seq=0x01234567, ack=None, win=0x0123, ws=None, mss=None, sackp=False,
        ranges=(None,) * SACK_BLOCKS, ts=None, payload=b"", tx=True, old=255):
    return line("tcp", *host, *ports, control, seq, ack, win, ws, mss, sackp, *ranges, ts, payload, tx, old)


CONTROLS = ["none", "psh", "syn", "fin", "rst"]


def random_tcp(rng):
    pair = lambda: (number(rng, 32), number(rng, 32))
    tx, old = sent(rng)
    return tcp(ends(rng), (number(rng, 16), number(rng, 16)), rng.choice(CONTROLS), number(rng, 32),
               maybe(rng, lambda: number(rng, 32)), number(rng, 16), maybe(rng, lambda: number(rng, 8)),
               maybe(rng, lambda: number(rng, 16)), rng.random() < 0.3, [maybe(rng, pair) for _ in range(SACK_BLOCKS)],
               maybe(rng, pair), octets(rng, 80), tx, old)


def edges_tcp():
    for host, control, ack, tx in itertools.product([V4, V6], CONTROLS, [None, 0x89ABCDEF], [True, False]):
        yield tcp(host, control=control, ack=ack, tx=tx, payload=b"\xaa\0\0\xff")
    # Every choice of options, so that headers are of all lengths, also longer than one can be.
    for mss, ws, sackp, ts in itertools.product([None, 1460], [None, 14], [False, True], [None, (0xFFFFFFFF, 1)]):
        for blocks, ack in itertools.product(itertools.product([False, True], repeat=SACK_BLOCKS), [None, 7]):
            ranges = [(100 * i, 100 * i + 50) if there else None for i, there in enumerate(blocks)]
            yield tcp(ack=ack, mss=mss, ws=ws, sackp=sackp, ranges=ranges, ts=ts)
    for bits in EDGES[32]:
        yield tcp(seq=bits, ack=bits, ts=(bits, 0xFFFFFFFF - bits), ranges=[(bits, 1), None, (1, bits), None])
    for bits in EDGES[16]:
        yield tcp(ports=(bits, 65535 - bits), win=bits, mss=bits, control="syn")
    for scale in [0, 1, 13, 14, 15, 16, 255]:
        yield tcp(ws=scale, control="syn")
    for host, size in itertools.product([V4, V6], [*range(9), 64, 1460]):
        yield tcp(host, payload=(bytes(range(1, 256)) * 6)[:size], ack=1)


def option(rng):
    """A TCP option, mostly a right one."""
    kind = rng.choice([0, 1, 1, 2, 3, 4, 5, 5, 8, rng.randrange(256)])
    if kind < 2:
        return bytes([kind])
    size = {2: 4, 3: 3, 4: 2, 5: rng.choice([2, 10, 18, 26, 34]), 8: 10}.get(kind, rng.randrange(2, 12))
    if rng.random() < 0.1:
        size = rng.choice([0, 1, 2, size - 1, size + 1, 255])
    return bytes([kind, size]) + rng.randbytes(max(0, size - 2))


def random_walk(rng):
    if rng.random() < 0.2:
        options = bytes(rng.choice([0, 1, 2, 3, 4, 5, 8, 10]) for _ in range(40))
    else:
        options = b"".join(option(rng) for _ in range(rng.randrange(6)))
        options += rng.choice([b"\0", b"\1", rng.randbytes(1)]) * 3
    return line("walk", options[: rng.choice([4, 8, 12, 20, 40, len(options)])][: min(40, len(options)) // 4 * 4])


def edges_walk():
    yield line("walk", b"")
    # All option lists of four bytes over these, so each kind at each length that is near its own.
    for octets in itertools.product([0, 1, 2, 3, 4, 5], [0, 1, 2, 3, 4], [0, 1, 4], [0, 2]):
        yield line("walk", bytes(octets))
    whole = ["020405b4", "03030701", "04020101", "0101080a0000000100000002", "0101050a0000000a00000014",
             "010105120000000a000000140000001e00000028", "0101051a0000000a000000140000001e000000280000003200000046",
             "010105220000000a000000140000001e0000002800000032000000460000005000000064"]
    ends = ["", "00000000", "00040200", "0004020000020400", "ff020000", "ff030000"]
    for first, second, end in itertools.product(whole, ["", *whole], ends):
        options = bytes.fromhex(first + second + end)
        if len(options) <= 40:
            yield line("walk", options)
    for kind, size in itertools.product([2, 3, 4, 5, 8, 254], [*range(13), 18, 26, 34, 38, 40, 255]):
        yield line("walk", bytes([kind, size]) + bytes(range(1, 39)))


def printed(number, size):
    return str(ipaddress.ip_address(number.to_bytes(size, "big")))


def ones(n, size):
    """The number of n ones and then zeros, as long as an address."""
    return (1 << 8 * size) - (1 << 8 * size - n)


def block(number, n, size):
    return f"{printed(number, size)}/{n}"


def random_block(rng):
    """A block and another, which differs from it in a bit near the end of its prefix, or not at all, or altogether."""
    size = rng.choice([4, 16])
    first = int(ipaddress.ip_address(address(rng, size)))
    n = rng.randrange(8 * size + 1)
    turned = n + rng.choice([-9, -2, -1, 0, 1, 8])
    second = first ^ (1 << 8 * size - 1 - turned if 0 <= turned < 8 * size else 0)
    m = rng.choice([n, n, max(n - 1, 0), min(n + 1, 8 * size), rng.randrange(8 * size + 1)])
    if rng.random() < 0.1:
        other = address(rng, rng.choice([4, 16]))
        return line("block", block(first, n, size), f"{other}/32")
    return line("block", block(first, n, size), block(second, m, size))


def edges_block():
    some = {4: 0xC0A8_A5C3, 16: 0x2001_0DB8_A5A5_C3C3_5A5A_3C3C_0F0F_F0F1}
    for size, number in some.items():
        for n in range(8 * size + 1):
            # The last bit that counts is turned, the first that does not, and none; with prefixes around this one.
            for turned in [n - 1, n]:
                if 0 <= turned < 8 * size:
                    yield line("block", block(number, n, size), block(number ^ 1 << 8 * size - 1 - turned, n, size))
            for m in [n - 1, n, n + 1]:
                if 0 <= m <= 8 * size:
                    yield line("block", block(number, n, size), block(number, m, size))
        for n in [0, 1, 8 * size - 1, 8 * size]:
            for other in [0, (1 << 8 * size) - 1, 1 << 8 * size - 1]:
                yield line("block", block(other, n, size), block(number, n, size))
    for first, second in itertools.permutations(["0.0.0.0/0", "::/0", "1.2.3.4/32", "::102:304/128", "::ffff:1.2.3.4/128"], 2):
        yield line("block", first, second)


def almost_mask(rng, size):
    """Ones and then zeros, and at times a bit of it turned."""
    number = ones(rng.randrange(8 * size + 1), size)
    return number ^ (1 << rng.randrange(8 * size) if rng.random() < 0.4 else 0)


def random_prefix(rng):
    size = rng.choice([4, 16])
    return line("prefix", rng.choice([printed(almost_mask(rng, size), size), address(rng, size)]))


def edges_prefix():
    for size in [4, 16]:
        for n in range(8 * size + 1):
            for bit in [None, 0, n - 2, n, n + 1, 8 * size - 1]:
                if bit is None:
                    yield line("prefix", printed(ones(n, size), size))
                elif 0 <= bit < 8 * size:
                    yield line("prefix", printed(ones(n, size) ^ 1 << 8 * size - 1 - bit, size))


def random_netmask(rng):
    return line("netmask", address(rng, 4), rng.choice([printed(almost_mask(rng, 4), 4), address(rng, 4)]))


def edges_netmask():
    for n, host in itertools.product(range(33), ["0.0.0.0", "192.168.1.2", "255.255.255.255"]):
        yield line("netmask", host, printed(ones(n, 4), 4))
        yield line("netmask", host, printed(ones(n, 4) ^ 0xFFFF_FFFF, 4))
        yield line("netmask", host, printed(ones(n, 4) ^ 0x0100_0000, 4))


HOSTS4 = ["192.168.1.0", "192.168.1.1", "192.168.1.2", "192.168.1.10", "192.168.1.127", "192.168.1.255", "192.168.0.0", "192.168.0.255",
          "192.168.2.0", "127.0.0.1", "0.0.0.0", "255.255.255.255"]
HOSTS6 = ["fe80::1", "fe80::2", "fe80::1122:3344:5566:7788", "fe80::ff00:0:0:0", "fe80::ff", "fe80:0:0:101::1", "::1", "ff02::1", "ff02::2"]
# Blocks whose netmask, network and broadcast address are worked out.
BOUNDS = ["0.0.0.0/0", "0.0.0.1/24", "0.0.0.0/32", "127.0.0.0/8", "192.168.0.0/16", "192.168.1.1/16", "192.168.1.1/17", "172.16.0.1/12",
          "255.255.255.1/24", "10.0.0.6/30", "255.255.255.254/31", "255.255.255.255/32"]
SUBNETS4 = ["192.168.1.0/32", "192.168.1.255/24", "192.168.1.10/30", "192.168.1.10/24", "192.168.1.10/23", "192.168.1.0/0",
            "192.168.0.255/32", "127.0.0.1/8", "c0a8:10a::/128"]
SUBNETS6 = ["fe80::ffff:ffff:ffff:ffff/65", "fe80::1234:5678/96", *(f"fe80:0:0:101:ffff:ffff:ffff:ffff/{n}" for n in (55, 56, 57)),
            "fe80::1/55", "254.128.0.0/32"]
MASKS = ["255.255.255.0", "255.255.0.0", "255.240.0.0", "128.0.0.0", "255.255.255.255", "0.0.0.0", "1.0.2.0", "255.255.255.1", "0.255.255.255"]

# Lines by hand. In the record they follow the others.
HAND_WRITTEN = {
    "block": [
        *(f"block 192.168.1.10/{n} {host}/32" for n, host in itertools.product([0, 24, 32], HOSTS4)),
        *(f"block fe80::1/{n} {host}/128" for n, host in itertools.product([0, 56, 128], HOSTS6)),
        *(f"block {block} {block}" for block in BOUNDS),
        *(f"block 192.168.1.10/{n} {subnet}" for n, subnet in itertools.product([23, 24], SUBNETS4)),
        *(f"block fe80::1/56 {subnet}" for subnet in SUBNETS6),
        *(f"block {block} {host}" for block, host in itertools.product(["0.0.0.0/0", "::/0"], ["127.0.0.1/32", "::1/128"])),
    ],
    # Ranges without an acknowledgement: the header has room for their option, filled with end marks.
    "tcp": ["tcp 192.168.1.1 192.168.1.2 48896 80 none 19088743 - 291 - - 0 1,2 3,4 - - - - 1 255",
            "tcp 192.168.1.1 192.168.1.2 48896 80 syn 19088743 - 291 - 1460 0 - 1,2 - - - aa0000ff 1 255"],
    "prefix": ["prefix 1.0.2.0"],
    "netmask": [f"netmask 172.16.0.1 {mask}" for mask in MASKS],
}

# The lines of a kind at the edges, one made of a random generator, and how often it is asked beside the others.
Kind = collections.namedtuple("Kind", "edges random share")

KINDS = {
    "sum": Kind(edges_sum, random_sum, 5),
    "udp": Kind(edges_udp, random_udp, 15),
    "header": Kind(edges_header, random_header, 10),
    "frag": Kind(edges_frag, random_frag, 5),
    "tcp": Kind(edges_tcp, random_tcp, 25),
    "walk": Kind(edges_walk, random_walk, 20),
    "block": Kind(edges_block, random_block, 10),
    "prefix": Kind(edges_prefix, random_prefix, 5),
    "netmask": Kind(edges_netmask, random_netmask, 5),
    **{name: Kind(*kind) for name, kind in TEXTS.items()},
}
