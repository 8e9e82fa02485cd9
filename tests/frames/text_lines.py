"""Lines `KIND TEXT` that ask how a text is read: at the edges of the grammars, and random ones.

A text is what a good one looks like, or nearly so: it is for the reference to say which it is. Bytes that are no
UTF-8 stand in it as Python's surrogates.
"""
import ipaddress
import itertools

# What the texts are written with, and what is near to it.
MARKS = ["0", "a", "F", "g", ":", ".", "/", "]", "%", " ", "\0", "\u0661", "\udcff"]


def numbers(most, places):
    """A number around its bound, with leading zeros and with too many of them, and what is none."""
    for n in [0, 1, 9, 10, most - 1, most, most + 1, 10**places - 1, 10**places]:
        yield from (str(n), str(n).zfill(places), str(n).zfill(places + 1))
    yield from ["", "-1", "+1", "0x1", " 1", "1 ", "1a", "\u0661"]


def replaced(text):
    """Each byte replaced, left out and doubled, and more at either end."""
    for at in range(len(text)):
        for mark in MARKS:
            yield text[:at] + mark + text[at + 1:]
        yield text[:at] + text[at + 1:]
        yield text[:at] + 2 * text[at] + text[at + 1:]
    for mark in MARKS:
        yield from (mark + text, text + mark)


# ---- at the edges

def eth_texts():
    yield from ["", "x", "BROADCAST", "02-00-00-00-00-01", "AB-CD-EF-00-00-00", "ab:cd:ef:00:00:00", "cd:ef:10:00:00:00",
                "00-00-00-ab-cd-ef", "00:00:00:ab:cd:ef", "02:00:00:00:00:00", "01:23:45:67:89:ab", "f:f:f:f:f:f", "0-0-0-0-0-0",
                "02:00-00:00:00:00", "02:00:00:00:00:000", "100:00:00:00:00:00", "002:00:00:00:00:00", "02:00:00:00:00:0x", "020000000001", "0200.0000.0001"]
    for mark, count in itertools.product("-:. ", range(8)):
        yield mark.join(["0a"] * count)
    for place, octet in itertools.product(range(6), ["", "0", "00", "000", "f", "fF", "g", "100"]):
        yield ":".join(["1"] * place + [octet] + ["1"] * (5 - place))
    for places in itertools.product("-:", repeat=5):
        yield "".join(octet + mark for octet, mark in zip("123456", [*places, ""]))
    yield from replaced("2-b:C-00-10-f")


def ipv4_texts():
    yield from ["x", "0.0.0.0", "255.255.255.255", "001.002.003.004", "0001.2.3.4", "256.0.0.0", " 1.2.3.4", "\u0661.2.3.4", "1.2.3",
                "1.2.3.4.5", "127.0.0.1", "1..2.3", ".1.2.3", "1.2.3.", "1,2,3,4", "0x1.2.3.4", "1", "16909060", "1.2.772"]
    for place, octet in itertools.product(range(4), numbers(255, 3)):
        yield ".".join(["7"] * place + [octet] + ["7"] * (3 - place))


def ipv6_texts():
    yield from ["::", "::1", "1::", "ffff::", "10000::", "12345::", "1:::2", "1::2::3", ":1::", ":1", "1:", "1:2:3:4:5:6:7::",
                "::2:3:4:5:6:7:8", "1::2:3:4:5:6:7", "1:2:3::4:5:6:7:8", "1:2:3:4:5:6:7:8", "1:2:3:4:5:6:7:8:",
                "1:2:3:4:5:6:7:8:9", "::ffff:1.2.3.4", "::FFFF:001.2.3.4", "::ffff:102:304", "0:0:0:0:0:ffff:1.2.3.4",
                "0:0:0:0::ffff:1.2.3.4", "0:0:0:0:0::ffff:1.2.3.4", "0:0::FFFF:1.2.3.4", "::ffff:1.2.3.4:5", "::ffff:0:1.2.3.4",
                "::1.2.3.4", "::ffff:1.2.3", "::ffff:1.2.3.256", "64:ff9b::1.2.3.4", "fe80::1%eth0", "fe80::1%0", "[::1]", "[fe80::1]", "\uff11::",
                "fe80::1", "2001:DB8::abCD", "0000:0000:0000:0000:0000:0000:0000:0001", "00000::1"]
    # Every text of one digit and colons, every row of a few pieces, and every head and tail around `::`.
    for size in range(9):
        yield from map("".join, itertools.product("1:", repeat=size))
    for size in range(1, 5):
        yield from map("".join, itertools.product(["0", "ffff", ":", "1.2.3.4"], repeat=size))
    for head, tail in itertools.product(range(9), repeat=2):
        yield ":".join(["a"] * head) + "::" + ":".join(["b"] * tail)
    for head, group, mark in itertools.product(range(8), ["0", "0000", "1"], ["::", ":"]):
        for last in ["ffff", "fffe", "FFFF:", ""]:
            yield ":".join([group] * head) + mark + last + ":1.2.3.4"


def ip_texts():
    yield from ipv4_texts()
    yield from ipv6_texts()
    for text in ["10.20.255.9", "::ffff:1.2.3.4", "1:db8::0:A"]:
        yield from replaced(text)
    for text in ["1" * 1000, ":" * 1000, "1:" * 500, "1." * 500, "0" * 1000 + "1.2.3.4", "::" + "0" * 1000]:
        yield text


def block_texts(address, most, places):
    yield from ["", "1", "/", address, f"{address}/", f"/{most}", f"{address}|8", f"{address}/1/2", f" {address}/8", f"{address}/8 "]
    for number in numbers(most, places):
        yield f"{address}/{number}"


CIDR4_TEXTS = ["x", "8.8.8.8/0", "8.8.8.8/32", "127.0.0.1/8", "192.168.1.1/24", "1.2.3.4/32", "127.0.0.1", "127.0.0.1/", "127.0.0.1/33",
               "127.0.0.1/111", "192.168.1.10/24", "1.2.3.4/032", "::1/8", "01.02.03.04/05"]
CIDR6_TEXTS = ["x", "::/128", "::1/128", "::1/129", "fe80::/64", "fe80::1/64", "fe80::|64", "fe80::1::/64", "fe80:0:0:0:0:0:0:1/64",
               "fe80:0:0:0:0:0:0:1|64", "::1/008", "::1/0128", "1.2.3.4/8", "::ffff:1.2.3.4/96", "::1%0/8", "[::1]/8"]


def cidr4_texts():
    yield from CIDR4_TEXTS
    yield from block_texts("192.168.1.10", 32, 2)
    yield from replaced("7.6.50.4/31")


def cidr6_texts():
    yield from CIDR6_TEXTS
    yield from block_texts("fe80::1", 128, 3)
    yield from replaced("a::B/127")


def cidr_texts():
    yield from [*CIDR4_TEXTS, *CIDR6_TEXTS]
    yield from block_texts("10.0.0.1", 32, 2)
    yield from block_texts("fe80::1", 128, 3)


def endpoint_texts():
    yield from ["", "x", "127.0.0.1", "127.0.0.1:12345", "127.0.0.1:65535", "127.0.0.1:65536", "1.2.3.4:", "1.2.3.4:00080", "1.2.3.4:000000",
                "1.2.3.4:99999", "::1", "[::1]", "[::1]:", "[::1]:65535", "[::]:12345", "[fe80::1]", "[fe80::1]:12345", "fe80::1", "fe80::1:80",
                "[127.0.0.1]:80", "[::1:80", "::1]:80", "[[::1]]:80", "[::1]80", "[::1%0]:80", "[]:80", ":80", "*:80", "[::ffff:1.2.3.4]:80",
                "::ffff:1.2.3.4:80", "1.2.3.4:5:6", "[::1]:5:6"]
    for number in numbers(65535, 5):
        yield from (f"1.2.3.4:{number}", f"[a::]:{number}")
    for text in ["1.2.3.40:65", "[b::1]:8"]:
        yield from replaced(text)


# ---- random ones

def some_number(rng, most, places):
    text = str(rng.choice([0, 1, most, most + 1, rng.randrange(most + 1), rng.randrange(most + 1), rng.randrange(most + 1)]))
    return text.zfill(rng.randrange(1, places + 2)) if rng.random() < 0.1 else text


def some_group(rng):
    text = "%x" % rng.choice([0, 0, 1, 0xFFFF, rng.randrange(256), rng.randrange(65536)])
    text = text.zfill(rng.randrange(1, 6)) if rng.random() < 0.1 else text
    return text.upper() if rng.random() < 0.2 else text


def some_eth(rng):
    count = rng.choice([6] * 9 + [5, 7])
    return rng.choice("-:").join("%0*x" % (rng.choice([1, 2, 2]), rng.randrange(256)) for _ in range(count))


def some_ipv4(rng):
    return ".".join(some_number(rng, 255, 3) for _ in range(rng.choice([4] * 9 + [3, 5])))


def some_ipv6(rng):
    how = rng.random()
    if how < 0.2:
        return str(ipaddress.IPv6Address(b"".join(rng.choice([b"\0\0", rng.randbytes(2)]) for _ in range(8))))
    if how < 0.4:
        return ":".join(some_group(rng) for _ in range(rng.choice([8] * 9 + [7, 9])))
    head = rng.randrange(9)
    if how < 0.8:
        tail = rng.randrange(9 - head)
        return ":".join(some_group(rng) for _ in range(head)) + "::" + ":".join(some_group(rng) for _ in range(tail))
    zeros = ":".join(["0"] * rng.choice([5, 5, head])) + rng.choice([":", "::"])
    return zeros + rng.choice(["ffff", "FFFF", "fffe"]) + ":" + some_ipv4(rng)


def some_ip(rng):
    return some_ipv4(rng) if rng.random() < 0.3 else some_ipv6(rng)


def some_cidr4(rng):
    return some_ipv4(rng) + "/" + some_number(rng, 32, 2)


def some_cidr6(rng):
    return some_ipv6(rng) + "/" + some_number(rng, 128, 3)


def some_cidr(rng):
    return rng.choice([some_cidr4, some_cidr6])(rng)


def some_endpoint(rng):
    port = some_number(rng, 65535, 5)
    return rng.choice([some_ip(rng), f"{some_ipv4(rng)}:{port}", f"[{some_ipv6(rng)}]:{port}", f"[{some_ipv6(rng)}]:{port}",
                       f"[{some_ip(rng)}]:{port}"])


def changed(rng, text):
    """The text, and at times with a few bytes replaced, put in or left out."""
    for _ in range(rng.choice([0, 0, 0, 1, 1, 2])):
        at = rng.randrange(len(text) + 1)
        text = text[:at] + rng.choice([*MARKS, ""]) + text[at + rng.randrange(2):]
    return text


def asked(kind, edges, some):
    """How a kind of text is asked for at the edges, and at random."""
    return (lambda: (f"{kind} {text}" for text in edges())), (lambda rng: f"{kind} {changed(rng, some(rng))}")


# Of each kind its lines at the edges, one made of a random generator, and how often it is asked beside the others.
TEXTS = {
    "eth": (*asked("eth", eth_texts, some_eth), 5),
    "ip": (*asked("ip", ip_texts, some_ip), 20),
    "cidr4": (*asked("cidr4", cidr4_texts, some_cidr4), 5),
    "cidr6": (*asked("cidr6", cidr6_texts, some_cidr6), 10),
    "cidr": (*asked("cidr", cidr_texts, some_cidr), 5),
    "endpoint": (*asked("endpoint", endpoint_texts, some_endpoint), 15),
}
