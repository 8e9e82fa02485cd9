"""The lines `class`, which ask for the classes of an address, with the expected answers. written.py writes them.

The answers come from the blocks that RFCs define, not from a reference program. The lines are the same in each run.
"""
import ipaddress
import itertools

from dice import Random

# The classes in the order of an answer, with the blocks that they are.
CLASSES = {
    4: {
        "unspecified": "0.0.0.0/32",  # RFC 1122, section 3.2.1.3
        "broadcast": "255.255.255.255/32",  # RFC 919, section 7
        "multicast": "224.0.0.0/4",  # RFC 5771, section 3
        "loopback": "127.0.0.0/8",  # RFC 1122, section 3.2.1.3
        "link-local": "169.254.0.0/16",  # RFC 3927, section 2.1
    },
    6: {
        "unspecified": "::/128",  # RFC 4291, section 2.5.2
        "loopback": "::1/128",  # RFC 4291, section 2.5.3
        "multicast": "ff00::/8",  # RFC 4291, section 2.7
        "unique-local": "fc00::/7",  # RFC 4193, section 3.1
        "link-local": "fe80::/64",  # RFC 4291, section 2.5.6: ten bits, then 54 zeros
        "global-unicast": "2000::/3",  # RFC 3587, section 3
        "solicited-node": "ff02::1:ff00:0/104",  # RFC 4291, section 2.7.1
    },
}
NO_UNICAST = {"unspecified", "broadcast", "multicast"}
# RFC 4291, section 2.7. The other scopes are reserved or unassigned.
SCOPES = {1: "interface-local", 2: "link-local", 4: "admin-local", 5: "site-local", 8: "organization-local", 14: "global"}
# Blocks that are no class, but begin or end near one.
NEAR = ["10.0.0.0/8", "169.254.0.0/24", "224.0.0.0/24", "239.0.0.0/8", "240.0.0.0/4", "fe80::/10", "fec0::/10", "fd00::/8",
        "ff02::1:0:0/96", "2001:db8::/32", "3fff::/16", "4000::/3"]
RANDOM_LINES = 300


def network(block):
    return ipaddress.ip_network(block)


def scope(address, classes):
    """The scope of an IPv6 address; that of a unicast address by RFC 6724, section 3.1."""
    if "multicast" in classes:
        return SCOPES.get(address.packed[1] & 0x0F, "unknown")
    if "link-local" in classes:
        return "link-local"
    return "global" if "unique-local" in classes or "global-unicast" in classes else "unknown"


def answer(address):
    classes = [name for name, block in CLASSES[address.version].items() if address in network(block)]
    words = classes + ["unicast"] * NO_UNICAST.isdisjoint(classes)
    return " ".join(words + [f"scope={scope(address, classes)}"] * (address.version == 6))


def ends(block):
    """The first and the last address of a block, and the addresses beside them."""
    block = network(block)
    make, first, last = type(block.network_address), int(block.network_address), int(block.broadcast_address)
    for number in [first - 1, first, first + 1, last - 1, last, last + 1]:
        if 0 <= number < 1 << block.max_prefixlen:
            yield make(number)


def turned(block):
    """The first and the last address of a block with each bit turned."""
    block = network(block)
    for end, bit in itertools.product([block.network_address, block.broadcast_address], range(block.max_prefixlen)):
        yield type(end)(int(end) ^ 1 << bit)


def addresses():
    for block in [*CLASSES[4].values(), *CLASSES[6].values()]:
        yield from ends(block)
        yield from turned(block)
    for block in NEAR:
        yield from ends(block)
    # Every pair of flags and scope.
    for octet in range(256):
        yield from ends(f"ff{octet:02x}::/16")
    rng = Random("class")
    for _ in range(RANDOM_LINES):
        yield ipaddress.ip_address(rng.choice([rng.randbytes(4), rng.randbytes(16), b"\xff" + rng.randbytes(15), b"\xfe\x80" + rng.randbytes(14)]))


HAND_WRITTEN = [
    "0.0.0.0", "0.0.0.1", "126.255.255.255", "127.0.0.1", "127.255.255.255", "128.0.0.0", "169.253.255.255", "169.254.0.1", "169.255.0.0",
    "192.168.1.1", "223.255.255.255", "224.0.0.1", "239.255.255.255", "240.0.0.0", "255.255.255.254", "255.255.255.255",
    "::", "::1", "2001:db8:3::1", "3fff::1", "4000::1", "fc00::", "fd00::c9:1:1:1:1", "fe80::1", "fe80:0:0:1::1", "feb0::1", "ff01::1", "ff02::1",
    "::ffff:0.0.0.0", "::ffff:127.0.0.1", "::ffff:169.254.0.1", "::ffff:224.0.0.1", "::ffff:255.255.255.255", "ff02::2", "ff02::1:ff01:65", "ff02::1:fe01:65", "ff03::1", "ff04::1", "ff05::1", "ff08::1", "ff0e::1", "ff12::1",
]


def calls():
    """The answer to each line, by kind."""
    found = dict.fromkeys([*HAND_WRITTEN, *map(str, addresses())])
    return {"class": {f"class {text}": answer(ipaddress.ip_address(text)) for text in found}}

