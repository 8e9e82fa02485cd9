"""The lines `host`, frames that a host gets, with the reply to each or `-`. written.py writes them.

Each row is a frame that gets a reply, with one thing varied, which its name tells. The table of the row says by the RFCs whether
there is a reply, and tests/frames/host_packets.py builds it. So nothing here comes from the library.
"""
import collections
import dataclasses
import itertools

from host_packets import (ACK, ALL_NODES, ARP, BROADCAST, CLOSED, CWR, ECE, ECHO, FIN, IPV4, IPV6, NODE_GROUP, OPEN, OTHER_LINK, OUR_LINK,
                          PSH, RST, SACK_PERMITTED, SYN, TCP, THEIR_LINK, URG, WRONG, Ipv4, Ipv6, accepted, addr, advertised, asked,
                          echo_reply, echo_request, group_link, headers_missing, lladdr, mss, option, ping, pong, reset, scale, segment,
                          solicited, timestamps, told, turned, udp, unknown, unreachable, wrong_field)


@dataclasses.dataclass
class Host:
    """The host that gets the frame, and the bytes of the buffer for its reply."""
    echo: int = ECHO
    udp: tuple = ()
    ports: tuple = (22, OPEN)
    seq: int = 0x0A0B0C0D
    window: int = 0x7210
    mss: int = 1460
    scale: int = 7
    clock: int = 0x55667788
    room: int = 1 << 17
    ipv4: str = "192.0.2.2"
    ipv6: str = "2001:db8::2"

    def words(self):
        udp_ports, tcp_ports = (",".join(map(str, ports)) or "-" for ports in (self.udp, self.ports))
        return f"{OUR_LINK.hex('-')} {self.ipv4} {self.ipv6} {self.echo} {udp_ports} {tcp_ports} {self.seq} {self.window} {self.mss} " \
               f"{self.scale} {self.clock} {self.room}"


VERSIONS = [Ipv4, Ipv6]
Row = collections.namedtuple("Row", "name host frame reply")


def row(name, frame, reply, **host):
    """A row; no reply is None."""
    return Row(name, Host(**host), frame, reply)


# ---- tables

# The requests of each version, with their replies, as functions of the frame's and the reply's fields.
REQUESTS = [("echo", ping, pong), ("syn", segment, accepted),
            ("closed", lambda v, **f: segment(v, dst_port=CLOSED, **f), reset), ("icmp", echo_request, echo_reply)]

# Link destinations that are not the host's (RFC 1122, section 3.3.6).
NOT_OUR_LINK = {"broadcast": BROADCAST, "all-hosts": bytes.fromhex("01005e000001"), "all-nodes": bytes.fromhex("333300000001"),
                "other": OTHER_LINK, "group-of-ours": bytes.fromhex("030000000002"), "first-octet": bytes.fromhex("120000000002"),
                "zero": bytes(6)}
GROUP_LINKS = {"broadcast": BROADCAST, "all-hosts": bytes.fromhex("01005e000001"), "group-of-theirs": bytes.fromhex("030000000001")}

# Destinations that are not the host's.
NOT_OURS = {"4": ["192.0.2.3", "192.0.2.255", "255.255.255.255", "0.0.0.0", "127.0.0.1", "224.0.0.1", "2.2.0.192", "193.0.2.2"],
            "6": ["2001:db8::3", "::1", "::", "ff02::1", "ff02::1:ff00:2", "::ffff:192.0.2.2", "fe80::2", "2001:db8:0:1::2", "3001:db8::2"]}

# Addresses of a host that stand for none of their version, because no single host may have them: no frame to them gets a reply.
NO_ADDRESSES = {"4": ["0.0.0.0", "127.0.0.1", "224.0.0.1", "240.0.0.1"], "6": ["::", "::1", "::ffff:192.0.2.2", "ff02::1"]}

# Sources, at the edges of each block, and whether another host may have them. For IPv4: 0.0.0.0/8, 127.0.0.0/8, 224.0.0.0/4 and
# 240.0.0.0/4 (RFC 1122, section 3.2.1.3). For IPv6: `::`, `::1`, ::ffff:0:0/96 and ff00::/8 (RFC 4291, sections 2.5.2, 2.5.3,
# 2.5.5.2 and 2.7). The last is the host's own address.
SOURCES = {
    "4": [("0.0.0.0", False), ("0.0.0.1", False), ("0.255.255.255", False), ("1.0.0.0", True), ("10.0.0.1", True),
          ("126.255.255.255", True), ("127.0.0.0", False), ("127.0.0.1", False), ("127.255.255.255", False), ("128.0.0.0", True),
          ("169.254.0.1", True), ("192.0.2.3", True), ("223.255.255.255", True), ("224.0.0.0", False), ("224.0.0.1", False),
          ("239.255.255.255", False), ("240.0.0.0", False), ("247.255.255.255", False), ("248.0.0.1", False),
          ("255.255.255.254", False), ("255.255.255.255", False), ("192.0.2.2", False)],
    "6": [("::", False), ("::1", False), ("::2", True), ("::fffe:ffff:ffff", True), ("::ffff:0.0.0.0", False),
          ("::ffff:192.0.2.1", False), ("::ffff:255.255.255.255", False), ("::1:0:0:0", True), ("1::1", True), ("2001:db8::3", True),
          ("fc00::1", True), ("fe80::1", True), ("feff:ffff:ffff:ffff:ffff:ffff:ffff:ffff", True), ("ff00::", False), ("ff02::1", False),
          ("ff0e::101", False), ("ffff:ffff:ffff:ffff:ffff:ffff:ffff:ffff", False), ("2001:db8::2", False)],
}


def link_rows(v, name, ask, reply):
    yield row(f"{name}-right", ask(v), reply(v))
    for what, link in NOT_OUR_LINK.items():
        yield row(f"{name}-to-link-{what}", ask(v, link_dst=link), None)
    for what, link in GROUP_LINKS.items():
        yield row(f"{name}-from-link-{what}", ask(v, link_src=link), None)
    yield row(f"{name}-from-link-other", ask(v, link_src=OTHER_LINK), reply(v, link=OTHER_LINK))
    for ethertype in [IPV4 + IPV6 - v.ethertype, ARP, 0x8100, 0x88B5, 46, 0]:
        yield row(f"{name}-ethertype-{ethertype:04x}", ask(v, ethertype=ethertype), None)


def address_rows(v, name, ask, reply):
    for dst in NOT_OURS[v.name]:
        yield row(f"{name}-to-{dst}", ask(v, dst=addr(dst)), None)
    for src, is_valid in SOURCES[v.name]:
        yield row(f"{name}-from-{src}", ask(v, src=addr(src)), reply(v, to=addr(src)) if is_valid else None)


def no_address_rows(v, name, ask, reply):
    for own in NO_ADDRESSES[v.name]:
        yield row(f"{name}-to-a-host-at-{own}", ask(v, dst=addr(own)), None, **{f"ipv{v.name}": own})
    other = {"ipv6": "::"} if v.name == "4" else {"ipv4": "0.0.0.0"}
    yield row(f"{name}-without-{min(other)}", ask(v), reply(v), **other)


def header_rows(v, name, ask, reply):
    # A host takes a packet with any hop limit (RFC 1122, section 3.2.1.7; RFC 8200, section 3).
    for hop_limit in [0, 1, 2, 63, 255]:
        yield row(f"{name}-hop-limit-{hop_limit}", ask(v, hop_limit=hop_limit), reply(v))
    # An echo reply has the DSCP of its request (RFC 1812, section 4.3.2.5). The ECN of a reply is 0.
    same_dscp = {"service": 0xFC} if name.startswith("icmp") else {}
    yield row(f"{name}-service-ff", ask(v, service=0xFF), reply(v, **same_dscp))
    for padding in [1, 2, 46]:
        yield row(f"{name}-padding-{padding}", ask(v, padding=b"\xa5" * padding), reply(v))
    for version in [0, 5, 10 - int(v.name), 15]:
        yield row(f"{name}-version-{version}", ask(v, version=version), None)


def ipv4_rows(v, name, ask, reply):
    size = len(ask(v)) - 14
    # Reassembly is not supported: a fragment gets no reply.
    for what, flags in {"first": 0x2000, "middle": 0x2001, "last": 0x0001, "offset-ff": 0x00FF, "offset-1000": 0x1000, "farthest": 0x1FFF,
                        "first-of-df": 0x6000}.items():
        yield row(f"{name}-fragment-{what}", ask(v, flags=flags), None)
    yield row(f"{name}-may-fragment", ask(v, flags=0), reply(v))
    yield row(f"{name}-identification-ffff", ask(v, ident=0xFFFF), reply(v))
    for options in [b"\1\1\1\0", b"\1" * 40]:
        yield row(f"{name}-options-{len(options)}", ask(v, options=options), reply(v))
    for mask in WRONG:
        yield row(f"{name}-header-checksum-wrong-{mask:04x}", turned(ask(v), 24, mask), None)
    for total in [0, 19, 20, size - 1, size + 1, 0xFFFF]:
        yield row(f"{name}-total-length-{total}", ask(v, total=total), None)
    for words in [0, 4]:
        yield row(f"{name}-header-words-{words}", ask(v, words=words), None)


def ipv6_rows(v, name, ask, reply):
    size = len(ask(v)) - 54
    yield row(f"{name}-flow-label-fffff", ask(v, label=0xFFFFF), reply(v))
    for length in [0, size - 1, size + 1, 0xFFFF]:
        yield row(f"{name}-payload-length-{length}", ask(v, payload_len=length), None)
    for what, (is_skipped, *extensions) in EXTENSIONS.items():
        yield row(f"{name}-after-{what}", extended(ask(v), *extensions), reply(v) if is_skipped else None)


# Whether a host skips extension headers (RFC 8200, section 4; RFC 6946), and each of them: its number, and its bytes after the number
# of what follows. Of unknown options the highest bits of the type count.
PADDING, ATOMIC, ROUTED = (60, "00010400000000"), (44, "a5000600000001"), (43, "00fd0000000000")
FIRST, LAST = (44, "00000100000001"), (44, "00000800000001")
EXTENSIONS = {"hop-by-hop-padding": (True, (0, "00010400000000")), "destination-padding": (True, PADDING), "routing-without-segments": (True, ROUTED),
              "atomic-fragment": (True, ATOMIC), "unknown-option-00": (True, (60, "001e0400000000")), "unknown-option-01": (False, (60, "005e0400000000")),
              "four": (True, (0, "003e0400000000"), ROUTED, ATOMIC, PADDING), "two-atomic-fragments": (True, ATOMIC, ATOMIC),
              "last-fragment": (False, LAST),
              "option-01-in-an-atomic-fragment": (False, ATOMIC, (60, "00010041020000")), "longer-header": (False, (60, "ff010400000000"))}


def extended(frame, *extensions):
    """The frame with extension headers of 8 bytes after its IPv6 header."""
    for number, rest in reversed(extensions):
        length = int.from_bytes(frame[18:20], "big") + 8
        frame = frame[:18] + length.to_bytes(2, "big") + bytes([number]) + frame[21:54] + frame[20:21] + bytes.fromhex(rest) + frame[54:]
    return frame


def fragment_rows(v, name, ask):
    """The first fragment of a packet with a length that is no multiple of 8, in blocks of 8, and 16 bytes of it (RFC 8200, section
    4.5)."""
    frame = extended(ask(v), FIRST)
    blocks = with_length(frame + bytes(-(len(frame) - 62) % 8))
    short = with_length(blocks[: 62 + 16])
    yield row(f"{name}-first-fragment", frame, wrong_field(v, frame, 4))
    yield row(f"{name}-first-fragment-in-blocks", blocks, None)
    yield row(f"{name}-first-fragment-of-16-bytes", short, headers_missing(v, short) if ask(v)[20] == TCP else None)


def with_length(frame):
    """The frame with the length of its payload in the IPv6 header."""
    return frame[:18] + (len(frame) - 54).to_bytes(2, "big") + frame[20:]


def cut_rows(v, name, ask, reply):
    frame, answer = ask(v), reply(v)
    for size in sorted({0, 13, 14, 33, 34, 53, 54, len(frame) - 1}):
        if size < len(frame):
            yield row(f"{name}-cut-{size}", frame[:size], None)
    for room, fits in [(0, False), (len(answer) - 1, False), (len(answer), True), (len(answer) + 1, True)]:
        yield row(f"{name}-room-{room}", frame, answer if fits else None, room=room)


def unserved(v, name, frame, **host):
    """A UDP packet for a port that the host does not serve gets an error (RFC 1122, section 4.1.3.1; RFC 4443, section 3.1)."""
    return row(name, frame, unreachable(v, frame), **host)


def unserved_rows(v):
    name = f"unserved{v.name}"
    ask = lambda v, **fields: ping(v, dst_port=CLOSED, **fields)
    answer = lambda v, **fields: unreachable(v, ask(v))
    for table in [link_rows, address_rows, no_address_rows, header_rows, ipv4_rows if v.name == "4" else ipv6_rows, cut_rows]:
        for one in table(v, name, ask, answer):
            yield one._replace(reply=unreachable(v, one.frame) if one.reply else None)
    # A packet is quoted up to 548 bytes over IPv4, and up to 1,232 over IPv6.
    limit = {"4": 548 - 28, "6": 1232 - 48}[v.name]
    for size in [0, 1, limit - 1, limit, limit + 1, 1400]:
        yield unserved(v, f"{name}-payload-{size}", ask(v, payload=bytes(3 * i % 251 for i in range(size))))
    if v.name == "6":
        yield from fragment_rows(v, name, ask)
    yield unserved(v, f"{name}-from-port-0", ask(v, src_port=0))
    yield unserved(v, f"{name}-from-port-7", ask(v, src_port=ECHO))
    for mask in WRONG:
        yield row(f"{name}-checksum-wrong-{mask:04x}", turned(ask(v), v.front + 6, mask), None)


def icmp_rows(v):
    """Echo requests. A host replies only to those: errors and other messages have no reply here."""
    name = f"icmp{v.name}"
    for size in [0, 1, 2, 3, 1472, 65535 - 8 - 20 * (v.name == "4")]:
        payload = bytes(3 * i % 251 for i in range(size)) if size < 2000 else b"\xa5" * size
        yield row(f"{name}-payload-{size}", echo_request(v, payload), echo_reply(v, payload))
    for dscp in [1, 32]:
        yield row(f"{name}-dscp-{dscp}", echo_request(v, service=4 * dscp), echo_reply(v, service=4 * dscp))
    for word in [0, 1, 0xFFFF, 0x1_0000, 0xFFFF_FFFF]:
        yield row(f"{name}-word-{word:08x}", echo_request(v, word=word), echo_reply(v, word=word))
    for kind in range(256):
        if kind != {"4": 8, "6": 128}[v.name]:
            yield row(f"{name}-type-{kind}", echo_request(v, kind=kind, payload=bytes(28)), None)
    for code in [1, 255]:
        yield row(f"{name}-code-{code}", echo_request(v, code=code), None)
    for mask in WRONG:
        yield row(f"{name}-checksum-wrong-{mask:04x}", turned(echo_request(v), v.front + 2, mask), None)
    yield row(f"{name}-checksum-left-out", echo_request(v, checksum=0), None)
    for protocol in [{"4": 0, "6": 59}[v.name], 2, {"4": 58, "6": 1}[v.name], 255]:
        frame = echo_request(v, protocol=protocol)
        yield row(f"{name}-protocol-{protocol}", frame, None if protocol == 59 else unknown(v, frame))


def solicited_rows():
    """Neighbour solicitations (RFC 4861, sections 7.1.1 and 7.2.4)."""
    name, none = "solicited", addr("::")
    yield row(f"{name}-right", solicited(), advertised())
    yield row(f"{name}-to-ours", solicited(dst=Ipv6.ours), advertised())
    yield row(f"{name}-to-ours-without-option", solicited(dst=Ipv6.ours, options=b""), advertised())
    yield row(f"{name}-to-group-without-option", solicited(options=b""), advertised())
    yield row(f"{name}-option-names-another", solicited(options=lladdr(1, OTHER_LINK)), advertised(link=OTHER_LINK))
    yield row(f"{name}-link-of-another", solicited(link_src=OTHER_LINK), advertised())
    yield row(f"{name}-link-of-another-without-option", solicited(link_src=OTHER_LINK, options=b""), advertised(link=OTHER_LINK))
    to_all = advertised(to=ALL_NODES, link=group_link(ALL_NODES), flags=0x2000_0000)
    yield row(f"{name}-from-unspecified", solicited(src=none, options=b""), to_all)
    yield row(f"{name}-from-unspecified-with-option", solicited(src=none), None)
    yield row(f"{name}-from-unspecified-to-ours", solicited(src=none, options=b"", dst=Ipv6.ours), None)
    for what, link in GROUP_LINKS.items():
        yield row(f"{name}-option-names-{what}", solicited(options=lladdr(1, link)), None)
        yield row(f"{name}-from-link-{what}", solicited(link_src=link), None)
    for what, link in NOT_OUR_LINK.items():
        yield row(f"{name}-to-group-link-{what}", solicited(link_dst=link), None)
    # A bridge may send the frames of a group to each host by itself (RFC 6085).
    yield row(f"{name}-to-group-link-ours", solicited(link_dst=OUR_LINK), advertised())
    yield row(f"{name}-from-unspecified-to-group-link-ours", solicited(src=none, options=b"", link_dst=OUR_LINK), to_all)
    yield row(f"{name}-to-another-group-link-ours", solicited(dst=addr("ff02::1:ff00:3"), link_dst=OUR_LINK), None)
    for own in NO_ADDRESSES["6"]:
        group = addr("ff02::1:ff00:0")[:13] + addr(own)[13:]
        yield row(f"{name}-for-a-host-at-{own}", solicited(target=addr(own), dst=group), None, ipv6=own)
    for what, link in NOT_OUR_LINK.items():
        yield row(f"{name}-to-ours-link-{what}", solicited(dst=Ipv6.ours, link_dst=link), None)
    for dst in ["2001:db8::3", "ff02::1", "ff02::1:ff00:3", "ff05::1:ff00:2", "fe80::2"]:
        yield row(f"{name}-to-{dst}", solicited(dst=addr(dst)), None)
    for target in ["2001:db8::3", "::", "ff02::1:ff00:2", "fe80::2"]:
        yield row(f"{name}-for-{target}", solicited(target=addr(target)), None)
    for src, is_valid in SOURCES["6"]:
        if src != "::":
            yield row(f"{name}-from-{src}", solicited(src=addr(src)), advertised(to=addr(src)) if is_valid else None)
    for hop_limit in [0, 1, 64, 254]:
        yield row(f"{name}-hop-limit-{hop_limit}", solicited(hop_limit=hop_limit), None)
    for code in [1, 255]:
        yield row(f"{name}-code-{code}", solicited(code=code), None)
    for mask in WRONG:
        yield row(f"{name}-checksum-wrong-{mask:04x}", turned(solicited(), Ipv6.front + 2, mask), None)
    # Unknown options are skipped, and the first of several counts (RFC 4861, section 4.6).
    nonce = bytes([14, 1, 1, 2, 3, 4, 5, 6])
    yield row(f"{name}-nonce-before", solicited(options=nonce + lladdr(1, OTHER_LINK)), advertised(link=OTHER_LINK))
    yield row(f"{name}-nonce-behind", solicited(options=lladdr(1, OTHER_LINK) + nonce), advertised(link=OTHER_LINK))
    yield row(f"{name}-option-of-an-advertisement", solicited(options=lladdr(2, OTHER_LINK)), advertised())
    yield row(f"{name}-two-options", solicited(options=lladdr(1, OTHER_LINK) + lladdr(1, OUR_LINK)), advertised(link=OTHER_LINK))
    for what, options in {"of-length-0": bytes([1, 0]) + THEIR_LINK, "unknown-of-length-0": bytes([14, 0]) + bytes(6), "cut": lladdr(1, THEIR_LINK)[:7],
                          "too-long": bytes([1, 2]) + THEIR_LINK, "of-16-octets": bytes([1, 2]) + bytes(14), "of-one-octet": b"\1"}.items():
        yield row(f"{name}-option-{what}", solicited(options=options), None)
    yield row(f"{name}-target-cut", solicited(target=Ipv6.ours[:15], options=b""), None)
    yield row(f"{name}-padding", solicited(padding=bytes(6)), advertised())
    # A host ignores a solicitation after extension headers (RFC 6980, section 5, says so of fragment headers).
    for what, (_, *extensions) in {**EXTENSIONS, "first-fragment": (False, FIRST)}.items():
        yield row(f"{name}-after-{what}", extended(solicited(), *extensions), None)
        yield row(f"{name}-to-ours-after-{what}", extended(solicited(dst=Ipv6.ours), *extensions), None)
    frame, size = solicited(), len(advertised())
    for room, fits in [(0, False), (size - 1, False), (size, True), (size + 1, True)]:
        yield row(f"{name}-room-{room}", frame, advertised() if fits else None, room=room)


def udp_rows(v):
    name = f"echo{v.name}"
    yield row(f"{name}-to-port-0", ping(v, dst_port=0), None)
    for port in [6, 8, 0x0700, 0x8007, 80, 0xFFFF]:
        yield unserved(v, f"{name}-to-port-{port}", ping(v, dst_port=port))
        yield row(f"{name}-to-port-{port}-that-is-served", ping(v, dst_port=port), None, udp=(9, port))
    # Port 0 is no reply port (RFC 768). A packet from a port below 1024 may be the answer of a service (RFC 862 to 868).
    for port in [0, 1, 6, ECHO, 8, 9, 13, 17, 19, 37, 80, 1023]:
        yield row(f"{name}-from-port-{port}", ping(v, src_port=port), None)
    for port in [1024, 0x0700, 0xFFFF]:
        yield row(f"{name}-from-port-{port}", ping(v, src_port=port), pong(v, dst_port=port))
    # A packet from a port that is not above the echo port may be an echo.
    for echo in [1, 8, 80, 1024, 2000, 0xFFFF]:
        yield unserved(v, f"{name}-port-{echo}-not-7", ping(v), echo=echo)
        for port in [7, 8, 1023, 1024, 1025, 1999, 2000, 2001, 41319, 0xFFFF]:
            answer = pong(v, dst_port=port, src_port=echo) if port >= 1024 and port > echo else None
            yield row(f"{name}-port-{echo}-from-{port}", ping(v, src_port=port, dst_port=echo), answer, echo=echo)
    yield row(f"{name}-port-0-is-off", ping(v, dst_port=0), None, echo=0)
    yield row(f"{name}-no-open-ports", ping(v), pong(v), ports=())
    yield row(f"{name}-open-tcp-port", ping(v), pong(v), ports=(ECHO,))
    for size in [0, 1, 2, 3, 7, 1472, 65535 - 8 - 20 * (v.name == "4")]:
        payload = bytes(3 * i % 251 for i in range(size)) if size < 2000 else b"\xa5" * size
        yield row(f"{name}-payload-{size}", ping(v, payload), pong(v, payload))
    yield row(f"{name}-payload-zeros", ping(v, bytes(5)), pong(v, bytes(5)))




def udp_field_rows(v):
    name = f"echo{v.name}"
    for mask in WRONG:
        yield row(f"{name}-checksum-wrong-{mask:04x}", turned(ping(v), v.front + 6, mask), None)
    # Over IPv4 a sender may leave the checksum out, over IPv6 not (RFC 768; RFC 8200, section 8.1).
    yield row(f"{name}-checksum-left-out", ping(v, checksum=0), pong(v) if v.name == "4" else None)
    # A computed 0 is sent as ffff (RFC 768). This source port makes it 0.
    port = next(port for port in range(1, 65536) if udp(b"ping", port, ECHO, src=v.theirs, dst=v.ours)[6:8] == b"\xff\xff")
    yield row(f"{name}-checksum-ffff", ping(v, src_port=port), pong(v, dst_port=port))
    for length in [0, 7, 13, 0xFFFF]:
        yield row(f"{name}-length-{length}", ping(v, length=length), None)
    # The UDP length ends the payload; what follows is no part of the packet (RFC 768).
    for size in range(4):
        yield row(f"{name}-length-{8 + size}", ping(v, b"ping"[:size], after=b"ping"[size:]), pong(v, b"ping"[:size]))
    for protocol in [0, 1, 6, 58, 136, 255]:
        frame = ping(v, protocol=protocol)
        yield row(f"{name}-protocol-{protocol}", frame, unknown(v, frame) if protocol in (1, 136, 255) else None)


def asked_rows():
    yield row("arp-right", asked(), told())
    # The addresses of the frame do not matter (RFC 826).
    for what, link in {"ours": OUR_LINK, "other": OTHER_LINK, "group": bytes.fromhex("01005e000001")}.items():
        yield row(f"arp-to-link-{what}", asked(link_dst=link), told())
    yield row("arp-from-link-other", asked(link_src=OTHER_LINK), told())
    for ethertype in [IPV4, IPV6, 0x8035, 0x0608, 46]:
        yield row(f"arp-ethertype-{ethertype:04x}", asked(ethertype=ethertype), None)
    for operation in [0, 2, 3, 8, 9, 0x0100, 0x0101, 0xFFFF]:
        yield row(f"arp-operation-{operation}", asked(operation=operation), None)
    for hardware in [0, 2, 6, 0x0100, 0xFFFF]:
        yield row(f"arp-hardware-type-{hardware}", asked(hardware=hardware), None)
    for protocol in [0, ARP, IPV6, 0x0008, 0x0801]:
        yield row(f"arp-protocol-type-{protocol:04x}", asked(protocol=protocol), None)
    for size in [0, 5, 7, 8, 255]:
        yield row(f"arp-hardware-length-{size}", asked(hardware_len=size, padding=bytes(600)), None)
    for size in [0, 3, 5, 16, 255]:
        yield row(f"arp-protocol-length-{size}", asked(protocol_len=size, padding=bytes(600)), None)
    for padding in [1, 18]:
        yield row(f"arp-padding-{padding}", asked(padding=b"\xa5" * padding), told())
    for size in [0, 13, 14, 41]:
        yield row(f"arp-cut-{size}", asked()[:size], None)
    for room, fits in [(0, False), (41, False), (42, True), (43, True)]:
        yield row(f"arp-room-{room}", asked(), told() if fits else None, room=room)


def asker_rows():
    """The addresses of a request. An announcement has the sender's address as its target (RFC 5227, section 1.1)."""
    for tpa in [*NOT_OURS["4"], "192.0.2.1"]:
        yield row(f"arp-for-{tpa}", asked(tpa=addr(tpa)), None)
    for own in NO_ADDRESSES["4"]:
        yield row(f"arp-for-a-host-at-{own}", asked(tpa=addr(own)), None, ipv4=own)
    for what, link in {"ours": OUR_LINK, "broadcast": BROADCAST, "other": OTHER_LINK}.items():
        yield row(f"arp-target-link-{what}", asked(tha=link), told())
    for what, link in GROUP_LINKS.items():
        yield row(f"arp-sender-link-{what}", asked(sha=link), None)
    yield row("arp-sender-link-other", asked(sha=OTHER_LINK), told(OTHER_LINK))
    # The sender of a probe is 0.0.0.0, and it gets a reply (RFC 5227, section 2.1.1). A sender with our address is a conflict,
    # which is no question (section 2.4).
    for spa, is_valid in SOURCES["4"]:
        answered = is_valid or spa == "0.0.0.0"
        yield row(f"arp-sender-{spa}", asked(spa=addr(spa)), told(spa=addr(spa)) if answered else None)
    for spa in ["0.0.0.0", "192.0.2.2", "192.0.2.3"]:
        yield row(f"arp-sender-{spa}-for-other", asked(spa=addr(spa), tpa=addr("192.0.2.3")), None)
    yield row("arp-announces-ours-in-a-reply", asked(operation=2, spa=addr("192.0.2.2")), None)


def tcp_reply(v, is_open, flags, size, **numbers):
    """The reply of an open or a closed port to a segment with this many bytes (RFC 9293, sections 3.10.7.1 and 3.10.7.2). A segment with
    two of SYN, FIN and RST does not parse, and gets none."""
    controls = [flag for flag in (SYN, FIN, RST) if flags & flag]
    if len(controls) > 1 or RST in controls:
        return None
    if flags & ACK or not is_open:
        return reset(v, flags, size + len(controls), src_port=OPEN if is_open else CLOSED, **numbers)
    return accepted(v, **numbers) if flags & SYN else None


FLAGS = {"fin": FIN, "syn": SYN, "rst": RST, "psh": PSH, "ack": ACK, "urg": URG}


def flag_rows(v):
    for is_open, port in [(True, OPEN), (False, CLOSED)]:
        for size, chosen in itertools.product([0, 3], itertools.product([0, 1], repeat=len(FLAGS))):
            names = [name for name, one in zip(FLAGS, chosen) if one]
            flags = sum(FLAGS[name] for name in names)
            yield row(f"tcp{v.name}-{'open' if is_open else 'closed'}-{'+'.join(names) or 'no-flags'}-payload-{size}",
                      segment(v, flags, bytes(range(size)), dst_port=port), tcp_reply(v, is_open, flags, size))


def number_rows(v):
    edges = [0, 1, 0x7FFFFFFF, 0x80000000, 0xFFFFFFFC, 0xFFFFFFFE, 0xFFFFFFFF]
    for is_open, flags, (size, seq) in itertools.product([True, False], [SYN, FIN, 0], [*itertools.product([0, 1, 3], edges), (1460, 0)]):
        yield row(f"tcp{v.name}-{'open' if is_open else 'closed'}-flags-{flags:02x}-payload-{size}-seq-{seq:08x}",
                  segment(v, flags, b"\xa5" * size, dst_port=OPEN if is_open else CLOSED, seq=seq), tcp_reply(v, is_open, flags, size, seq=seq))
    for is_open, ack in itertools.product([True, False], edges):
        yield row(f"tcp{v.name}-{'open' if is_open else 'closed'}-acknowledges-{ack:08x}",
                  segment(v, ACK, dst_port=OPEN if is_open else CLOSED, ack=ack), tcp_reply(v, is_open, ACK, 0, ack=ack))


def port_rows(v):
    name = f"tcp{v.name}"
    for port in [0x5000, 21, 23, 79, 1, 0xFFFF]:
        yield row(f"{name}-port-{port}-is-closed", segment(v, dst_port=port), reset(v, src_port=port))
    for port in [22, OPEN]:
        yield row(f"{name}-port-{port}-is-open", segment(v, dst_port=port), accepted(v, src_port=port))
    for ports in [(), (1,), (1, 2, 3)]:
        yield row(f"{name}-{len(ports)}-other-ports-open", segment(v), reset(v, src_port=OPEN), ports=ports)
    for ports in [(OPEN,), (OPEN, OPEN), (1, OPEN), (OPEN, 1)]:
        yield row(f"{name}-open-{'+'.join(map(str, ports))}", segment(v), accepted(v), ports=ports)
    for port in [0, 1, OPEN, 0xFFFF]:
        yield row(f"{name}-from-port-{port}", segment(v, src_port=port), accepted(v, dst_port=port) if port else None)
        yield row(f"{name}-closed-from-port-{port}", segment(v, src_port=port, dst_port=CLOSED), reset(v, dst_port=port) if port else None)
    for ports in [(22, OPEN), (0,)]:
        yield row(f"{name}-to-port-0-open-{'+'.join(map(str, ports))}", segment(v, dst_port=0), None, ports=ports)


# Options of a SYN, and those of the SYN-ACK besides the maximum segment size: window scale, SACK permitted and timestamps exactly if
# the SYN has them (RFC 7323, sections 2.2 and 3.2; RFC 2018, section 2).
SYN_OPTIONS = {
    "none": (b"", b""),
    "mss-0": (mss(0), b""), "mss-1": (mss(1), b""), "mss-65535": (mss(65535), b""),
    "scale-0": (scale(0), scale(7)), "scale-7": (scale(7), scale(7)), "scale-14": (scale(14), scale(7)),
    "scale-15": (scale(15), scale(7)), "scale-255": (scale(255), scale(7)), "scale-twice": (scale(3) + scale(9), scale(7)),
    "sack-permitted": (SACK_PERMITTED, SACK_PERMITTED),
    "timestamps-0": (timestamps(0, 0), timestamps(0x55667788, 0)),
    "timestamps-1": (timestamps(1, 2), timestamps(0x55667788, 1)),
    "timestamps-ffffffff": (timestamps(0xFFFFFFFF, 0), timestamps(0x55667788, 0xFFFFFFFF)),
    "all": (mss(1460) + SACK_PERMITTED + timestamps(5, 0) + b"\1" + scale(10), scale(7) + SACK_PERMITTED + timestamps(0x55667788, 5)),
    "no-operation": (b"\1" * 4, b""), "end": (b"\0" + b"\xff" * 3, b""), "unknown": (option(254, (1, 2)), b""),
    "scale-behind-unknown": (option(254, (1, 3)) + scale(1), scale(7)),
}
# Options with an illegal length (RFC 9293, section 3.1): the segment does not parse.
ILLEGAL_OPTIONS = {"length-0": b"\xfe\0\0\0", "length-1": b"\xfe\1\0\0", "too-long": b"\xfe\5\0\0", "mss-length-3": b"\2\3\0\0",
                   "scale-length-2": b"\3\2\0\0", "no-length": b"\1\1\1\xfe"}


def option_rows(v):
    name = f"tcp{v.name}"
    for what, (options, echoed) in SYN_OPTIONS.items():
        yield row(f"{name}-open-options-{what}", segment(v, options=options), accepted(v, echoed))
        yield row(f"{name}-closed-options-{what}", segment(v, options=options, dst_port=CLOSED), reset(v))
    for what, options in ILLEGAL_OPTIONS.items():
        yield row(f"{name}-open-options-{what}", segment(v, options=options), None)
        yield row(f"{name}-closed-options-{what}", segment(v, options=options, dst_port=CLOSED), None)
    for offset in [0, 4, 6, 15]:
        yield row(f"{name}-header-words-{offset}", segment(v, offset=offset), None)


def offer_rows(v):
    """What an open port offers. The largest window scale is 14 (RFC 7323, section 2.3)."""
    name = f"tcp{v.name}"
    for bits in [0, 1, 13, 14, 15, 255]:
        yield row(f"{name}-offers-scale-{bits}", segment(v, options=scale(3)), accepted(v, scale(min(bits, 14))), scale=bits)
        yield row(f"{name}-offers-scale-{bits}-to-none", segment(v), accepted(v), scale=bits)
    for size in [0, 1, 536, 65535]:
        yield row(f"{name}-offers-mss-{size}", segment(v), accepted(v, size=size), mss=size)
        yield row(f"{name}-offers-window-{size}", segment(v), accepted(v, window=size), window=size)
    for iss in [0, 1, 0x7FFFFFFF, 0x80000000, 0xFFFFFFFF]:
        yield row(f"{name}-offers-seq-{iss:08x}", segment(v), accepted(v, iss=iss), seq=iss)
        yield row(f"{name}-offers-clock-{iss:08x}", segment(v, options=timestamps(9, 8)), accepted(v, timestamps(iss, 9)), clock=iss)


def ignored_rows(v):
    """Fields that make no difference; reserved flags are ignored (RFC 9293, section 3.1)."""
    name = f"tcp{v.name}"
    for window in [0, 0xFFFF]:
        yield row(f"{name}-open-window-{window}", segment(v, window=window), accepted(v))
        yield row(f"{name}-closed-window-{window}", segment(v, window=window, dst_port=CLOSED), reset(v))
    for flags in [ECE | CWR, 0x100, 0x200, 0x400, 0x800]:
        yield row(f"{name}-open-flags-{SYN | flags:03x}", segment(v, SYN | flags), accepted(v))
    yield row(f"{name}-open-urgent-ffff", segment(v, SYN | URG, urgent=0xFFFF), accepted(v))
    yield row(f"{name}-open-ack-field-without-ack", segment(v, ack=0xFFFFFFFF), accepted(v))
    for mask in WRONG:
        yield row(f"{name}-open-checksum-wrong-{mask:04x}", turned(segment(v), v.front + 16, mask), None)
        yield row(f"{name}-closed-checksum-wrong-{mask:04x}", turned(segment(v, dst_port=CLOSED), v.front + 16, mask), None)
    yield row(f"{name}-checksum-left-out", segment(v, checksum=0), None)
    # This window makes the checksum 0, which is sent as it is.
    window = next(window for window in range(65536) if segment(v, window=window)[v.front + 16:][:2] == b"\0\0")
    yield row(f"{name}-checksum-0", segment(v, window=window), accepted(v))


def rows():
    for v in VERSIONS:
        for name, ask, reply in REQUESTS:
            for table in [link_rows, address_rows, no_address_rows, header_rows, ipv4_rows if v.name == "4" else ipv6_rows, cut_rows]:
                yield from table(v, f"{name}{v.name}", ask, reply)
            if v.name == "6":
                yield from fragment_rows(v, f"{name}{v.name}", ask)
        for table in [udp_rows, udp_field_rows, unserved_rows, icmp_rows, flag_rows, number_rows, port_rows, option_rows, offer_rows, ignored_rows]:
            yield from table(v)
    yield from solicited_rows()
    yield from asked_rows()
    yield from asker_rows()


def calls():
    """The answer to each line, by kind."""
    found = list(rows())
    names = [one.name for one in found]
    assert len(set(names)) == len(names), [name for name, times in collections.Counter(names).items() if times > 1]
    return {"host": {f"host {one.name} {one.host.words()} {one.frame.hex() or '-'}":
                     f"{one.name} {one.reply.hex() if one.reply else '-'}" for one in found}}

