"""What a router and a NAT do with a frame, by RFC 1812, RFC 3022 and docs/ROUTER.md, without the library. Checksums are
computed anew from all bytes that they cover."""
import copy
import ipaddress

import icmp
import packets
from packets import ARP, IPV4, IPV6, word_sum
from rebuilt import END, FIN, MAX_SEG_SIZE, NO_OPERATION, RST, SYN, is_summed, last_options, number

UDP, TCP, ICMP = 17, 6, 1
SOURCE, DESTINATION = 0, 1
ARP_FRONT = bytes([0, 1, 8, 0, 6, 4])
LINK_LOCAL = [ipaddress.ip_network(block) for block in ("169.254.0.0/16", "fe80::/10")]
RESERVED = [ipaddress.ip_network(block) for block in ("0.0.0.0/8", "127.0.0.0/8", "240.0.0.0/4", "::/127")]
# From these no host sends.
MARTIANS = [ipaddress.ip_network(block) for block in ("0.0.0.0/8", "127.0.0.0/8", "224.0.0.0/3", "::/127", "::ffff:0:0/96", "ff00::/8")]


def is_in(addr, blocks):
    return any(addr.version == block.version and addr in block for block in blocks)


class Packet:
    """An IP packet in a frame, if its header parses."""

    def __init__(self, frame):
        self.frame, body = frame, frame[14:]
        self.ethertype = number(frame[12:14]) if len(frame) >= 14 else None
        self.version = {IPV4: 4, IPV6: 6}.get(self.ethertype)
        self.is_whole = False
        if self.version == 4 and len(body) >= 20:
            self.header_len, self.total_len = body[0] % 16 * 4, number(body[2:4])
            self.is_whole = body[0] >> 4 == 4 and 20 <= self.header_len <= self.total_len <= len(body)
            self.ends, self.protocol, self.hop_limit = (body[12:16], body[16:20]), body[9], body[8]
        elif self.version == 6 and len(body) >= 40:
            self.header_len, self.total_len = 40, 40 + number(body[4:6])
            self.is_whole = body[0] >> 4 == 6 and self.total_len <= len(body)
            self.ends, self.protocol, self.hop_limit = (body[8:24], body[24:40]), body[6], body[7]
        if self.is_whole:
            self.src, self.dst = map(ipaddress.ip_address, self.ends)
            self.header, self.payload = body[: self.header_len], body[self.header_len : self.total_len]
            self.is_fragment = self.version == 4 and number(body[6:8]) & 0x3FFF != 0
            self.is_summed = self.version == 6 or is_summed(self.header)


def hop(frame, src, dst):
    """The frame one hop further: a valid one, from which padding is removed."""
    packet = Packet(frame)
    header = bytearray(packet.header)
    header[8 if packet.version == 4 else 7] -= 1
    return dst + src + frame[12:14] + with_header_checksum(bytes(header)) + packet.payload


def with_header_checksum(header):
    if header[0] >> 4 == 6:
        return header
    zeroed = header[:10] + b"\0\0" + header[12:]
    return header[:10] + (0xFFFF - word_sum(zeroed)).to_bytes(2, "big") + header[12:]


class Router:
    """A router with one interface for each name. `routes`: block, Ethernet address of the next hop, interface. A next hop
    of None is the neighbour that `neighbours` has."""

    # A packet may come from elsewhere than the route back to its source leads.
    takes_any_way = False
    # The longest packet and the shortest frame that leaves.
    longest, least = 1500, 0
    # The MTU of each interface that clamps.
    clamps = {}
    # The errors about packets that are dropped.
    errors = {"LK_HOP_LIMIT_TOO_LOW": icmp.EXPIRED, "too long": icmp.TOO_BIG, "no route": icmp.NO_ROUTE, "no neighbour": icmp.NO_NEIGHBOUR}

    def __init__(self, hardware, addresses, routes, neighbours):
        self.hardware, self.neighbours = hardware, neighbours
        self.own = {ipaddress.ip_interface(text).ip for text, _ in addresses}
        # The first address of each version on an interface.
        interfaces = [(ipaddress.ip_interface(text), name) for text, name in addresses[::-1]]
        self.first = {(name, one.version): one.ip.packed for one, name in interfaces}
        links = [(ipaddress.ip_interface(text).network, None, name) for text, name in addresses]
        routes = links + [(ipaddress.ip_network(block), next_hop, name) for block, next_hop, name in routes]
        self.routes = {}
        for route in routes:  # of equal blocks the first
            self.routes.setdefault(route[0], route)
        self.lengths = sorted({(block.version, block.prefixlen) for block in self.routes}, reverse=True)
        self.broadcasts = {addr for block, _, _ in links if block.version == 4 for addr in (block[0], block[-1])}

    def but(self, **changes):
        """The same router, with other values of the class."""
        other = copy.copy(self)
        vars(other).update(changes)
        return other

    def choose(self, addr):
        """The route with the longest prefix, as the three values, or None."""
        for version, length in self.lengths:
            block = ipaddress.ip_network((addr.packed, length), strict=False) if version == addr.version else None
            if block in self.routes:
                return self.routes[block]
        return None

    def rejected_source(self, addr, came_in):
        if is_in(addr, MARTIANS):
            return "LK_MARTIAN"
        if addr in self.own or addr in self.broadcasts:
            return "LK_OTHER_INTERFACE"
        if self.takes_any_way:
            return None
        route = self.choose(addr)
        return "LK_NO_ROUTE_TO_SOURCE" if route is None else None if route[2] == came_in else "LK_OTHER_INTERFACE"

    def refused(self, packet, came_in):
        """Why the router drops a packet before it looks for a route, or None."""
        link = packet.frame[:6]
        if packet.ethertype == ARP and len(packet.frame) >= 42 and packet.frame[14:20] == ARP_FRONT:
            return "ARP"
        if packet.version is None:
            return "LK_NOT_IP"
        if not packet.is_whole:
            return "LK_BAD_HEADER"
        if not packet.is_summed:
            return "LK_WRONG_CHECKSUM"
        if link[0] & 1 or packet.dst.is_multicast or packet.dst == ipaddress.ip_address("255.255.255.255"):
            return "group or broadcast"
        if link != self.hardware[came_in]:
            return "other link address"
        if is_in(packet.dst, LINK_LOCAL) or is_in(packet.src, LINK_LOCAL):
            return "link-local"
        if is_in(packet.dst, RESERVED):
            return "reserved address"
        return self.rejected_source(packet.src, came_in)

    def fate(self, frame, came_in):
        """Either why the frame is dropped and None, or the interface that it leaves by and the frame there."""
        packet = Packet(frame)
        why = self.refused(packet, came_in)
        to, out = (why, None) if why else self.sent_on(frame, packet)
        return to, self.clamped(out, came_in, to)

    def clamped(self, out, *names):
        """A frame that comes in and leaves by these interfaces, or None."""
        for name in names if out else ():
            out = clamped(out, self.clamps[name]) if name in self.clamps else out
        return out

    def is_from_router(self, frame):
        """Whether the router itself sends this frame: from its addresses, or to ask who has them."""
        return frame[12:14] == ARP.to_bytes(2, "big") or Packet(frame).src in {*self.own, ipaddress.ip_address("::")}

    def error(self, frame, came_in, why):
        """The frame with the error about a frame that is dropped for this reason, or None."""
        if why not in self.errors:
            return None
        own = self.first[came_in, Packet(frame).version]
        found = icmp.error(frame, self.hardware[came_in], own, self.errors[why], self.longest)
        return found and found.ljust(self.least, b"\0")

    def sent_on(self, frame, packet):
        if packet.dst in self.own:
            return "fragments" if packet.is_fragment else "for the router", None
        if packet.dst in self.broadcasts:
            return "group or broadcast", None
        route = self.choose(packet.dst)
        if route is None:
            return "no route", None
        if packet.total_len > self.longest:
            return "too long", None
        if packet.hop_limit <= 1:
            return "LK_HOP_LIMIT_TOO_LOW", None
        _, next_hop, name = route
        next_hop = next_hop or self.neighbours.get(packet.dst)
        if next_hop is None:
            return "no neighbour", None
        return name, hop(frame, self.hardware[name], next_hop).ljust(self.least, b"\0")


# ---- the MSS clamp


def clamped(frame, mtu):
    """The frame, where the maximum segment size of a SYN is at most what fits into an MTU. The TCP checksum changes by as much
    as the options: it may have been wrong."""
    packet = Packet(frame)
    body, size = packet.payload, (mtu - (40 if packet.version == 4 else 60)).to_bytes(2, "big")
    if packet.protocol != TCP or packet.is_fragment or not is_segment(body) or not body[13] & SYN:
        return frame
    options, at, place = body[20 : (body[12] >> 4) * 4], 0, None
    while at < len(options) and options[at] != END:
        place = at + 2 if options[at] == MAX_SEG_SIZE else place
        at += 1 if options[at] == NO_OPERATION else options[at + 1]
    if place is None or options[place : place + 2] <= size:
        return frame
    changed = options[:place] + size + options[place + 2 :]
    body = body[:16] + updated(body[16:18], options, changed, False) + body[18:20] + changed + body[20 + len(options) :]
    return frame[: 14 + packet.header_len] + body + frame[14 + packet.total_len :]


# ---- translation


def has_ports(packet):
    """Why a packet cannot be translated, or None. The identifier of an ICMP echo is its port."""
    if packet.is_fragment:
        return "LK_FRAGMENT"
    if packet.protocol not in (UDP, TCP, ICMP):
        return "LK_OTHER_PROTOCOL"
    if packet.protocol == ICMP and not is_icmp_error(packet) and packet.payload[:2].ljust(2, b"\0") not in (b"\0\0", b"\x08\0"):
        return "LK_OTHER_PROTOCOL"
    return None if is_valid(packet) else "LK_BAD_TRANSPORT"


def is_icmp_error(packet):
    return packet.protocol == ICMP and packet.payload[:1] in (b"\3", b"\x0b", b"\x0c")


def is_valid(packet):
    """Whether a UDP packet, TCP segment or ICMP message parses, with a valid checksum."""
    body = packet.payload
    if packet.protocol == ICMP:
        return len(body) >= 8 and is_summed(body)
    if packet.protocol == UDP:
        length = number(body[4:6])
        if len(body) < 8 or not 8 <= length <= len(body) or not number(body[2:4]):
            return False
        return body[6:8] == b"\0\0" or is_summed(packets.pseudo_header(*packet.ends, UDP, length) + body[:length])
    return is_segment(body) and is_summed(packets.pseudo_header(*packet.ends, TCP, len(body)) + body)


def is_segment(body):
    """Whether a TCP segment parses."""
    header_len = (body[12] >> 4) * 4 if len(body) >= 20 else 0
    if not 20 <= header_len <= len(body) or not number(body[:2]) or not number(body[2:4]):
        return False
    return body[13] & (FIN | SYN | RST) in (0, FIN, SYN, RST) and last_options(body[20:header_len]) is not None


def port_at(protocol, side):
    """Where the port is in a packet of this protocol."""
    return 4 if protocol == ICMP else 2 * side


def port_of(packet, side):
    at = port_at(packet.protocol, side)
    return number(packet.payload[at : at + 2])


def with_end(header, body, side, addr, port):
    """The header and what follows it, with another address and port on this side. The checksums are left."""
    at, place = 12 + 4 * side, port_at(header[9], side)
    return header[:at] + addr + header[at + 4 :], body[:place] + port.to_bytes(2, "big") + body[place + 2 :]


def translated(frame, side, addr, port):
    """The frame with another address and port on this side, with computed checksums."""
    packet = Packet(frame)
    header, body = with_end(packet.header, packet.payload, side, addr, port)
    header = with_header_checksum(header)
    place, length = {UDP: (6, number(body[4:6])), TCP: (16, len(body)), ICMP: (2, len(body))}[packet.protocol]
    if packet.protocol != UDP or body[6:8] != b"\0\0":
        zeroed = body[:place] + b"\0\0" + body[place + 2 :]
        front = b"" if packet.protocol == ICMP else packets.pseudo_header(header[12:16], header[16:20], packet.protocol, length)
        value = 0xFFFF - word_sum(front + zeroed[:length])
        body = body[:place] + (value or 0xFFFF * (packet.protocol == UDP)).to_bytes(2, "big") + body[place + 2 :]
    return frame[:14] + header + body + frame[14 + packet.total_len :]


# ---- the packet that an ICMP error quotes (RFC 5508, section 4)


def quotes_enough(packet):
    """Whether an ICMP error quotes an IPv4 header and 8 bytes after it."""
    quoted = packet.payload[8:]
    header_len = quoted[0] % 16 * 4 if quoted else 0
    return header_len >= 20 and quoted[0] >> 4 == 4 and len(quoted) >= header_len + 8


def quoted_end(packet, side):
    """The protocol, address and port of the quoted packet on this side, or None if it has no port there."""
    quoted = packet.payload[8:]
    protocol, body = quoted[9], quoted[quoted[0] % 16 * 4 :]
    is_known = protocol in (UDP, TCP) or (protocol == ICMP and body[0] == (8 if side == SOURCE else 0))
    if number(quoted[6:8]) & 0x1FFF or not is_known:
        return None
    at = port_at(protocol, side)
    return protocol, quoted[12 + 4 * side : 16 + 4 * side], number(body[at : at + 2])


def with_quoted(frame, side, addr, port):
    """The frame with an error that quotes a packet with another address and port, and its own other side with this address.
    Each checksum of the quoted packet changes by as much as what it covers: it may have been wrong, and that of TCP cut."""
    packet = Packet(frame)
    old, header_len = packet.payload[8:], packet.payload[8] % 16 * 4
    header, body = with_end(old[:header_len], old[header_len:], side, addr, port)
    place = {UDP: 6, TCP: 16, ICMP: 2}[old[9]]
    is_there = len(body) >= place + 2 and (old[9] != UDP or body[6:8] != b"\0\0")
    if is_there:
        before = old[header_len:][:4] if old[9] != ICMP else old[header_len + 4 :][:2]
        after = body[:4] if old[9] != ICMP else body[4:6]
        if old[9] != ICMP:
            before, after = before + old[12:20], after + header[12:20]
        body = body[:place] + updated(body[place : place + 2], before, after, old[9] == UDP) + body[place + 2 :]
    header = header[:10] + updated(header[10:12], old[12:20], header[12:20], False) + header[12:]
    message = packet.payload[:2] + b"\0\0" + packet.payload[4:8] + header + body
    message = message[:2] + (0xFFFF - word_sum(message)).to_bytes(2, "big") + message[4:]
    at = 12 + 4 * (1 - side)
    outer = with_header_checksum(packet.header[:at] + addr + packet.header[at + 4 :])
    return frame[:14] + outer + message + frame[14 + packet.total_len :]


def updated(checksum, before, after, is_udp):
    """The checksum field after words that it covers changed (RFC 1624)."""
    total = (0xFFFF - number(checksum)) + (0xFFFF - word_sum(before)) + word_sum(after)
    while total > 0xFFFF:
        total = (total & 0xFFFF) + (total >> 16)
    return (0xFFFF - total or 0xFFFF * is_udp).to_bytes(2, "big")


def renumbered(frame, found):
    """A packet without DF gets another identification (RFC 6864, section 5.3.1): any one."""
    end = 14 + frame[14] % 16 * 4
    is_atomic = frame[20] & 0x40 or len(found) < end
    return frame if is_atomic else frame[:14] + with_header_checksum(frame[14:18] + found[18:20] + frame[20:end]) + frame[end:]


def is_ping(packet):
    """An echo request: the NAT answers it itself."""
    is_icmp = packet.version == 4 and not packet.is_fragment and packet.protocol == ICMP
    return is_icmp and len(packet.payload) >= 8 and packet.payload[0] == 8


def is_answered(packet):
    return icmp.is_valid(packet.payload, *packet.ends) and packet.payload[1] == 0 and not packet.frame[6] & 1
