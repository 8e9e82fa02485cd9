"""Ethernet II, ARP, IPv4, IPv6, ICMP, UDP and TCP packets, by the proved C library ip_wire.

    frame = ip_wire.parse_frame(data)
    frame.check()                           # raises Rejected
    print(frame.src, frame.payload)
    data = ip_wire.emit_udp(frame.reply(), b"pong")

Calls by task; `help(ip_wire.parse_frame)` describes one call:

    read                parse_frame, parse_frames, parse_frame_options, parse_packet; Frame.check, Frame.payload
    read a capture      parse_linktype, parse_captured, parse_link
    one line, names     str(frame), protocol_name, ethertype_name
    reply               Frame.reply, Frame.headers
    ICMP errors         Frame.parse_quoted, Interface.emit_error
    write a frame       emit_udp, emit_tcp, emit_icmp, emit_arp, emit_ndisc, rebuild
    around a payload    wrap_udp, wrap_tcp (into a buffer that has the payload)
    write one header    emit_ethernet_header, emit_arp_packet, emit_ip_header, emit_udp_packet, emit_tcp_segment,
                        emit_icmp_message
    other headers       parse_tcp_options, raw_tcp_options, tcp_header_len, ipv6_headers, parse_ndisc
    multicast groups    emit_mld_report, parse_mld_query
    edit a frame        set_hop_limit, set_dscp, set_addr, set_port, set_bytes, fill_checksum
    host                Host.answer
    TCP connections     Stack.listen, Stack.connect, Stack.receive, Stack.tick (over a device)
                        Connection.step, Connection.tick, Connection.write, Connection.read (by themselves)
    router              Routes.choose, Routes.check_source, forward, clamp_mss
    NAT                 Nat.translate_out, Nat.translate_in, Nat.shrink_reach, translate
    fragments           fragments, Reassembler.reassemble, Reassembler.expire
    texts               parse_addr, print_addr, parse_endpoint, str(endpoint), parse_prefix, print_prefix,
                        parse_mac, print_mac
    addresses           contains, is_unicast, is_multicast
    header fields       Ethertype, Protocol, ArpOperation, IcmpType, IcmpCode, Icmpv6Type, Icmpv6Code, Linktype,
                        ETHERNET_HEADER_LEN and others of the module `numbers`
    numbers             checksum, update_checksum, update_checksum_bytes, add_seq, subtract_seq, compare_seq

It needs Python 3.8 or later, and no other package. The shared library is the file that the environment variable
IP_WIRE_LIBRARY names, else the one in this package, else the installed one. The import fails if there is none, or if
the processor is older than x86-64-v2.

Data is `bytes`, an Ethernet address too. IP addresses are objects of the module `ipaddress`. An argument of a wrong
type raises TypeError. A value that does not fit into its field raises ValueError, and a failure of the library raises
WireError, which is a ValueError too. `man ip_wire` and ip_wire.h describe the calls.
"""
from ._c import VERSION as __version__
from ._convert import Address, AnyPrefix, Prefix, Data, WireError
from .addresses import (
    Endpoint, contains, is_multicast, is_unicast, parse_addr, parse_prefix, parse_endpoint, parse_mac, print_addr,
    print_prefix, print_mac,
)  # fmt: skip
from .arithmetic import add_seq, checksum, compare_seq, subtract_seq, update_checksum, update_checksum_bytes
from .connections import Connection, ConnectionState, Segment, Socket, Stack
from .editing import fill_checksum, set_addr, set_bytes, set_dscp, set_hop_limit, set_port
from .frames import (
    Frame, Link, Network, Transport, Verdict, ethertype_name, parse_captured, parse_frame, parse_frame_options, parse_frames,
    parse_link, parse_linktype, parse_packet, protocol_name,
)  # fmt: skip
from .headers import (
    Arp, Ethernet, Headers, Icmp, Ip, Ipv6Header, RawOption, Reason, Rejected, Rejection, Tcp, TcpFlag, TcpOptions,
    ipv6_headers, parse_tcp_options, raw_tcp_options, tcp_header_len,
)  # fmt: skip
from .hosts import Host, Interface, Ndisc, Problem, emit_mld_report, emit_ndisc, parse_mld_query, parse_ndisc
from .numbers import (
    ARP_LEN, ETHERNET_HEADER_LEN, ICMP_HEADER_LEN, IPV4_HEADER_LEN, IPV6_HEADER_LEN, TCP_HEADER_LEN, UDP_HEADER_LEN,
    ArpOperation, Ethertype, IcmpCode, IcmpType, Icmpv6Code, Icmpv6Type, Linktype, Protocol,
)  # fmt: skip
from .reassembly import Reassembler
from .routing import Nat, Offload, Route, Routes, Side, clamp_mss, forward, translate
from .writing import (
    emit_arp, emit_arp_packet, emit_ethernet_header, emit_icmp, emit_icmp_message, emit_ip_header, emit_tcp,
    emit_tcp_segment, emit_udp, emit_udp_packet, fragments, rebuild, wrap_tcp, wrap_udp,
)  # fmt: skip

__all__ = [
    "__version__", "ARP_LEN", "Address", "AnyPrefix", "Arp", "ArpOperation", "Prefix", "Connection", "ConnectionState",
    "Data", "ETHERNET_HEADER_LEN", "Endpoint", "Ethernet", "Ethertype", "Frame", "Headers", "Host", "ICMP_HEADER_LEN",
    "IPV4_HEADER_LEN", "IPV6_HEADER_LEN", "Icmp", "IcmpCode", "IcmpType", "Icmpv6Code", "Icmpv6Type", "Interface",
    "Ip", "Ipv6Header", "Link", "Linktype", "Nat", "Ndisc", "Network", "Offload", "Problem", "Protocol", "RawOption",
    "Reason", "Reassembler", "Rejected", "Rejection", "Route", "Routes", "Segment", "Side", "Socket", "Stack",
    "TCP_HEADER_LEN", "Tcp", "TcpFlag", "TcpOptions", "Transport", "UDP_HEADER_LEN", "Verdict", "WireError",
    "add_seq", "checksum", "clamp_mss", "compare_seq", "contains", "emit_arp", "emit_arp_packet",
    "emit_ethernet_header", "emit_icmp", "emit_icmp_message", "emit_ip_header", "emit_mld_report", "emit_ndisc",
    "emit_tcp", "emit_tcp_segment", "emit_udp", "emit_udp_packet", "ethertype_name", "fill_checksum", "forward",
    "fragments", "ipv6_headers", "is_multicast", "is_unicast", "parse_addr", "parse_prefix", "parse_captured",
    "parse_endpoint", "parse_mac", "parse_frame", "parse_frame_options", "parse_frames", "parse_link",
    "parse_linktype", "parse_mld_query", "parse_ndisc", "parse_packet", "parse_tcp_options", "print_addr",
    "print_prefix", "print_mac", "protocol_name", "raw_tcp_options", "rebuild", "set_addr", "set_bytes",
    "set_dscp", "set_hop_limit", "set_port", "subtract_seq", "tcp_header_len", "translate", "update_checksum",
    "update_checksum_bytes", "wrap_tcp", "wrap_udp",
]  # fmt: skip
