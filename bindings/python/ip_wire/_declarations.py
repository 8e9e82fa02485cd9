"""The structs and calls of ip_wire.h, written by tools/from_header.py."""
import ctypes
from ctypes import POINTER, c_char_p, c_int, c_int32, c_int64, c_size_t, c_ssize_t
from ctypes import c_uint8, c_uint16, c_uint32, c_uint64, c_void_p
from typing import Any, Dict, Tuple


def _declare(name: str, **fields: Any) -> Any:
    return type(name, (ctypes.Structure,), {"_fields_": list(fields.items())})


def _many(kind: Any) -> Tuple[Any, Any]:
    return POINTER(kind), c_size_t


Hardware = c_uint8 * 6
Addr = _declare("lk_addr", octets=c_uint8 * 16, version=c_uint16)
Endpoint = _declare("lk_endpoint", addr=Addr, port=c_uint16)
Prefix = _declare("lk_prefix", addr=Addr, prefix_len=c_uint16)
Ethernet = _declare("lk_ethernet", src=Hardware, dst=Hardware, type=c_uint16)
Arp = _declare("lk_arp", operation=c_uint16, src_hardware=Hardware, dst_hardware=Hardware)
Ip = _declare(
    "lk_ip", ident=c_uint32, flow_label=c_uint32, fragment_offset=c_uint16, protocol=c_uint8, hop_limit=c_uint8,
    dscp=c_uint8, ecn=c_uint8, more_fragments=c_uint8, dont_fragment=c_uint8
)
Tcp = _declare(
    "lk_tcp", seq_number=c_uint32, ack_number=c_uint32, window_len=c_uint16, urgent_at=c_uint16, flags=c_uint8,
    header_len=c_uint8
)
SackRange = _declare("lk_sack_range", left=c_uint32, right=c_uint32)
TcpOptions = _declare(
    "lk_tcp_options", sack_ranges=SackRange * 4, tsval=c_uint32, tsecr=c_uint32, mss=c_uint16, window_scale=c_uint8,
    sack_permitted=c_uint8, sack_range_count=c_uint8, has_mss=c_uint8, has_window_scale=c_uint8, has_timestamp=c_uint8
)
Icmp = _declare("lk_icmp", word=c_uint32, type=c_uint8, code=c_uint8)
Ndisc = _declare(
    "lk_ndisc", target=Addr, hardware=Hardware, has_hardware=c_uint8, is_advert=c_uint8, is_router=c_uint8,
    is_solicited=c_uint8, overrides=c_uint8
)
Frame = _declare(
    "lk_frame", network_offset=c_size_t, transport_offset=c_size_t, payload_offset=c_size_t, payload_len=c_size_t,
    payload_captured=c_size_t, src=Endpoint, dst=Endpoint, ip=Ip, tcp=Tcp, ethernet=Ethernet, arp=Arp, reason=c_uint8,
    network=c_uint8, transport=c_uint8, rejected=c_uint8, is_fragment=c_uint8, ipv4_checksum=c_uint8,
    transport_checksum=c_uint8, protocol=c_uint8, unused=c_uint8 * 4, icmp=Icmp
)
Link = _declare("lk_link", offset=c_size_t, type=c_uint16, tags=c_uint16 * 2, tag_count=c_uint8)
Ipv6Header = _declare(
    "lk_ipv6_header", offset=c_uint32, len=c_uint16, protocol=c_uint8, next=c_uint8, is_malformed=c_uint8
)
TcpOption = _declare("lk_tcp_option", offset=c_uint8, kind=c_uint8, len=c_uint8, is_malformed=c_uint8)
MldQuery = _declare("lk_mld_query", max_delay=c_uint32)
Host = _declare(
    "lk_host", open_ports=POINTER(c_uint16), open_port_count=c_size_t, open_udp_ports=POINTER(c_uint16),
    open_udp_port_count=c_size_t, ipv4=Addr, ipv6=Addr, hardware=Hardware, echo_port=c_uint16, seq_number=c_uint32,
    tsval=c_uint32, window_len=c_uint16, mss=c_uint16, window_scale=c_uint8, is_router=c_uint8
)
Interface = _declare("lk_interface", ipv4=Addr, ipv6=Addr, hardware=Hardware)
Reassembly = _declare(
    "lk_reassembly", expires=c_uint64, ident=c_uint32, version=c_uint8, protocol=c_uint8, unused1=c_uint8 * 2,
    src=c_uint8 * 16, dst=c_uint8 * 16, len=c_size_t, high=c_size_t, header=c_uint8 * 60, not_ect=c_uint8, ce=c_uint8,
    unused2=c_uint8 * 2, dropped=c_uint8, link=c_uint8 * 14, unused3=c_uint8
)
Route = _declare("lk_route", prefix=Prefix, next_hop=Addr, interface=c_uint16)
RouteNode = _declare(
    "lk_route_node", high=c_uint64, low=c_uint64, route=c_uint32, above=c_uint32, version=c_uint8, prefix_len=c_uint8,
    unused=c_uint8 * 2, hint=c_uint32
)
Nat = _declare(
    "lk_nat", key=c_uint64 * 2, udp_timeout=c_uint64, tcp_timeout=c_uint64, tcp_transitory_timeout=c_uint64,
    icmp_timeout=c_uint64, outside=c_uint8 * 4, first_port=c_uint16, unused=c_uint16
)
Mapping = _declare(
    "lk_mapping", expires=c_uint64, inside=c_uint8 * 4, remote=c_uint8 * 4, inside_port=c_uint16, remote_port=c_uint16,
    state=c_uint8, shared=c_uint8, reach=c_uint16
)
Connection = _declare("lk_connection", memory=c_uint64 * 64)
Segment = _declare("lk_segment", tcp=Tcp, options=TcpOptions, payload=POINTER(c_uint8), payload_len=c_size_t)

VERSION = "0.5.0"
DATA = (c_char_p, c_size_t)  # bytes that are read
OUT = (c_void_p, c_size_t)  # a buffer that is written
# Of each call the result and the parameters. A pair is a pointer with a length. A struct or array is a pointer to one.
CALLS: Dict[str, Tuple[Any, ...]] = {
    "lk_version": (c_uint32,),
    "lk_cpu_supported": (c_int,),
    "lk_failure_name": (c_char_p, c_ssize_t),
    "lk_parse_addr": (c_int, DATA, Addr),
    "lk_print_addr": (c_ssize_t, Addr, OUT),
    "lk_parse_prefix": (c_int, DATA, Prefix),
    "lk_print_prefix": (c_ssize_t, Prefix, OUT),
    "lk_contains": (c_int, Prefix, Addr),
    "lk_parse_endpoint": (c_int, DATA, Endpoint),
    "lk_print_endpoint": (c_ssize_t, Endpoint, OUT),
    "lk_parse_mac": (c_int, DATA, Hardware),
    "lk_print_mac": (c_ssize_t, Hardware, OUT),
    "lk_is_multicast": (c_int, Addr),
    "lk_is_unicast": (c_int, Addr),
    "lk_reason_name": (c_char_p, c_int),
    "lk_read_frame": (c_int, DATA, Frame),
    "lk_read_packet": (c_int, DATA, Frame),
    "lk_read_captured": (c_int, DATA, c_size_t, Frame),
    "lk_read_captured_packet": (c_int, DATA, c_size_t, Frame),
    "lk_read_link": (c_int, c_uint32, DATA, Link),
    "lk_read_linktype": (c_int, c_uint32, DATA, c_size_t, Frame),
    "lk_print_frame": (c_ssize_t, Frame, OUT),
    "lk_protocol_name": (c_char_p, c_int),
    "lk_ethertype_name": (c_char_p, c_int),
    "lk_tcp_flag_name": (c_char_p, c_int),
    "lk_next_ipv6_header": (c_int, DATA, Ipv6Header),
    "lk_find_tcp_options": (c_int, DATA, TcpOptions),
    "lk_read_frame_options": (c_int, DATA, Frame, TcpOptions),
    "lk_next_tcp_option": (c_int, DATA, TcpOption),
    "lk_make_reply": (None, Frame),
    "lk_emit_udp_frame": (c_ssize_t, Frame, DATA, OUT),
    "lk_emit_tcp_frame": (c_ssize_t, Frame, TcpOptions, DATA, OUT),
    "lk_wrap_udp_frame": (c_ssize_t, Frame, c_size_t, OUT),
    "lk_wrap_tcp_frame": (c_ssize_t, Frame, TcpOptions, c_size_t, OUT),
    "lk_emit_icmp_frame": (c_ssize_t, Frame, DATA, OUT),
    "lk_emit_udp_packet": (c_ssize_t, Frame, DATA, OUT),
    "lk_emit_tcp_packet": (c_ssize_t, Frame, TcpOptions, DATA, OUT),
    "lk_emit_icmp_packet": (c_ssize_t, Frame, DATA, OUT),
    "lk_wrap_udp_packet": (c_ssize_t, Frame, c_size_t, OUT),
    "lk_wrap_tcp_packet": (c_ssize_t, Frame, TcpOptions, c_size_t, OUT),
    "lk_tcp_header_len": (c_ssize_t, TcpOptions),
    "lk_emit_arp_frame": (c_ssize_t, Frame, OUT),
    "lk_emit_ethernet": (c_ssize_t, Ethernet, OUT),
    "lk_emit_arp": (c_ssize_t, Arp, Addr, Addr, OUT),
    "lk_emit_ip": (c_ssize_t, Ip, Addr, Addr, c_size_t, c_int, OUT),
    "lk_emit_udp": (c_ssize_t, Endpoint, Endpoint, DATA, c_int, OUT),
    "lk_emit_tcp": (c_ssize_t, Tcp, TcpOptions, Endpoint, Endpoint, DATA, c_int, OUT),
    "lk_emit_icmp": (c_ssize_t, Icmp, Addr, Addr, DATA, c_int, OUT),
    "lk_checksum": (c_uint16, DATA),
    "lk_update_checksum": (c_uint16, c_uint16, c_uint16, c_uint16),
    "lk_update_checksum_addr": (c_uint16, c_uint16, Addr, Addr),
    "lk_update_udp_checksum": (c_uint16, c_uint16, c_uint16, c_uint16),
    "lk_update_udp_checksum_addr": (c_uint16, c_uint16, Addr, Addr),
    "lk_update_checksum_bytes": (c_uint16, c_uint16, c_size_t, DATA, DATA),
    "lk_update_udp_checksum_bytes": (c_uint16, c_uint16, c_size_t, DATA, DATA),
    "lk_add_seq": (c_uint32, c_uint32, c_uint32),
    "lk_subtract_seq": (c_int32, c_uint32, c_uint32),
    "lk_compare_seq": (c_int, c_uint32, c_uint32),
    "lk_rebuild": (c_ssize_t, DATA, OUT),
    "lk_find_ndisc": (c_int, DATA, Ndisc),
    "lk_emit_ndisc_frame": (c_ssize_t, Frame, Ndisc, OUT),
    "lk_emit_mld_report": (c_ssize_t, Frame, OUT),
    "lk_find_mld_query": (c_int, DATA, Addr, MldQuery),
    "lk_answer": (c_ssize_t, Host, DATA, OUT),
    "lk_emit_icmp_error": (c_ssize_t, Interface, c_int, c_uint32, DATA, OUT),
    "lk_rejection_name": (c_char_p, c_int),
    "lk_forward": (c_int, OUT, Hardware, Hardware),
    "lk_translate": (c_int, OUT, c_int, Endpoint),
    "lk_clamp_mss_as": (c_int, OUT, c_uint16, c_int),
    "lk_fragment": (c_ssize_t, DATA, c_size_t, c_int64, c_size_t, OUT),
    "lk_reassemble": (c_ssize_t, _many(Reassembly), OUT, c_uint64, DATA, OUT),
    "lk_expire_reassembly": (c_size_t, _many(Reassembly), DATA, c_uint64, OUT),
    "lk_set_hop_limit": (c_int, OUT, c_uint8),
    "lk_set_dscp": (c_int, OUT, c_uint8),
    "lk_set_addr_as": (c_int, OUT, c_int, Addr, c_int),
    "lk_set_port_as": (c_int, OUT, c_int, c_uint16, c_int),
    "lk_set_bytes_as": (c_int, OUT, c_size_t, DATA, c_int),
    "lk_fill_checksum": (c_int, OUT),
    "lk_index_routes": (c_ssize_t, _many(Route), _many(RouteNode)),
    "lk_choose_route": (c_ssize_t, _many(RouteNode), Addr),
    "lk_check_source": (c_int, _many(Route), _many(RouteNode), Addr, c_uint16),
    "lk_translate_out": (c_int, Nat, _many(Mapping), c_uint64, OUT),
    "lk_translate_in": (c_int, Nat, _many(Mapping), c_uint64, OUT),
    "lk_shrink_reach": (None, Nat, _many(Mapping), c_uint64),
    "lk_connection_init": (None, Connection, c_uint16, c_uint32, c_int),
    "lk_connection_listen": (None, Connection),
    "lk_connection_connect": (c_int, Connection, DATA, OUT, c_uint64, c_uint32, Segment),
    "lk_connection_step": (c_int, Connection, DATA, OUT, c_uint64, Segment, c_uint32, Segment),
    "lk_connection_tick": (c_int, Connection, DATA, OUT, c_uint64, Segment),
    "lk_connection_close": (None, Connection),
    "lk_connection_abort": (c_int, Connection, Segment),
    "lk_connection_write": (c_ssize_t, Connection, OUT, DATA),
    "lk_connection_read": (c_ssize_t, Connection, DATA, OUT),
    "lk_connection_next_timeout": (c_uint64, Connection),
    "lk_connection_state": (c_int, Connection),
    "lk_connection_at_eof": (c_int, Connection),
    "lk_connection_unacked": (c_size_t, Connection),
    "lk_connection_too_big": (c_int, Connection, c_uint32, c_uint16),
}
