"""TCP connections, by themselves and over a device."""
from __future__ import annotations

import ctypes
import secrets
import struct
import time
from ctypes import POINTER, c_uint8, c_uint16, c_uint32
from dataclasses import dataclass, replace
from typing import Any, Callable, List, Optional

from . import _c as c
from ._convert import Data, NamedInt, call, data_of, from_c, number_of, to_c
from .addresses import Endpoint, is_unicast
from .editing import fill_checksum
from .frames import Frame, Network, Transport, Verdict, parse_frame_options
from .headers import Headers, Tcp, TcpOptions, options_from_c, options_to_c
from .hosts import Host
from .numbers import IcmpCode, IcmpType, Icmpv6Type, Protocol
from .writing import emit_tcp

_NEVER = (1 << 64) - 1
_LONGEST_RING = (1 << 30) - 1
_LEAST_MTU = {4: 576, 6: 1280}
_HEADERS_LEN = {4: 40, 6: 60}  # of an IP and a TCP header


class ConnectionState(NamedInt):
    """Where a TCP connection is (RFC 9293, section 3.3.2)."""

    CLOSED = 0
    LISTEN = 1
    SYN_SENT = 2
    SYN_RECEIVED = 3
    ESTABLISHED = 4
    FIN_WAIT_1 = 5
    FIN_WAIT_2 = 6
    CLOSE_WAIT = 7
    CLOSING = 8
    LAST_ACK = 9
    TIME_WAIT = 10


@dataclass(frozen=True)
class Segment:
    """A TCP segment without its ports."""

    tcp: Tcp
    options: TcpOptions = TcpOptions()
    payload: bytes = b""


class Connection:
    """One end of a TCP connection (RFC 9293), with its timers, congestion control, selective acknowledgements, window scale
    and timestamps. It sends nothing itself: a `Stack` has connections over a device.

    - `mss` is the largest segment in bytes: the MTU without the IP and TCP header. `keep_alive_s` is how long a peer
      may be silent until it is probed, in seconds. `no_delay` turns Nagle's algorithm off, as TCP_NODELAY does.
    - `outgoing` and `incoming` are the sizes of the buffers, in bytes: at least 1, and less than 2^30.
    - `now` is a clock in milliseconds that never goes back, by default `time.monotonic`. `iss` and `fresh` are initial
      sequence numbers, by default random ones.
    - What a call returns has to be sent. After each other call, and when the time `next_timeout` has come, call `tick` until it
      returns None.

    Two threads must not use one connection at once.
    """

    def __init__(
        self,
        *,
        mss: int = 1220,
        keep_alive_s: int = 7200,
        no_delay: bool = False,
        outgoing: int = 65536,
        incoming: int = 65536,
    ) -> None:
        self._memory = c.Connection()
        self._outgoing, self._incoming = _ring(outgoing, "outgoing"), _ring(incoming, "incoming")
        self._rings = self._memory, self._outgoing, self._incoming
        call("lk_connection_init", self._memory, mss, keep_alive_s, no_delay)

    def listen(self) -> None:
        """Waits for the SYN of a peer: CLOSED becomes LISTEN. In another state nothing happens."""
        call("lk_connection_listen", self._memory)

    def connect(self, now: Optional[int] = None, iss: Optional[int] = None) -> Optional[Segment]:
        """Opens the connection, from CLOSED or LISTEN, and returns its SYN. None in another state."""
        return self._stored("lk_connection_connect", *self._rings, _time(now), _random(iss))

    def step(self, segment: Segment, now: Optional[int] = None, fresh: Optional[int] = None) -> Optional[Segment]:
        """Takes a segment of the peer, and returns the one that answers it at once. The caller has found the connection by
        both endpoints, and checked the checksum. A connection in CLOSED answers with RST."""
        if not isinstance(segment, Segment):
            raise TypeError(f"segment: Segment is needed, not {type(segment).__name__}")
        data = data_of(segment.payload, "payload")
        number_of(c_uint16, len(data), "payload")
        memory = ctypes.cast(ctypes.c_char_p(data), POINTER(c_uint8))
        value = c.Segment(to_c(c.Tcp, segment.tcp, "tcp"), options_to_c(segment.options), memory, len(data))
        return self._stored("lk_connection_step", *self._rings, _time(now), value, _random(fresh))

    def tick(self, now: Optional[int] = None) -> Optional[Segment]:
        """The next segment that is to be sent at this time. A connection whose peer was silent for too long ends."""
        return self._stored("lk_connection_tick", *self._rings, _time(now))

    def abort(self) -> Optional[Segment]:
        """Gives the connection up, and returns a RST for the peer, if there may be one."""
        return self._stored("lk_connection_abort", self._memory)

    def write(self, data: Data) -> int:
        """Takes bytes for the peer, as far as there is room, and returns how many. 0 in CLOSED and LISTEN, and after
        `close`."""
        return call("lk_connection_write", self._memory, self._outgoing, data)

    def read(self, size: int = 65536) -> bytes:
        """The next bytes of the peer, at most `size`. If there are none, `at_eof` tells whether the peer writes no more."""
        out = ctypes.create_string_buffer(min(number_of(ctypes.c_size_t, size, "size"), len(self._incoming)))
        length = call("lk_connection_read", self._memory, self._incoming, out)
        return out.raw[:length]

    def close(self) -> None:
        """Writes no more: a FIN follows the bytes that were written. What the peer sends can be read as before."""
        call("lk_connection_close", self._memory)

    def too_big(self, seq_number: int, mss: int) -> bool:
        """An ICMP error says that the segment with this number, which it quotes, was too big (RFC 1191, RFC 8201). `mss` is
        the MTU in the error without the IP header and 20 bytes. False: no such segment is in flight, and nothing changes."""
        return bool(call("lk_connection_too_big", self._memory, seq_number, mss))

    @property
    def next_timeout(self) -> Optional[int]:
        """When `tick` has something to do, if no other call comes before. None: never."""
        time = call("lk_connection_next_timeout", self._memory)
        return None if time == _NEVER else time

    @property
    def state(self) -> ConnectionState:
        """The state."""
        return ConnectionState(call("lk_connection_state", self._memory))

    @property
    def at_eof(self) -> bool:
        """Whether all that the peer wrote was read, and it writes no more."""
        return bool(call("lk_connection_at_eof", self._memory))

    @property
    def unacked(self) -> int:
        """How much the peer has not acknowledged: each byte that was written counts, and a SYN or FIN too."""
        return call("lk_connection_unacked", self._memory)

    def _stored(self, name: str, *values: Any) -> Optional[Segment]:
        """The segment that a call stores, if it stores one."""
        out = c.Segment()
        if call(name, *values, out) != 1:
            return None
        payload = ctypes.string_at(out.payload, out.payload_len) if out.payload_len else b""
        return Segment(from_c(Tcp, out.tcp), options_from_c(out.options), payload)


def _ring(size: int, what: str) -> Any:
    if not 1 <= number_of(c_uint32, size, what) <= _LONGEST_RING:
        raise ValueError(f"{what}: {size} is out of range")
    return ctypes.create_string_buffer(size)


def _time(now: Optional[int]) -> int:
    return time.monotonic_ns() // 1_000_000 if now is None else now


def _random(number: Optional[int]) -> int:
    return secrets.randbits(32) if number is None else number


# ---- over a device


class Socket(Connection):
    """A connection of a `Stack`: its calls also send the frames that they cause. `headers` are those of the frames, so
    `headers.dst` is the peer; None before there is one."""

    def __init__(self, stack: Stack, port: int, headers: Optional[Headers], **options: Any) -> None:
        super().__init__(**options)
        self.stack, self.port, self.headers = stack, port, headers

    def write(self, data: Data) -> int:
        taken = super().write(data)
        self.send(None)
        return taken

    def read(self, size: int = 65536) -> bytes:
        data = super().read(size)
        self.send(None)
        return data

    def close(self) -> None:
        super().close()
        self.send(None)

    def abort(self) -> None:
        self.send(super().abort())

    def send(self, segment: Optional[Segment]) -> None:
        """Sends this segment, and what else is to be sent at this time."""
        while segment := segment or self.tick(self.stack.clock()):
            if self.headers is not None:
                headers = self.stack._identified(self.headers)
                self.stack._transmit(emit_tcp(headers, segment.tcp, segment.options, segment.payload))
            segment = None

    def _lower_mtu(self, seq_number: int, mtu: int) -> None:
        """Takes the MTU that an ICMP error about the segment with this number tells. Below 576 for IPv4, as the 0 of a router
        that tells none, packets of 576 bytes may be fragmented (RFC 1191, section 5). Below 1280 for IPv6 it is not valid
        (RFC 8201, section 4)."""
        if self.headers is None:
            return
        version = self.headers.src.addr.version
        least, mss = _LEAST_MTU[version], max(mtu, _LEAST_MTU[version]) - _HEADERS_LEN[version]
        if mss > 65535 or (version == 6 and mtu < least):
            return
        if self.too_big(seq_number, mss) and mtu < least:
            self.headers = replace(self.headers, ip=replace(self.headers.ip, dont_fragment=False))
        self.send(None)

    def is_between(self, own: Endpoint, peer: Endpoint) -> bool:
        """Whether these are its endpoints."""
        if self.headers is None or self.state in (ConnectionState.CLOSED, ConnectionState.LISTEN):
            return False
        return (self.headers.src, self.headers.dst) == (own, peer)


class Stack:
    """A host with TCP connections over any device. It calls `send` with each Ethernet frame that leaves. The program calls
    `receive` with each one that comes, and `tick` when the time has come that it returned last:

        stack = ip_wire.Stack(device.send, host)
        socket = stack.listen(80)
        while True:
            due = stack.tick()
            ...  # wait for a frame, or until then
            stack.receive(frame)
            print(socket.read())

    - A frame for no connection gets the answer of the host, so that ARP, neighbour discovery and pings work, and a segment
      for none gets a RST.
    - `send` may drop the frame, also by an OSError such as ENOBUFS: TCP retransmits. `send_error` is the last such error.
      `send` must not use the stack. Over a TUN device put an Ethernet header with zero addresses before each packet that
      comes, and send frames without their first 14 bytes.
    - With `partial_checksums`, `receive` computes a TCP or UDP checksum that its sender left to a device, before it is
      checked. A packet socket (AF_PACKET) needs this for frames of programs on its own machine (checksum offload). It also
      needs buffers of 65,589 bytes, or a device whose segmentation offload is off.
    - `clock` is in milliseconds and never goes back.
    - ICMP errors about the path MTU are taken (RFC 1191, RFC 8201). Not supported: fragments.
    """

    def __init__(
        self,
        send: Callable[[bytes], Any],
        host: Host,
        clock: Callable[[], int] = lambda: _time(None),
        *,
        partial_checksums: bool = False,
    ) -> None:
        self.send, self.host, self.clock, self.partial_checksums = send, host, clock, partial_checksums
        self.send_error: Optional[OSError] = None
        self._sockets: List[Socket] = []
        self._ident = 0  # of the last packet that may be fragmented

    def listen(self, port: int, **options: Any) -> Socket:
        """A socket that waits for one peer at this port of the host. `options` are those of `Connection`."""
        socket = Socket(self, number_of(c_uint16, port, "port"), None, **options)
        socket.listen()
        self._sockets.append(socket)
        return socket

    def connect(self, headers: Headers, **options: Any) -> Socket:
        """Opens a connection from `headers.src` to `headers.dst`. The Ethernet header has the address of the peer, or of the
        router to it. `options` are those of `Connection`."""
        to_c(c.Frame, headers, "headers")  # raises TypeError
        socket = Socket(self, 0, headers, **options)
        socket.send(socket.connect(self.clock()))
        self._sockets.append(socket)
        return socket

    def receive(self, frame: Data) -> None:
        """Takes an Ethernet frame that came, and sends what answers it."""
        data = data_of(frame)
        parsed, options = parse_frame_options(data)
        if self.partial_checksums and parsed.reason is None and parsed.transport_checksum == Verdict.PARTIAL:
            data = fill_checksum(data)
            parsed, options = parse_frame_options(data)
        is_right = parsed.transport_checksum == Verdict.VALID  # one that is left to a device is wrong, as for the host
        if is_right and parsed.reason is None and parsed.ipv4_checksum != Verdict.INVALID:
            socket = self._found(parsed)
            if socket is not None and parsed.tcp is not None and options is not None:
                socket.send(socket.step(Segment(parsed.tcp, options, parsed.payload), self.clock()))
                return
            self._learn_mtu(parsed)
        answer = self.host.answer(data)
        if answer is not None:
            self._transmit(answer)

    def _transmit(self, frame: bytes) -> None:
        """Sends an Ethernet frame. If `send` raises OSError, the frame is lost, and `send_error` is this error."""
        try:
            self.send(frame)
        except OSError as error:
            self.send_error = error

    def _identified(self, headers: Headers) -> Headers:
        """The headers of the next packet: one that may be fragmented has another identification than those before, also of
        other sockets (RFC 6864, section 4.3)."""
        if headers.src.addr.version == 6 or headers.ip.dont_fragment:
            return headers
        self._ident = (self._ident + 1) % 65536
        return replace(headers, ip=replace(headers.ip, ident=self._ident))

    def tick(self) -> Optional[int]:
        """Sends what is to be sent at this time. Returns when to call it again, if no frame comes and no socket is used
        before. None: never. A socket whose connection has ended leaves the stack."""
        for socket in self._sockets:
            socket.send(None)
        self._sockets = [socket for socket in self._sockets if socket.state != ConnectionState.CLOSED]
        return min((due for due in [socket.next_timeout for socket in self._sockets] if due is not None), default=None)

    def _found(self, frame: Frame) -> Optional[Socket]:
        """The socket of a segment: that of its endpoints, or one that listens."""
        own, peer = frame.dst, frame.src
        if frame.transport != Transport.TCP or own is None or peer is None:
            return None
        for socket in self._sockets:
            if socket.is_between(own, peer):
                return socket
        is_own = frame.ethernet is not None and frame.ethernet.dst == self.host.hardware
        if not is_own or own.addr not in (self.host.ipv4, self.host.ipv6) or own.addr == peer.addr or not is_unicast(peer.addr):
            return None
        for socket in self._sockets:
            if socket.state == ConnectionState.LISTEN and socket.port == own.port:
                socket.headers = frame.reply()
                return socket
        return None

    def _learn_mtu(self, frame: Frame) -> None:
        """Takes the path MTU of an ICMP error about a segment of a socket."""
        sent, icmp = frame.parse_quoted(), frame.icmp
        if sent is None or icmp is None or sent.src is None or sent.dst is None or sent.network != frame.network:
            return
        if frame.network == Network.IPV6:
            is_too_big = icmp.type == Icmpv6Type.PACKET_TOO_BIG
        else:
            is_too_big = (icmp.type, icmp.code) == (IcmpType.UNREACHABLE, IcmpCode.FRAGMENTATION_NEEDED)
        header = sent.tcp_header or sent.payload
        if not is_too_big or sent.protocol != Protocol.TCP or len(header) < 8:
            return
        own_port, peer_port, seq_number = struct.unpack_from(">HHI", header)
        for socket in self._sockets:
            if socket.is_between(Endpoint(sent.src.addr, own_port), Endpoint(sent.dst.addr, peer_port)):
                socket._lower_mtu(seq_number, icmp.word if frame.network == Network.IPV6 else icmp.word & 0xFFFF)
