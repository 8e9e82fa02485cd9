"""Tests TCP connections: two hosts over a device in memory, which drops frames."""
import errno
import random
import struct
import unittest
from collections import deque
from ipaddress import ip_address

import ip_wire
from ip_wire import Connection, ConnectionState, Ethernet, Headers, Host, Interface, Problem, Segment, Stack, Tcp, TcpFlag
from ip_wire import Transport
from model import CLIENT, SERVER, checksum, pseudo

HOSTS = [Host(hardware, ip_address(ipv4), ip_address(ipv6), 1)
         for hardware, ipv4, ipv6 in ((CLIENT, "192.0.2.1", "2001:db8::1"), (SERVER, "192.0.2.2", "2001:db8::2"))]  # fmt: skip


def headers(own, peer):
    """From the client to the server."""
    return Headers(Ethernet(CLIENT, SERVER), ip_wire.parse_endpoint(own), ip_wire.parse_endpoint(peer))


def without_checksum(frame):
    """A frame whose checksum is left to the device of its sender: the field has the sum of the pseudo-header."""
    parsed = ip_wire.parse_frame(frame)
    if parsed.transport != Transport.TCP:
        return frame
    start = parsed.transport_offset
    total = checksum(pseudo(parsed.src.addr, parsed.dst.addr, 6, len(frame) - start)) ^ 0xFFFF
    return frame[: start + 16] + struct.pack(">H", total) + frame[start + 18 :]


class Network:
    """Two hosts behind a router with an MTU, and a clock that moves when nothing else does. Every other lost frame makes
    `send` raise. `change` changes each frame. `told` is the MTU in the errors of the router."""

    def __init__(self, loss, change=lambda frame: frame, mtu=1280, told=None, **options):
        rng, queues = random.Random(1), [deque(), deque()]
        router = Interface(SERVER, ip_address("192.0.2.254"), ip_address("2001:db8::fe"))
        self.now, self.arriving, self.frames = 0, queues, []

        def sender(place):
            def send(frame):
                error = router.emit_error(Problem.PACKET_TOO_BIG, frame, mtu)
                if error and told is not None:
                    error = ip_wire.fill_checksum(error[:40] + struct.pack(">H", told) + error[42:])
                if not error:
                    self.frames.append(frame)
                if error or rng.random() >= loss:
                    queues[place if error else 1 - place].append(error or change(frame))
                elif rng.random() < 0.5:
                    raise OSError(errno.ENOBUFS, "No buffer space available")

            return send

        self.stacks = [Stack(sender(place), HOSTS[place], lambda: self.now, **options) for place in (0, 1)]

    def run(self, work=lambda: False):
        """Until there is nothing to do."""
        while True:
            dues = [due for due in [stack.tick() for stack in self.stacks] if due is not None]
            if any(self.arriving):
                for stack, queue in zip(self.stacks, self.arriving):
                    while queue:
                        stack.receive(queue.popleft())
            elif not work():
                if not dues or min(dues) > 3_600_000:
                    return
                self.now = max(self.now, min(dues))


class Sockets(unittest.TestCase):
    def test_all_bytes(self):
        rng = random.Random(2)
        for own, peer in (("192.0.2.1:4000", "192.0.2.2:80"), ("[2001:db8::1]:4000", "[2001:db8::2]:80")):
            network, read = Network(0.02), [b"", b""]
            written = [rng.getrandbits(8_000_000).to_bytes(1_000_000, "big") for _ in range(2)]
            server = network.stacks[1].listen(80, outgoing=100_000, mss=1440)
            client = network.stacks[0].connect(headers(own, peer), incoming=50_000, mss=1440)
            left = [*written]

            def work():
                done = 0
                for place, socket in enumerate((client, server)):
                    taken, came = socket.write(left[place][:4096]), socket.read()
                    left[place], read[place] = left[place][taken:], read[place] + came
                    done += taken + len(came)
                    if not left[place]:
                        socket.close()
                return done

            network.run(work)
            self.assertEqual((server.headers.dst, server.headers.ethernet.dst), (ip_wire.parse_endpoint(own), CLIENT))
            self.assertTrue(read == written[::-1] and client.at_eof and server.at_eof)
            self.assertEqual([client.state, server.state, client.next_timeout], [ConnectionState.CLOSED, ConnectionState.CLOSED, None])
            self.assertEqual({stack.send_error.errno for stack in network.stacks}, {errno.ENOBUFS})

    def test_frames_that_are_not_sent(self):
        """A read and a write whose frame `send` does not take: nothing is lost, and nothing is there twice."""
        failing, network = [], Network(0)
        for stack in network.stacks:

            def send(frame, take=stack.send):
                if failing:
                    raise failing.pop()
                take(frame)

            stack.send = send
        server = network.stacks[1].listen(80, incoming=2000)
        client = network.stacks[0].connect(headers("192.0.2.1:4000", "192.0.2.2:80"))
        network.run()
        failing.append(OSError(errno.ENOBUFS, "No buffer space available"))
        self.assertEqual((client.write(b"hello"), failing), (5, []))
        network.run()
        self.assertEqual((server.read(), client.write(b"x" * 2000)), (b"hello", 2000))
        network.run()
        failing.append(BlockingIOError(errno.EAGAIN, "Resource temporarily unavailable"))
        self.assertEqual((server.read(1500), failing), (b"x" * 1500, []))
        network.run()
        self.assertEqual((server.read(), client.unacked), (b"x" * 500, 0))
        self.assertEqual([stack.send_error.errno for stack in network.stacks], [errno.ENOBUFS, errno.EAGAIN])

    def test_old_routers(self):
        """An error that tells less than 576 for IPv4: packets of 576 bytes without DF, each with its own identification."""
        for told in (0, 20, 39, 68, 300, 575):
            network, sockets = Network(0, mtu=300, told=told), []
            for port in (80, 81):
                server = network.stacks[1].listen(port, mss=1460)
                client = network.stacks[0].connect(headers(f"192.0.2.1:{port}", f"192.0.2.2:{port}"), mss=1460)
                sockets.append((client, server))
            network.run()
            for client, _ in sockets:
                self.assertEqual(client.write(b"x" * 20_000), 20_000)
            network.run()
            self.assertEqual([len(server.read()) for _, server in sockets], [20_000, 20_000], told)
            parsed = [ip_wire.parse_frame(frame).ip for frame in network.frames]
            idents = [ip.ident for ip in parsed if not ip.dont_fragment]
            long = [(len(frame) - 14, ip.dont_fragment) for frame, ip in zip(network.frames, parsed) if len(frame) > 14 + 300]
            self.assertEqual((len(set(idents)), max(long), {df for _, df in long}), (len(idents), (576, False), {False}))

    def test_partial_checksums(self):
        """Only a stack that computes them takes segments whose checksum is left to the device of their sender."""
        for own, peer in (("192.0.2.1:4000", "192.0.2.2:80"), ("[2001:db8::1]:4000", "[2001:db8::2]:80")):
            for is_taken in (False, True):
                network = Network(0, without_checksum, partial_checksums=is_taken)
                server, client = network.stacks[1].listen(80), network.stacks[0].connect(headers(own, peer))
                network.run()
                client.write(b"ping")
                network.run()
                came = ("ESTABLISHED", b"ping") if is_taken else ("CLOSED", b"")
                self.assertEqual((client.state.name, server.read()), came)

    def test_others(self):
        """Another port gets a RST, and another address nothing."""
        for peer, states in (
            ("192.0.2.2:80", ("ESTABLISHED", "ESTABLISHED")),
            ("192.0.2.2:81", ("CLOSED", "LISTEN")),
            ("192.0.2.3:80", ("CLOSED", "LISTEN")),  # after three minutes
        ):
            network = Network(0)
            server, client = network.stacks[1].listen(80), network.stacks[0].connect(headers("192.0.2.1:4000", peer))
            network.run()
            self.assertEqual((client.state.name, server.state.name), states)
            client.abort()
            network.run()
            self.assertEqual(server.state.name, "LISTEN" if states[1] == "LISTEN" else "CLOSED")


class Connections(unittest.TestCase):
    def test_calls(self):
        client, server = Connection(no_delay=True), Connection()
        server.listen()
        self.assertEqual((server.state, server.write(b"a"), server.read(), server.next_timeout), (ConnectionState.LISTEN, 0, b"", None))
        syn = client.connect(0, 5)
        self.assertEqual((syn.tcp.seq_number, syn.tcp.flags, syn.options.mss), (5, TcpFlag.SYN, 1220))
        self.assertEqual((client.unacked, client.next_timeout, client.connect(0)), (1, 1000, None))  # RFC 6298, section 2
        answer = server.step(syn, 0, 9)
        self.assertEqual((answer.tcp.seq_number, answer.tcp.ack_number), (9, 6))
        self.assertIsNone(server.step(client.step(answer, 0), 0))
        self.assertEqual(client.write(b"ping"), 4)
        self.assertIsNone(server.step(client.tick(0), 0))
        self.assertEqual((server.read(3), server.read(), server.at_eof), (b"pin", b"g", False))
        self.assertEqual(client.abort().tcp.flags & TcpFlag.RST, TcpFlag.RST)
        self.assertEqual(client.state, ConnectionState.CLOSED)
        reset = client.step(Segment(Tcp(1, flags=TcpFlag.SYN)), 0)
        self.assertEqual(reset.tcp, Tcp(0, 2, 0, TcpFlag.RST | TcpFlag.ACK))  # RFC 9293, section 3.10.7.1

    def test_mistakes(self):
        connection = Connection()
        for wrong in (0, 1 << 30):
            self.assertRaises(ValueError, Connection, outgoing=wrong)
            self.assertRaises(ValueError, Connection, incoming=wrong)
        self.assertRaises(ValueError, connection.step, Segment(Tcp(), payload=bytes(65536)))
        self.assertRaises(TypeError, connection.step, b"")
        self.assertRaises(ip_wire.WireError, Stack(print, HOSTS[0]).connect, headers("[::1]:1", "192.0.2.2:80"))


if __name__ == "__main__":
    unittest.main()
