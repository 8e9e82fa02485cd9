"""Namespaces, links and programs for router.py, nat.py and icmp_tests.py."""
import atexit
import contextlib
import os
import re
import select
import signal
import socket
import struct
import subprocess
import sys
import time

from bridge import Side, in_namespace, set_namespace
from client import check, kernel_errors
from packets import word_sum
from waits import LATEST, is_idle, joins_groups, until

TOP = os.path.dirname(os.path.dirname(os.path.dirname(os.path.abspath(__file__))))
SO_RCVBUFFORCE, SOL_PACKET, PACKET_STATISTICS = 33, 263, 6
# By the version of IP: the level of options; IP_RECVERR, IP_TTL and IP_MTU_DISCOVER; where an error has the address.
MTU_DISCOVER = 10
ERROR_OPTIONS = {socket.AF_INET: (socket.IPPROTO_IP, 11, socket.IP_TTL, MTU_DISCOVER, slice(20, 24)),
                 socket.AF_INET6: (socket.IPPROTO_IPV6, 25, socket.IPV6_UNICAST_HOPS, 23, slice(24, 40))}
# The interface's MTU counts, with DF and without.
PMTUDISC_PROBE, PMTUDISC_INTERFACE = 3, 4
IP_FREEBIND = 15  # for an address that is not there yet
SELF = str(os.getpid())
# No host has this address, so no kernel takes a frame to it.
ELSEWHERE = bytes.fromhex("02000000ee0e")


class Namespace:
    """A network namespace, which a process keeps."""

    def __init__(self):
        self.keeper = subprocess.Popen(["unshare", "--net", "sh", "-c", "echo ready && exec sleep infinity"], stdout=subprocess.PIPE)
        self.keeper.stdout.readline()
        self.process = str(self.keeper.pid)
        atexit.register(self.keeper.kill)
        self.run("ip link set lo up")

    def run(self, script):
        subprocess.run(["nsenter", "--target", self.process, "--net", "sh", "-ec", script], check=True)

    def waits_for_neighbours(self, device):
        """The kernel looks for one for a minute, and not for 3 s, before a packet to it is lost. In a user namespace it has no
        such setting."""
        self.run(f"sysctl -q net.ipv4.neigh.{device}.mcast_solicit=60 net.ipv6.neigh.{device}.mcast_solicit=60 2> /dev/null || true")

    def serve(self, *addresses):
        server = in_namespace(self.process, f"{TOP}/tests/kernel/echo_server.py", *addresses)
        server.stdout.readline()
        return server

    def listens(self, family, address, device):
        """A UDP socket with an address that the host has from now on."""
        with self.entered():
            server = socket.socket(family, socket.SOCK_DGRAM)
        server.settimeout(LATEST)
        server.setsockopt(socket.IPPROTO_IP, IP_FREEBIND, 1)
        server.bind((address, 7))
        self.run(f"ip address add {address}/{'32' if family == socket.AF_INET else '128 nodad'} dev {device}")
        joins_groups(self.process)
        return server

    def errors(self):
        return in_namespace(self.process, sys.executable, f"{TOP}/tests/kernel/bridge.py", "errors").communicate()[0]

    @contextlib.contextmanager
    def entered(self):
        """This thread is in the namespace."""
        with open("/proc/thread-self/ns/net", "rb") as own, open(f"/proc/{self.process}/ns/net", "rb") as other:
            set_namespace(other)
            try:
                yield
            finally:
                set_namespace(own)


class Here(Namespace):
    """The namespace of this process."""

    def __init__(self):
        self.process = SELF


class Program:
    """A router or NAT that runs in a namespace, on these interfaces. `wrap` is a command that runs it."""

    running = []

    def __init__(self, namespace, program, config, interfaces, options=(), env=None, wrap=()):
        self.last, self.errors = interfaces[-1].split(":")[1], f"{program}.err"
        self.config = f"{program}.config"
        self.write(config)
        command = ["nsenter", "--target", namespace.process, "--net", *wrap, program, *options, self.config, *interfaces]
        with open(self.errors, "w", encoding="ascii") as errors:
            self.process = subprocess.Popen(command, stdout=subprocess.PIPE, stderr=errors, text=True, env=env)
        if self.process.stdout.readline() != "ready\n":
            sys.exit(f"tests/kernel: {program} does not start: {self.messages()}")
        self.read_lines()
        self.running.append(self.process.pid)

    def write(self, config):
        self.text = config
        with open(self.config, "w", encoding="ascii") as file:
            file.write(config)

    def has_again(self, config):
        """It reads its file again, which has another text."""
        self.write(config)
        self.process.send_signal(signal.SIGHUP)

    def messages(self):
        with open(self.errors, encoding="ascii") as errors:
            return errors.read()

    def waits_for(self, message, lines=0):
        """Whether it prints this message, after so many lines."""
        return until(lambda: message in "\n".join(self.messages().split("\n")[lines:]))

    def looks(self):
        """Waits until it has looked at its interfaces, as it does each second and whenever it is woken after one."""
        time.sleep(1.1)
        for _ in range(2):
            self.counters()

    def read_lines(self):
        """The lines up to that of the last interface."""
        lines = []
        while not (lines and lines[-1].startswith(self.last + ":")):
            line = self.process.stdout.readline()
            if not line:
                break
            lines.append(line)
        return lines

    def counters(self):
        """The counters by their names; those of an interface as "left sent"."""
        self.process.send_signal(signal.SIGUSR1)
        found = {}
        for line in self.read_lines():
            front, name, rest = re.fullmatch(r"((?:(.*): )?)(.*)\n", line).groups()
            for part in re.sub(", gone$", "", rest).split(", "):
                what, value = part.rsplit(" ", 1)
                found[what if name in (None, "dropped") else f"{name} {what}"] = int(value)
        return found

    def ends(self, what, status=0):
        """It ends by SIGTERM, with this status."""
        self.process.send_signal(signal.SIGTERM)
        try:
            found = self.process.wait(LATEST)
        except subprocess.TimeoutExpired:
            self.process.kill()
            found = self.process.wait()
        check("SIGTERM", found == status, (what, found))
        self.process.stdout.close()
        self.running.remove(self.process.pid)


class WideSide(Side):
    """A side that keeps many frames until they are taken: in a user namespace fewer, so that it may lose some."""

    is_short = False

    def __init__(self, process, device):
        super().__init__(process, device)
        try:
            self.sock.setsockopt(socket.SOL_SOCKET, SO_RCVBUFFORCE, 1 << 27)
        except PermissionError:  # in a user namespace
            self.sock.setsockopt(socket.SOL_SOCKET, socket.SO_RCVBUF, 1 << 27)

    def has_lost(self):
        """Whether it has lost frames since they were last forgotten."""
        self.is_short |= struct.unpack("II", self.sock.getsockopt(SOL_PACKET, PACKET_STATISTICS, 8))[1] > 0
        return self.is_short

    def forget(self):
        super().forget()
        self.has_lost()
        self.is_short = False


def wait_until_idle():
    """Waits until all routers and NATs have taken the frames and signals that they got."""
    return until(lambda: all(map(is_idle, Program.running)))


def settle(*sides):
    """Takes frames on all sides until the programs are idle and no more come. Whether none was lost."""
    wait_until_idle()
    while any([side.take(0.02) for side in sides]):
        wait_until_idle()
    return not any([side.has_lost() for side in sides])


def udp_echo(family, place, data, source=None, options=(), wait=LATEST):
    """What comes back of a UDP packet, or the error."""
    with socket.socket(family, socket.SOCK_DGRAM) as sock:
        sock.settimeout(wait)
        for option in options:
            sock.setsockopt(*option)
        if source:
            sock.bind(source)
        sock.sendto(data, place)
        try:
            return sock.recv(65535)
        except OSError as error:
            return error


def ping(family, address, data, number, source=None, wait=LATEST):
    """Whether an ICMP echo comes back."""
    is_ipv4 = family == socket.AF_INET
    with socket.socket(family, socket.SOCK_RAW, socket.IPPROTO_ICMP if is_ipv4 else socket.IPPROTO_ICMPV6) as sock:
        if source:
            sock.bind((source, 0))
        body = number.to_bytes(2, "big") * 2 + data
        front = bytes([8 if is_ipv4 else 128, 0])
        total = 0xFFFF - word_sum(front + b"\0\0" + body) if is_ipv4 else 0
        sock.sendto(front + total.to_bytes(2, "big") + body, (address, 0))
        end = time.monotonic() + wait
        while select.select([sock], [], [], max(0, end - time.monotonic()))[0]:
            answer = sock.recv(70000)
            answer = answer[(answer[0] & 15) * 4 :] if is_ipv4 else answer
            if answer[:1] == (b"\0" if is_ipv4 else b"\x81") and answer[4:] == body:
                return True
    return False


def reads_smaller_mtu(family, place, length=1400):
    """Waits until a packet of this length, which no longer fits a link, gets an error: a router looks at its interfaces once a
    second. The sockets stay open as long as an error may come, because the kernel counts one that finds none."""
    level, recverr, _, discover, _ = ERROR_OPTIONS[family]
    poll, end = select.poll(), time.monotonic() + LATEST
    with contextlib.ExitStack() as sockets:
        while not poll.poll(50) and time.monotonic() < end:
            sock = sockets.enter_context(socket.socket(family, socket.SOCK_DGRAM))
            for option, value in ((recverr, 1), (discover, PMTUDISC_PROBE)):
                sock.setsockopt(level, option, value)
            sock.connect(place)
            poll.register(sock, select.POLLERR)
            sock.send(bytes(length))
        wait_until_idle()


def reads_whole_mtu(place):
    """Waits until a packet of 1400 bytes passes again, and forgets what the kernel knows of MTUs."""
    def passes():
        Here().run("ip route flush cache && ip -6 route flush cache")
        probe = socket.IPPROTO_IP, MTU_DISCOVER, PMTUDISC_PROBE
        return udp_echo(socket.AF_INET, place, bytes(1400), options=[probe], wait=1) == bytes(1400)

    return until(passes)


def udp_error(family, place, data=b"", hop_limit=64, source=None, options=b""):
    """The ICMP error about a UDP packet, over IPv6 with these destination options: its type and code, the number after them,
    and who sent it; or None."""
    level, recverr, hops, discover, place_of_addr = ERROR_OPTIONS[family]
    with socket.socket(family, socket.SOCK_DGRAM) as sock:
        for option, value in ((recverr, 1), (hops, hop_limit), (discover, PMTUDISC_PROBE)):
            sock.setsockopt(level, option, value)
        if options:
            sock.setsockopt(socket.IPPROTO_IPV6, socket.IPV6_DSTOPTS, options)
        if source:
            sock.bind(source)
        sock.connect(place)  # so that the error must quote this address
        sock.send(data)
        poll = select.poll()
        poll.register(sock, select.POLLERR)
        if not poll.poll(LATEST * 1000):
            return None
        for _, _, told in sock.recvmsg(1, 1000, socket.MSG_ERRQUEUE)[1]:
            _, _, kind, code, _, number, _ = struct.unpack("=IBBBBII", told[:16])
            return kind, code, number, socket.inet_ntop(family, told[place_of_addr])
    return None


def no_errors(*namespaces):
    """No kernel has counted an error."""
    for namespace in namespaces:
        found = f"{kernel_errors()}\n" if isinstance(namespace, Here) else namespace.errors()
        check("errors that the kernel counts", found == "{}\n", found)
