//! Two hosts over a device in memory, which drops frames.

use ip_wire_c::{checksum, edit, Frame, Interface, Ip, Problem, SeqNumber, Socket};
use ip_wire_c::{
    poll, Connection, ConnectionConfig, ConnectionState, Device, Error, Ethernet, Headers, Host,
};
use std::cell::RefCell;
use std::collections::{HashSet, VecDeque};
use std::rc::Rc;
use std::time::Duration;

const CLIENT: [u8; 6] = [2, 0, 0, 0, 0, 1];
const SERVER: [u8; 6] = [2, 0, 0, 0, 0, 2];

/// From the client to the server.
fn headers(src: &str, dst: &str) -> Headers {
    Headers {
        ethernet: Ethernet::new(CLIENT.into(), SERVER.into()),
        src: src.parse().unwrap(),
        dst: dst.parse().unwrap(),
        ip: Ip::default(),
    }
}

type Queue = Rc<RefCell<VecDeque<Vec<u8>>>>;

/// The next number of a row.
fn next(number: &mut u32) -> u32 {
    *number = number.wrapping_mul(1_664_525).wrapping_add(1_013_904_223);
    *number
}

/// One end of a cable with a router, which has an MTU. Of `every` frames that it sends, one at a
/// changing place is lost or spoiled.
struct Cable {
    sends: Queue,
    receives: Queue,
    every: u32,
    count: u32,
    mtu: u32,
    told: Option<u16>, // the MTU in the errors of the router
    fragmented: Vec<(usize, Option<Ip>)>,
    sends_partial: bool,
    takes_partial: bool,
}

/// The frame with a TCP checksum that is left to a device: it has the sum of the pseudo-header.
fn with_partial_checksum(mut frame: Vec<u8>) -> Vec<u8> {
    let parsed = Frame::parse(&frame);
    if let Some(start) = parsed.transport_offset().filter(|_| parsed.tcp().is_some()) {
        let addrs = if frame[14] >> 4 == 4 { 26 } else { 22 };
        let len = u32::try_from(frame.len() - start).unwrap();
        let sum = checksum::sum(&[&frame[addrs..start], &len.to_be_bytes(), &[0, 0, 0, 6]].concat());
        frame[start + 16..start + 18].copy_from_slice(&sum.to_be_bytes());
    }
    frame
}

impl Device for Cable {
    fn partial_checksums(&self) -> bool {
        self.takes_partial
    }

    fn send(&mut self, frame: &[u8]) {
        self.count += 1;
        let router = Interface {
            ipv4: [192, 0, 2, 254].into(),
            ipv6: "2001:db8::fe".parse().unwrap(),
            hardware: SERVER.into(),
        };
        let (problem, mut out) = (Problem::PacketTooBig(self.mtu), [0; 1294]);
        if let Some(error) = router.emit_error(problem, frame, &mut out).unwrap() {
            if let Some(mtu) = self.told {
                error[40..42].copy_from_slice(&mtu.to_be_bytes());
                assert!(edit::fill_checksum(error));
            }
            self.receives.borrow_mut().push_back(error.to_vec());
            return;
        }
        if frame.len() > 14 + usize::try_from(self.mtu).unwrap() {
            self.fragmented.push((frame.len() - 14, Frame::parse(frame).ip()));
        }
        if self.count % self.every != self.count / self.every % self.every {
            let frame = frame.to_vec();
            let sent = if self.sends_partial { with_partial_checksum(frame) } else { frame };
            self.sends.borrow_mut().push_back(sent);
        } else if let Some((last, rest)) = frame.split_last().filter(|_| self.count % 2 == 0) {
            self.sends.borrow_mut().push_back([rest, &[last ^ 1]].concat());
        }
    }

    fn receive(&mut self, buffer: &mut [u8]) -> usize {
        self.receives.borrow_mut().pop_front().map_or(0, |frame| {
            buffer[..frame.len()].copy_from_slice(&frame);
            frame.len()
        })
    }
}

/// A host with one socket, and what it writes and reads.
struct End {
    cable: Cable,
    host: Host<'static>,
    sockets: [Socket<Vec<u8>>; 1],
    numbers: u32,
    written: Vec<u8>,
    sent: usize,
    read: Vec<u8>,
}

impl End {
    fn new(host: Host<'static>, sends: &Queue, receives: &Queue, every: u32) -> Self {
        let config = ConnectionConfig { mss: 1440, ..ConnectionConfig::default() };
        Self {
            cable: Cable {
                sends: sends.clone(),
                receives: receives.clone(),
                every,
                count: 0,
                mtu: 1280,
                told: None,
                fragmented: Vec::new(),
                sends_partial: false,
                takes_partial: false,
            },
            host,
            sockets: [Socket::new(&config, vec![0; 100_000], vec![0; 60_000])],
            numbers: host.seq_number.0,
            written: Vec::new(),
            sent: 0,
            read: Vec::new(),
        }
    }

    fn poll(&mut self, now: Duration) -> Result<Option<Duration>, Error> {
        let numbers = &mut self.numbers;
        let random = || next(numbers);
        poll(&mut self.cable, &self.host, &mut self.sockets, now, random, &mut [[0; 1514]; 2])
    }

    /// Writes and reads what it can.
    fn work(&mut self) -> bool {
        let (connection, mut bytes) = (&mut self.sockets[0].connection, [0; 4096]);
        let taken = connection.write(&self.written[self.sent..]);
        self.sent += taken;
        if self.sent == self.written.len() {
            connection.close();
        }
        let len = connection.read(&mut bytes);
        self.read.extend_from_slice(&bytes[..len]);
        taken + len > 0
    }

    fn state(&self) -> ConnectionState {
        self.sockets[0].connection.state()
    }
}

fn host(hardware: [u8; 6], ipv4: [u8; 4], ipv6: &str) -> Host<'static> {
    Host {
        open_ports: &[],
        open_udp_ports: &[],
        ipv4: ipv4.into(),
        ipv6: ipv6.parse().unwrap(),
        hardware: hardware.into(),
        echo_port: None,
        seq_number: SeqNumber(7),
        tsval: 0,
        window_len: 0,
        mss: 0,
        window_scale: 0,
        is_router: false,
    }
}

fn ends(every: u32) -> [End; 2] {
    let (there, back) = (Queue::default(), Queue::default());
    [
        End::new(host(CLIENT, [192, 0, 2, 1], "2001:db8::1"), &there, &back, every),
        End::new(host(SERVER, [192, 0, 2, 2], "2001:db8::2"), &back, &there, every),
    ]
}

/// Polls both hosts and moves the clock, until there is nothing to do or the end.
fn run(ends: &mut [End; 2], end: Duration) -> Duration {
    let mut now = Duration::ZERO;
    loop {
        let due = ends.iter_mut().filter_map(|end| end.poll(now).unwrap()).min();
        let is_quiet = ends.iter().all(|end| end.cable.receives.borrow().is_empty());
        if !ends.iter_mut().fold(false, |works, end| end.work() | works) && is_quiet {
            match due {
                Some(due) if due <= end => now = due,
                _ => return now,
            }
        }
    }
}

fn bytes(mut seed: u32) -> Vec<u8> {
    (0..1_000_000).map(|_| next(&mut seed).to_be_bytes()[0]).collect()
}

#[test]
fn all_bytes_arrive_though_frames_are_lost() {
    for (own, peer) in [("192.0.2.1:4000", "192.0.2.2:80"), ("[2001:db8::1]:4000", "[2001:db8::2]:80")] {
        for every in [40, 9] {
            let mut ends = ends(every);
            ends[0].written = bytes(3);
            ends[1].written = bytes(5);
            ends[0].sockets[0].connect(&headers(own, peer));
            ends[1].sockets[0].listen(80);
            run(&mut ends, Duration::from_secs(3600));
            let [client, server] = &ends;
            assert_eq!(server.sockets[0].peer(), own.parse().ok());
            assert!(client.read == server.written && server.read == client.written, "{own} {every}");
            assert!(ends.iter().all(|end| end.sockets[0].connection.at_eof()));
            assert_eq!([ends[0].state(), ends[1].state()], [ConnectionState::Closed; 2]);
        }
    }
}

fn poll_all(ends: &mut [End; 2], times: usize) {
    for _ in 0..times {
        for end in ends.iter_mut() {
            assert!(end.poll(Duration::ZERO).is_ok());
        }
    }
}

#[test]
fn others_get_no_connection() {
    use ConnectionState::{Closed, Established, Listen, SynSent};
    for (peer, client, server) in [
        ("192.0.2.2:80", Established, Established),
        ("192.0.2.2:81", Closed, Listen), // a RST
        ("192.0.2.3:80", SynSent, Listen),
    ] {
        let mut ends = ends(1000);
        ends[0].sockets[0].connect(&headers("192.0.2.1:4000", peer));
        ends[1].sockets[0].listen(80);
        poll_all(&mut ends, 3);
        assert_eq!([ends[0].state(), ends[1].state()], [client, server], "{peer}");
        ends[0].sockets[0].abort();
        poll_all(&mut ends, 1);
        assert_eq!(
            [ends[0].state(), ends[1].state()],
            [Closed, if server == Listen { Listen } else { Closed }]
        );
    }
}

/// After an error that tells less than 576, packets of 576 bytes go without DF, each with its own identification.
#[test]
fn old_routers_tell_no_mtu() {
    for told in [0, 20, 39, 68, 300, 575] {
        let mut ends = ends(1000);
        (ends[0].cable.mtu, ends[0].cable.told) = (300, Some(told));
        ends[0].written = bytes(3)[..200_000].to_vec();
        ends[1].written = bytes(5)[..200_000].to_vec();
        ends[0].sockets[0].connect(&headers("192.0.2.1:4000", "192.0.2.2:80"));
        ends[1].sockets[0].listen(80);
        run(&mut ends, Duration::from_secs(3600));
        assert!(ends[1].read == ends[0].written && ends[0].read == ends[1].written, "{told}");
        let fragmented = &ends[0].cable.fragmented;
        assert_eq!(fragmented.iter().map(|it| it.0).max(), Some(576));
        assert!(fragmented.iter().all(|it| !it.1.unwrap().dont_fragment));
        let idents: HashSet<u32> = fragmented.iter().map(|it| it.1.unwrap().ident).collect();
        assert_eq!(idents.len(), fragmented.len());
    }
}

/// Only a device that says so takes segments whose checksum is left to the device of their sender.
#[test]
fn partial_checksums_are_computed() {
    use ConnectionState::{Established, SynSent};
    for (own, peer) in [("192.0.2.1:4000", "192.0.2.2:80"), ("[2001:db8::1]:4000", "[2001:db8::2]:80")] {
        for (takes_partial, state, len) in [(false, SynSent, 0), (true, Established, 4)] {
            let mut ends = ends(1000);
            for end in &mut ends {
                (end.cable.sends_partial, end.cable.takes_partial) = (true, takes_partial);
            }
            ends[0].sockets[0].connect(&headers(own, peer));
            ends[1].sockets[0].listen(80);
            poll_all(&mut ends, 3);
            ends[0].sockets[0].connection.write(b"ping");
            poll_all(&mut ends, 3);
            let mut bytes = [0; 9];
            assert_eq!(ends[1].sockets[0].connection.read(&mut bytes), len, "{own}");
            assert_eq!((ends[0].state(), &bytes[..len]), (state, &b"ping"[..len]));
        }
    }
}

/// A device that always has a frame. It counts frames in both directions.
struct Flood {
    received: u32,
    sent: u32,
}

impl Device for Flood {
    fn send(&mut self, _: &[u8]) {
        self.sent += 1;
    }

    fn receive(&mut self, buffer: &mut [u8]) -> usize {
        self.received += 1;
        assert!(self.received < 10_000, "poll does not return");
        buffer[..60].fill(0);
        60
    }
}

#[test]
fn poll_returns_under_a_flood() {
    let ([mut client, _], mut flood) = (ends(1000), Flood { received: 0, sent: 0 });
    client.sockets[0].connect(&headers("192.0.2.1:4000", "192.0.2.2:80"));
    for (second, sent) in [(0, 1), (0, 1), (1, 2), (3, 3)] {
        let now = Duration::from_secs(second); // the SYN goes at 0, 1 and 3 seconds
        let host = client.host;
        let due = poll(&mut flood, &host, &mut client.sockets, now, || 5, &mut [[0; 1514]; 2]);
        assert_eq!((due, flood.sent), (Ok(Some(now)), sent));
    }
}

#[test]
fn mistakes_are_told() {
    let [mut client, _] = ends(1000);
    let src = "[::1]:4000".parse().unwrap();
    let mixed = Headers { src, ..headers("192.0.2.1:1", "192.0.2.2:80") };
    client.sockets[0].connect(&mixed);
    assert_eq!(client.poll(Duration::ZERO), Err(Error::TwoVersions));
    client.sockets[0] = Socket::new(&ConnectionConfig::default(), vec![0; 9], vec![]);
    client.sockets[0].connect(&headers("192.0.2.1:1", "192.0.2.2:80"));
    assert_eq!((client.poll(Duration::ZERO), client.state()), (Ok(None), ConnectionState::Closed));
    let mut connection = Connection::new(&ConnectionConfig::default(), [0; 2], [1; 2]);
    assert_eq!((connection.write(b"a"), connection.read(&mut [0]), connection.next_timeout()), (0, 0, None));
    assert_eq!(connection.connect(Duration::ZERO, SeqNumber(5)).unwrap().tcp.seq_number, SeqNumber(5));
    assert_eq!((connection.unacked(), connection.into_parts()), (1, ([0; 2], [1; 2])));
}
