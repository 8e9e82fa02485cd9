//! `lk_read_frame` and `lk_find_tcp_options` over smoltcp 0.14. smoltcp does not say why it rejects a
//! header, so that the reason is always `LK_BAD_LENGTH`. Of four SACK ranges it keeps three.

use crate::input;
use crate::structs::*;
use smoltcp::phy::ChecksumCapabilities;
use smoltcp::wire::*;
use smoltcp::wire::TcpOption;

const READ: u8 = 0;
const REJECTED: u8 = 3;
const ARP: u8 = 1;
const IPV4: u8 = 2;
const IPV6: u8 = 3;
const UDP: u8 = 1;
const TCP: u8 = 2;
const RIGHT: u8 = 1;
const WRONG: u8 = 2;
const LEFT_OUT: u8 = 3;
const LEFT_TO_DEVICE: u8 = 4;

pub fn addr(address: IpAddress) -> Addr {
    let mut octets = [0; 16];
    match address {
        IpAddress::Ipv4(address) => {
            octets[..4].copy_from_slice(&address.octets());
            Addr { octets, version: 4 }
        }
        IpAddress::Ipv6(address) => Addr { octets: address.octets(), version: 6 },
    }
}

impl Frame {
    /// Nothing is read of so many bytes.
    fn nothing(len: usize) -> Frame {
        Frame { payload_len: len, ..unsafe { std::mem::zeroed() } }
    }

    fn follow(&mut self, header_len: usize, payload_len: usize) {
        self.payload_offset += header_len;
        self.payload_len = payload_len;
    }

    fn store(&mut self, bytes: &[u8]) -> Result<()> {
        let frame = EthernetFrame::new_checked(bytes)?;
        let header = EthernetRepr::parse(&frame)?;
        self.ethernet = Ethernet {
            src: header.src_addr.0,
            dst: header.dst_addr.0,
            r#type: header.ethertype.into(),
        };
        self.follow(14, frame.payload().len());
        match header.ethertype {
            EthernetProtocol::Arp => self.store_arp(frame.payload()),
            EthernetProtocol::Ipv4 => self.store_ipv4(frame.payload()),
            EthernetProtocol::Ipv6 => self.store_ipv6(frame.payload()),
            EthernetProtocol::Unknown(_) => Ok(()),
        }
    }

    fn store_network(&mut self, network: u8, src: IpAddress, dst: IpAddress) {
        self.network = network;
        self.network_offset = 14;
        self.src.addr = addr(src);
        self.dst.addr = addr(dst);
    }

    fn store_arp(&mut self, bytes: &[u8]) -> Result<()> {
        let ArpRepr::EthernetIpv4 {
            operation,
            source_hardware_addr,
            source_protocol_addr,
            target_hardware_addr,
            target_protocol_addr,
        } = ArpRepr::parse(&ArpPacket::new_checked(bytes)?)?
        else {
            return Err(Error);
        };
        self.store_network(ARP, source_protocol_addr.into(), target_protocol_addr.into());
        self.arp = Arp {
            operation: operation.into(),
            src_hardware: source_hardware_addr.0,
            dst_hardware: target_hardware_addr.0,
        };
        self.follow(28, 0);
        Ok(())
    }

    fn store_ipv4(&mut self, bytes: &[u8]) -> Result<()> {
        let packet = Ipv4Packet::new_checked(bytes)?;
        let header = Ipv4Repr::parse(&packet, &ChecksumCapabilities::ignored())?;
        self.store_network(IPV4, header.src_addr.into(), header.dst_addr.into());
        self.ip = Ip {
            ident: packet.ident().into(),
            fragment_offset: packet.frag_offset(),
            protocol: header.next_header.into(),
            hop_limit: header.hop_limit,
            dscp: packet.dscp(),
            ecn: packet.ecn(),
            more_fragments: packet.more_frags().into(),
            dont_fragment: packet.dont_frag().into(),
            flow_label: 0,
        };
        self.protocol = header.next_header.into();
        self.ipv4_checksum = if packet.verify_checksum() { RIGHT } else { WRONG };
        self.is_fragment = (packet.more_frags() || packet.frag_offset() != 0).into();
        self.follow(packet.header_len().into(), packet.payload().len());
        if self.is_fragment != 0 {
            return Ok(());
        }
        self.store_transport(&header.into(), packet.payload())
    }

    fn store_ipv6(&mut self, bytes: &[u8]) -> Result<()> {
        let packet = Ipv6Packet::new_checked(bytes)?;
        let header = Ipv6Repr::parse(&packet)?;
        self.store_network(IPV6, header.src_addr.into(), header.dst_addr.into());
        self.ip.protocol = header.next_header.into();
        self.protocol = header.next_header.into();
        self.ip.hop_limit = header.hop_limit;
        self.ip.dscp = packet.traffic_class() >> 2;
        self.ip.ecn = packet.traffic_class() & 3;
        self.ip.flow_label = packet.flow_label();
        self.follow(packet.header_len(), packet.payload().len());
        if header.next_header == IpProtocol::Ipv6Frag && packet.payload().len() >= 8 {
            self.store_fragment(&Ipv6FragmentHeader::new_checked(&packet.payload()[2..])?);
        }
        self.store_transport(&header.into(), packet.payload())
    }

    /// The payload begins at the fragment header.
    fn store_fragment(&mut self, header: &Ipv6FragmentHeader<&[u8]>) {
        self.ip.ident = header.ident();
        self.ip.fragment_offset = 8 * header.frag_offset();
        self.ip.more_fragments = header.more_frags().into();
        self.is_fragment = (header.more_frags() || header.frag_offset() != 0).into();
    }

    fn store_transport(&mut self, ip: &IpRepr, bytes: &[u8]) -> Result<()> {
        match ip.next_header() {
            IpProtocol::Udp => self.store_udp(ip, bytes),
            IpProtocol::Tcp => self.store_tcp(ip, bytes),
            _ => Ok(()),
        }
    }

    /// The header is rejected until it is accepted.
    fn store_ports(&mut self, transport: u8, src_port: u16, dst_port: u16) {
        self.rejected = transport;
        self.transport_offset = self.payload_offset;
        self.src.port = src_port;
        self.dst.port = dst_port;
    }

    fn accept(&mut self, transport: u8, header_len: usize, payload_len: usize) {
        self.rejected = 0;
        self.transport = transport;
        self.follow(header_len, payload_len);
    }

    fn store_udp(&mut self, ip: &IpRepr, bytes: &[u8]) -> Result<()> {
        let (src, dst) = (ip.src_addr(), ip.dst_addr());
        if bytes.len() < 8 {
            return Err(Error);
        }
        let packet = UdpPacket::new_unchecked(bytes);
        self.store_ports(UDP, packet.src_port(), packet.dst_port());
        packet.check_len()?;
        self.transport_checksum = if packet.checksum() == 0 {
            if self.network == IPV4 { LEFT_OUT } else { WRONG }
        } else if packet.verify_checksum(&src, &dst) {
            RIGHT
        } else if packet.verify_partial_checksum(&src, &dst) {
            LEFT_TO_DEVICE
        } else {
            WRONG
        };
        UdpRepr::parse(&packet, &src, &dst, &ChecksumCapabilities::ignored())?;
        self.accept(UDP, 8, packet.payload().len());
        Ok(())
    }

    fn store_tcp(&mut self, ip: &IpRepr, bytes: &[u8]) -> Result<()> {
        let (src, dst) = (ip.src_addr(), ip.dst_addr());
        if bytes.len() < 20 {
            return Err(Error);
        }
        let packet = TcpPacket::new_unchecked(bytes);
        self.store_ports(TCP, packet.src_port(), packet.dst_port());
        self.tcp = Tcp {
            seq_number: packet.seq_number().0 as u32,
            ack_number: packet.ack_number().0 as u32,
            window_len: packet.window_len(),
            urgent_at: packet.urgent_at(),
            flags: flags(&packet),
            header_len: packet.header_len(),
        };
        self.transport_checksum = if packet.verify_checksum(&src, &dst) {
            RIGHT
        } else if packet.verify_partial_checksum(&src, &dst) {
            LEFT_TO_DEVICE
        } else {
            WRONG
        };
        packet.check_len()?;
        let header = TcpRepr::parse(&packet, &src, &dst, &ChecksumCapabilities::ignored())?;
        self.accept(TCP, packet.header_len().into(), header.payload.len());
        Ok(())
    }
}

/// The eight flags of a header.
fn flags(packet: &TcpPacket<&[u8]>) -> u8 {
    u8::from(packet.fin())
        | u8::from(packet.syn()) << 1
        | u8::from(packet.rst()) << 2
        | u8::from(packet.psh()) << 3
        | u8::from(packet.ack()) << 4
        | u8::from(packet.urg()) << 5
        | u8::from(packet.ece()) << 6
        | u8::from(packet.cwr()) << 7
}

#[unsafe(no_mangle)]
pub unsafe extern "C" fn lk_read_frame(ptr: *const u8, len: usize, frame: *mut Frame) -> i32 {
    let frame = unsafe { &mut *frame };
    let bytes = unsafe { input(ptr, len) };
    *frame = Frame::nothing(bytes.len());
    let read = frame.store(bytes);
    frame.payload_captured = frame.payload_len;
    frame.reason = if read.is_ok() { READ } else { REJECTED };
    frame.reason.into()
}

fn options(header: &[u8]) -> Result<TcpOptions> {
    let packet = TcpPacket::new_checked(header)?;
    let mut rest = packet.options();
    let mut found = TcpOptions::default();
    while !rest.is_empty() {
        let (next, option) = TcpOption::parse(rest)?;
        match option {
            TcpOption::EndOfList => break,
            TcpOption::NoOperation | TcpOption::Unknown { .. } => (),
            TcpOption::MaxSegmentSize(size) => {
                found.has_mss = 1;
                found.mss = size;
            }
            TcpOption::WindowScale(scale) => {
                found.has_window_scale = 1;
                found.window_scale = scale.min(14);
            }
            TcpOption::SackPermitted => found.sack_permitted = 1,
            TcpOption::SackRange(ranges) => {
                for (place, (left, right)) in found.sack_ranges.iter_mut().zip(ranges.iter().flatten()) {
                    *place = SackRange { left: *left, right: *right };
                }
                found.sack_range_count = ranges.iter().flatten().count() as u8;
            }
            TcpOption::TimeStamp { tsval, tsecr } => {
                found.has_timestamp = 1;
                found.tsval = tsval;
                found.tsecr = tsecr;
            }
        }
        rest = next;
    }
    Ok(found)
}

#[unsafe(no_mangle)]
pub unsafe extern "C" fn lk_find_tcp_options(
    ptr: *const u8,
    len: usize,
    stored: *mut TcpOptions,
) -> i32 {
    match options(unsafe { input(ptr, len) }) {
        Ok(found) => {
            unsafe { *stored = found };
            1
        }
        Err(_) => 0,
    }
}
