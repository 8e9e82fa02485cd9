//! The calls of `include/ip_wire.h` over smoltcp 0.14, to be timed beside ours.
//!
//! Build it as a shared library: `rustc --edition 2024 --crate-type cdylib -C opt-level=3 -C panic=abort
//! --extern smoltcp=libsmoltcp.rlib -L FOLDER bench/reference.rs`, with a smoltcp that has Ethernet, ARP, IPv4,
//! IPv6, UDP and TCP.
//!
//! smoltcp's values have no fields for DSCP, ECN, identifications, flow labels, the urgent pointer, URG, ECE and
//! CWR, and none for acknowledgement numbers and SACK ranges without ACK. Calls that are to write these fail. IPv4
//! headers have the flag DF. smoltcp does not say why a call fails, so
//! that the failure is always `LK_NO_ROOM`.

mod reading;
mod structs;
mod texts;

use smoltcp::phy::ChecksumCapabilities;
use smoltcp::wire::*;
use std::slice::{from_raw_parts, from_raw_parts_mut};
use structs::*;

const NO_ROOM: isize = -(11 << 40);
const MAX_LEN: usize = (1 << 40) - 1;

/// An input; one that is too long counts as empty.
unsafe fn input<'a>(ptr: *const u8, len: usize) -> &'a [u8] {
    if len == 0 || len > MAX_LEN { &[] } else { unsafe { from_raw_parts(ptr, len) } }
}

/// The room of an output.
unsafe fn output<'a>(out: *mut u8, cap: usize) -> &'a mut [u8] {
    if cap == 0 || cap > MAX_LEN { &mut [] } else { unsafe { from_raw_parts_mut(out, cap) } }
}

/// A payload and the room of an output. There is none for a payload that is too long.
unsafe fn payload_and_room<'a>(
    ptr: *const u8,
    len: usize,
    out: *mut u8,
    cap: usize,
) -> (&'a [u8], &'a mut [u8]) {
    let cap = if len > MAX_LEN { 0 } else { cap };
    unsafe { (input(ptr, len), output(out, cap)) }
}

fn capabilities(computed: i32) -> ChecksumCapabilities {
    if computed == 0 {
        ChecksumCapabilities::ignored()
    } else {
        ChecksumCapabilities::default()
    }
}

fn written(len: Result<usize>) -> isize {
    len.map_or(NO_ROOM, |len| len as isize)
}

/// # Safety
/// As `include/ip_wire.h` asks, here and below.
#[unsafe(no_mangle)]
pub unsafe extern "C" fn lk_checksum(ptr: *const u8, len: usize) -> u16 {
    checksum::data(unsafe { input(ptr, len) })
}

/// The address of a struct, if it has a version.
fn address(addr: &Addr) -> Result<IpAddress> {
    match (addr.version, addr.octets) {
        (4, [a, b, c, d, ..]) => Ok(IpAddress::v4(a, b, c, d)),
        (6, octets) => Ok(IpAddress::Ipv6(octets.into())),
        _ => Err(Error),
    }
}

/// Two addresses of one version.
fn pair(src: &Addr, dst: &Addr) -> Result<(IpAddress, IpAddress)> {
    if src.version == dst.version { Ok((address(src)?, address(dst)?)) } else { Err(Error) }
}

fn ipv4(addr: &Addr) -> Result<Ipv4Address> {
    match address(addr)? {
        IpAddress::Ipv4(address) => Ok(address),
        _ => Err(Error),
    }
}

fn emit_arp(arp: &Arp, src: &Addr, dst: &Addr, out: &mut [u8]) -> Result<usize> {
    let value = ArpRepr::EthernetIpv4 {
        operation: arp.operation.into(),
        source_hardware_addr: EthernetAddress(arp.src_hardware),
        source_protocol_addr: ipv4(src)?,
        target_hardware_addr: EthernetAddress(arp.dst_hardware),
        target_protocol_addr: ipv4(dst)?,
    };
    let room = out.get_mut(..value.buffer_len()).ok_or(Error)?;
    value.emit(&mut ArpPacket::new_unchecked(room));
    Ok(value.buffer_len())
}

#[unsafe(no_mangle)]
pub unsafe extern "C" fn lk_emit_arp(
    header: &Arp,
    src: &Addr,
    dst: &Addr,
    out: *mut u8,
    cap: usize,
) -> isize {
    written(emit_arp(header, src, dst, unsafe { output(out, cap) }))
}

/// The IP header of a struct, if smoltcp has its values.
fn ip_header(ip: &Ip, src: &Addr, dst: &Addr, protocol: u8, payload_len: usize) -> Result<IpRepr> {
    let (src, dst) = pair(src, dst)?;
    let most = if src.version() == IpVersion::Ipv4 { 65_515 } else { 65_535 };
    let odd = ip.ident | ip.flow_label | u32::from(ip.fragment_offset) | u32::from(ip.more_fragments);
    if odd != 0 || ip.dscp | ip.ecn != 0 || ip.hop_limit == 0 || payload_len > most {
        return Err(Error);
    }
    Ok(IpRepr::new(src, dst, protocol.into(), payload_len, ip.hop_limit))
}

#[unsafe(no_mangle)]
pub unsafe extern "C" fn lk_emit_ip(
    header: &Ip,
    src: &Addr,
    dst: &Addr,
    payload_len: usize,
    computed: i32,
    out: *mut u8,
    cap: usize,
) -> isize {
    let out = unsafe { output(out, cap) };
    written(ip_header(header, src, dst, header.protocol, payload_len).and_then(|ip| {
        let room = out.get_mut(..ip.header_len()).ok_or(Error)?;
        ip.emit(room, &capabilities(computed));
        Ok(ip.header_len())
    }))
}

fn emit_datagram(
    header: UdpRepr,
    src_addr: IpAddress,
    dst_addr: IpAddress,
    payload: &[u8],
    caps: &ChecksumCapabilities,
    out: &mut [u8],
) -> Result<usize> {
    let len = header.header_len() + payload.len();
    if header.dst_port == 0 || payload.len() > 65_527 || out.len() < len {
        return Err(Error);
    }
    header.emit(
        &mut UdpPacket::new_unchecked(&mut out[..len]),
        &src_addr,
        &dst_addr,
        payload.len(),
        |room| room.copy_from_slice(payload),
        caps,
    );
    Ok(len)
}

#[unsafe(no_mangle)]
pub unsafe extern "C" fn lk_emit_udp(
    src: &Endpoint,
    dst: &Endpoint,
    ptr: *const u8,
    len: usize,
    computed: i32,
    out: *mut u8,
    cap: usize,
) -> isize {
    let (payload, out) = unsafe { payload_and_room(ptr, len, out, cap) };
    let header = UdpRepr { src_port: src.port, dst_port: dst.port };
    let caps = capabilities(computed);
    written(
        pair(&src.addr, &dst.addr)
            .and_then(|(src, dst)| emit_datagram(header, src, dst, payload, &caps, out)),
    )
}

/// The segment of a struct, if smoltcp has its values.
fn segment<'a>(
    tcp: &Tcp,
    options: &TcpOptions,
    ports: (u16, u16),
    payload: &'a [u8],
) -> Result<TcpRepr<'a>> {
    let acks = tcp.ack_number != 0 || options.sack_range_count != 0;
    if ports.0 == 0 || ports.1 == 0 || tcp.flags & 16 == 0 && acks {
        return Err(Error);
    }
    let given = options.sack_ranges.get(..options.sack_range_count.into()).ok_or(Error)?;
    // smoltcp has three places.
    let mut sack_ranges = [None; 3];
    let places = sack_ranges.get_mut(..given.len()).ok_or(Error)?;
    for (range, given) in places.iter_mut().zip(given) {
        *range = Some((given.left, given.right));
    }
    Ok(TcpRepr {
        src_port: ports.0,
        dst_port: ports.1,
        control: match tcp.flags & !16 {
            0 => TcpControl::None,
            1 => TcpControl::Fin,
            2 => TcpControl::Syn,
            4 => TcpControl::Rst,
            8 => TcpControl::Psh,
            _ => return Err(Error),
        },
        seq_number: TcpSeqNumber(tcp.seq_number as i32),
        ack_number: (tcp.flags & 16 != 0).then_some(TcpSeqNumber(tcp.ack_number as i32)),
        window_len: tcp.window_len,
        window_scale: (options.has_window_scale != 0).then_some(options.window_scale),
        max_seg_size: (options.has_mss != 0).then_some(options.mss),
        sack_permitted: options.sack_permitted != 0,
        sack_ranges,
        timestamp: (options.has_timestamp != 0)
            .then_some(TcpTimestampRepr { tsval: options.tsval, tsecr: options.tsecr }),
        payload,
    })
}

fn emit_segment(
    segment: &TcpRepr,
    src_addr: IpAddress,
    dst_addr: IpAddress,
    caps: &ChecksumCapabilities,
    out: &mut [u8],
) -> Result<usize> {
    let len = segment.buffer_len();
    if segment.header_len() > 60 || len > 65_535 || out.len() < len {
        return Err(Error);
    }
    segment.emit(&mut TcpPacket::new_unchecked(&mut out[..len]), &src_addr, &dst_addr, caps);
    Ok(len)
}

#[unsafe(no_mangle)]
pub unsafe extern "C" fn lk_emit_tcp(
    header: &Tcp,
    options: &TcpOptions,
    src: &Endpoint,
    dst: &Endpoint,
    ptr: *const u8,
    len: usize,
    computed: i32,
    out: *mut u8,
    cap: usize,
) -> isize {
    let (payload, out) = unsafe { payload_and_room(ptr, len, out, cap) };
    let caps = capabilities(computed);
    written(pair(&src.addr, &dst.addr).and_then(|(src_addr, dst_addr)| {
        let segment = segment(header, options, (src.port, dst.port), payload)?;
        emit_segment(&segment, src_addr, dst_addr, &caps, out)
    }))
}

/// Writes the Ethernet header of a frame, and returns the rest.
fn emit_ethernet<'a>(
    headers: &Frame,
    ethertype: EthernetProtocol,
    out: &'a mut [u8],
) -> Result<&'a mut [u8]> {
    let header = EthernetRepr {
        src_addr: EthernetAddress(headers.ethernet.src),
        dst_addr: EthernetAddress(headers.ethernet.dst),
        ethertype,
    };
    let (front, rest) = out.split_at_mut_checked(header.buffer_len()).ok_or(Error)?;
    header.emit(&mut EthernetFrame::new_unchecked(front));
    Ok(rest)
}

#[unsafe(no_mangle)]
pub unsafe extern "C" fn lk_emit_arp_frame(headers: &Frame, out: *mut u8, cap: usize) -> isize {
    let out = unsafe { output(out, cap) };
    written(emit_ethernet(headers, EthernetProtocol::Arp, out).and_then(|rest| {
        Ok(14 + emit_arp(&headers.arp, &headers.src.addr, &headers.dst.addr, rest)?)
    }))
}

/// Writes the Ethernet and IP headers around a payload of this length, which `emit` writes.
fn emit_frame(
    headers: &Frame,
    protocol: u8,
    len: usize,
    out: &mut [u8],
    emit: impl FnOnce(IpAddress, IpAddress, &mut [u8]) -> Result<usize>,
) -> Result<usize> {
    let ip = ip_header(&headers.ip, &headers.src.addr, &headers.dst.addr, protocol, len)?;
    let ethertype = match ip {
        IpRepr::Ipv4(_) => EthernetProtocol::Ipv4,
        IpRepr::Ipv6(_) => EthernetProtocol::Ipv6,
    };
    if out.len() < 14 + ip.buffer_len() {
        return Err(Error);
    }
    let (front, rest) = emit_ethernet(headers, ethertype, out)?.split_at_mut(ip.header_len());
    ip.emit(front, &ChecksumCapabilities::default());
    emit(ip.src_addr(), ip.dst_addr(), rest)?;
    Ok(14 + ip.buffer_len())
}

#[unsafe(no_mangle)]
pub unsafe extern "C" fn lk_emit_udp_frame(
    headers: &Frame,
    ptr: *const u8,
    len: usize,
    out: *mut u8,
    cap: usize,
) -> isize {
    let (payload, out) = unsafe { payload_and_room(ptr, len, out, cap) };
    let header = UdpRepr { src_port: headers.src.port, dst_port: headers.dst.port };
    written(emit_frame(headers, 17, 8 + len, out, |src, dst, rest| {
        emit_datagram(header, src, dst, payload, &ChecksumCapabilities::default(), rest)
    }))
}

#[unsafe(no_mangle)]
pub unsafe extern "C" fn lk_emit_tcp_frame(
    headers: &Frame,
    options: &TcpOptions,
    ptr: *const u8,
    len: usize,
    out: *mut u8,
    cap: usize,
) -> isize {
    let (payload, out) = unsafe { payload_and_room(ptr, len, out, cap) };
    let ports = (headers.src.port, headers.dst.port);
    written(segment(&headers.tcp, options, ports, payload).and_then(|segment| {
        emit_frame(headers, 6, segment.buffer_len(), out, |src, dst, rest| {
            emit_segment(&segment, src, dst, &ChecksumCapabilities::default(), rest)
        })
    }))
}

/// The block of a struct.
pub fn cidr(block: &Prefix) -> Result<IpCidr> {
    let address = address(&block.addr)?;
    let most = if address.version() == IpVersion::Ipv4 { 32 } else { 128 };
    if block.prefix_len > most {
        return Err(Error);
    }
    Ok(IpCidr::new(address, block.prefix_len as u8))
}

#[unsafe(no_mangle)]
pub extern "C" fn lk_contains(block: &Prefix, addr: &Addr) -> i32 {
    let (Ok(block), Ok(addr)) = (cidr(block), address(addr)) else { return 0 };
    i32::from(block.address().version() == addr.version() && block.contains_addr(&addr))
}

/// The packet that a frame carries, and whether what that carries may be looked into: a fragment's may not.
fn packet<'a>(
    frame: &EthernetFrame<&'a [u8]>,
    caps: &ChecksumCapabilities,
) -> Result<(IpRepr, bool, &'a [u8])> {
    match EthernetRepr::parse(frame)?.ethertype {
        EthernetProtocol::Ipv4 => {
            let packet = Ipv4Packet::new_checked(frame.payload())?;
            let header = Ipv4Repr::parse(&packet, caps)?;
            let is_whole = !packet.more_frags() && packet.frag_offset() == 0;
            Ok((header.into(), is_whole, packet.payload()))
        }
        EthernetProtocol::Ipv6 => {
            let packet = Ipv6Packet::new_checked(frame.payload())?;
            Ok((Ipv6Repr::parse(&packet)?.into(), true, packet.payload()))
        }
        _ => Err(Error),
    }
}

/// The UDP packet between the addresses of a header.
fn datagram<'a>(
    ip: &IpRepr,
    bytes: &'a [u8],
    caps: &ChecksumCapabilities,
) -> Result<(UdpRepr, &'a [u8])> {
    let packet = UdpPacket::new_checked(bytes)?;
    let header = UdpRepr::parse(&packet, &ip.src_addr(), &ip.dst_addr(), caps)?;
    Ok((header, packet.payload()))
}

/// The TCP segment between the addresses of a header.
fn parsed_segment<'a>(ip: &IpRepr, bytes: &'a [u8], caps: &ChecksumCapabilities) -> Result<TcpRepr<'a>> {
    let packet = TcpPacket::new_checked(bytes)?;
    TcpRepr::parse(&packet, &ip.src_addr(), &ip.dst_addr(), caps)
}

/// The ARP packet that a frame carries.
fn message(frame: &EthernetFrame<&[u8]>) -> Result<ArpRepr> {
    ArpRepr::parse(&ArpPacket::new_checked(frame.payload())?)
}

/// Writes what a packet with this header carries, built again, and returns its length.
fn rebuild_transport(ip: &IpRepr, bytes: &[u8], room: &mut [u8]) -> Result<usize> {
    let caps = ChecksumCapabilities::default();
    if ip.next_header() == IpProtocol::Udp
        && let Ok((header, payload)) = datagram(ip, bytes, &caps)
    {
        return emit_datagram(header, ip.src_addr(), ip.dst_addr(), payload, &caps, room);
    }
    if ip.next_header() == IpProtocol::Tcp
        && let Ok(segment) = parsed_segment(ip, bytes, &caps)
    {
        return emit_segment(&segment, ip.src_addr(), ip.dst_addr(), &caps, room);
    }
    room.get_mut(..bytes.len()).ok_or(Error)?.copy_from_slice(bytes);
    Ok(bytes.len())
}

fn rebuild(frame: &[u8], out: &mut [u8]) -> Result<usize> {
    let caps = ChecksumCapabilities::default();
    let frame = EthernetFrame::new_checked(frame)?;
    let header = EthernetRepr::parse(&frame)?;
    let mut again = EthernetFrame::new_checked(out)?;
    header.emit(&mut again);
    let room = again.payload_mut();
    if header.ethertype == EthernetProtocol::Arp
        && let Ok(value) = message(&frame)
    {
        let room = room.get_mut(..value.buffer_len()).ok_or(Error)?;
        value.emit(&mut ArpPacket::new_unchecked(room));
        return Ok(14 + value.buffer_len());
    }
    match packet(&frame, &caps) {
        Ok((mut ip, true, payload)) => {
            let (front, rest) = room.split_at_mut_checked(ip.header_len()).ok_or(Error)?;
            ip.set_payload_len(rebuild_transport(&ip, payload, rest)?);
            ip.emit(front, &caps);
            Ok(14 + ip.buffer_len())
        }
        _ => {
            let payload = frame.payload();
            room.get_mut(..payload.len()).ok_or(Error)?.copy_from_slice(payload);
            Ok(14 + payload.len())
        }
    }
}

#[unsafe(no_mangle)]
pub unsafe extern "C" fn lk_rebuild(ptr: *const u8, len: usize, out: *mut u8, cap: usize) -> isize {
    let frame = unsafe { input(ptr, len) };
    written(rebuild(frame, unsafe { output(out, cap) }))
}
