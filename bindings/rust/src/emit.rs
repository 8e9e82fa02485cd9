//! Writing frames and packets.

use crate::sys::{self, library, Library};
use crate::{Arp, Error, Ethernet, Headers, Icmp, Tcp, TcpOptions};

/// Writes by a call that returns the length of what it wrote, or a failure.
pub(crate) fn write(
    out: &mut [u8],
    call: impl FnOnce(Library, *mut u8, usize) -> isize,
) -> Result<&mut [u8], Error> {
    let len = Error::check(call(library(), out.as_mut_ptr(), out.len()))?;
    Ok(&mut out[..len])
}

/// Each call returns the frame or packet at the beginning of `out`. EtherType, protocol, lengths and checksums are
/// filled in. After a failure `out` is unchanged.
///
/// Calls with `packet` write an IP packet, for example for a TUN device: the frame without its first 14 bytes. They do
/// not use `ethernet`.
impl Headers {
    /// Writes a whole frame with a UDP packet.
    ///
    /// # Errors
    ///
    /// - [`Error::TwoVersions`]
    /// - [`Error::PortZero`]: the destination port is 0.
    /// - [`Error::NoHopLimit`]
    /// - [`Error::BadField`]: a field of `ip` has more bits than the header, or says that this is a fragment.
    /// - [`Error::PayloadTooLong`]: more than 65507 bytes over IPv4, or 65527 over IPv6.
    /// - [`Error::NoRoom`]
    ///
    /// ```
    /// use ip_wire_c::{Error, Ethernet, Headers, Ip};
    ///
    /// let headers = Headers {
    ///     ethernet: Ethernet::new([2, 0, 0, 0, 0, 1].into(), [2, 0, 0, 0, 0, 2].into()),
    ///     src: "[2001:db8::1]:4000".parse().unwrap(),
    ///     dst: "[2001:db8::2]:53".parse().unwrap(),
    ///     ip: Ip::default(),
    /// };
    /// let mut out = [0; 80];
    /// assert_eq!(headers.emit_udp(b"ping", &mut out).unwrap().len(), 66);
    /// assert_eq!(headers.emit_udp(b"ping", &mut out[..65]), Err(Error::NoRoom));
    /// ```
    pub fn emit_udp<'o>(&self, payload: &[u8], out: &'o mut [u8]) -> Result<&'o mut [u8], Error> {
        // SAFETY: the call reads only the headers and the `len` bytes at `ptr`, and there are `cap` bytes at `out`.
        write(out, |c, out, cap| unsafe {
            c.lk_emit_udp_frame(&self.fields(), payload.as_ptr(), payload.len(), out, cap)
        })
    }

    /// Writes a whole frame with a TCP segment.
    ///
    /// # Errors
    ///
    /// Those of [`Headers::emit_udp`], also [`Error::PortZero`] for a source port of 0. Header and payload have at most
    /// 65515 bytes over IPv4, 65535 over IPv6. Also [`Error::TwoControls`] and [`Error::OptionsTooLong`].
    pub fn emit_tcp<'o>(
        &self,
        tcp: &Tcp,
        options: &TcpOptions,
        payload: &[u8],
        out: &'o mut [u8],
    ) -> Result<&'o mut [u8], Error> {
        let (fields, options) = (self.tcp_fields(tcp), (*options).into());
        // SAFETY: the call reads only headers, options and `len` bytes at `ptr`, and there are `cap` bytes at `out`.
        write(out, |c, out, cap| unsafe {
            c.lk_emit_tcp_frame(&fields, &options, payload.as_ptr(), payload.len(), out, cap)
        })
    }

    /// Writes a whole frame with an ICMP message. The ports are not used.
    ///
    /// # Errors
    ///
    /// Those of [`Headers::emit_udp`], but no [`Error::PortZero`].
    pub fn emit_icmp<'o>(
        &self,
        icmp: &Icmp,
        payload: &[u8],
        out: &'o mut [u8],
    ) -> Result<&'o mut [u8], Error> {
        let fields = sys::Frame { icmp: (*icmp).into(), ..self.fields() };
        // SAFETY: the call reads only the headers and the `len` bytes at `ptr`, and there are `cap` bytes at `out`.
        write(out, |c, out, cap| unsafe {
            c.lk_emit_icmp_frame(&fields, payload.as_ptr(), payload.len(), out, cap)
        })
    }

    /// Where the payload of a UDP packet begins: at 42 over IPv4, at 62 over IPv6.
    #[must_use]
    pub fn udp_payload_offset(&self) -> usize {
        self.transport_offset() + 8
    }

    /// Where the payload of a TCP segment with these options begins.
    ///
    /// # Errors
    ///
    /// [`Error::OptionsTooLong`]
    pub fn tcp_payload_offset(&self, options: &TcpOptions) -> Result<usize, Error> {
        Ok(self.transport_offset() + options.header_len()?)
    }

    /// Writes the headers before a payload that is in `out` already, at [`Headers::udp_payload_offset`].
    ///
    /// # Errors
    ///
    /// Those of [`Headers::emit_udp`].
    ///
    /// ```
    /// # use ip_wire_c::{Ethernet, Headers, Ip};
    /// # let headers = Headers {
    /// #     ethernet: Ethernet::default(),
    /// #     src: "192.0.2.1:4000".parse().unwrap(),
    /// #     dst: "192.0.2.2:53".parse().unwrap(),
    /// #     ip: Ip::default(),
    /// # };
    /// let (mut wrapped, mut emitted) = ([0; 64], [0; 64]);
    /// wrapped[headers.udp_payload_offset()..][..4].copy_from_slice(b"ping");
    /// assert_eq!(headers.wrap_udp(4, &mut wrapped), headers.emit_udp(b"ping", &mut emitted));
    /// ```
    pub fn wrap_udp<'o>(&self, payload_len: usize, out: &'o mut [u8]) -> Result<&'o mut [u8], Error> {
        // SAFETY: the call reads only the headers, and there are `cap` bytes at `out`.
        write(out, |c, out, cap| unsafe { c.lk_wrap_udp_frame(&self.fields(), payload_len, out, cap) })
    }

    /// Writes the headers before a payload that is in `out` already, at [`Headers::tcp_payload_offset`].
    ///
    /// # Errors
    ///
    /// Those of [`Headers::emit_tcp`].
    pub fn wrap_tcp<'o>(
        &self,
        tcp: &Tcp,
        options: &TcpOptions,
        payload_len: usize,
        out: &'o mut [u8],
    ) -> Result<&'o mut [u8], Error> {
        let (fields, options) = (self.tcp_fields(tcp), (*options).into());
        // SAFETY: the call reads only the headers and options, and there are `cap` bytes at `out`.
        write(out, |c, out, cap| unsafe { c.lk_wrap_tcp_frame(&fields, &options, payload_len, out, cap) })
    }

    /// Writes an IP packet with UDP.
    ///
    /// # Errors
    ///
    /// Those of [`Headers::emit_udp`].
    ///
    /// ```
    /// # use ip_wire_c::{Ethernet, Headers, Ip};
    /// # let headers = Headers {
    /// #     ethernet: Ethernet::default(),
    /// #     src: "192.0.2.1:4000".parse().unwrap(),
    /// #     dst: "192.0.2.2:53".parse().unwrap(),
    /// #     ip: Ip::default(),
    /// # };
    /// let (mut packet, mut frame) = ([0; 64], [0; 64]);
    /// assert_eq!(headers.emit_udp_packet(b"ping", &mut packet).unwrap(), &headers.emit_udp(b"ping", &mut frame).unwrap()[14..]);
    /// ```
    pub fn emit_udp_packet<'o>(&self, payload: &[u8], out: &'o mut [u8]) -> Result<&'o mut [u8], Error> {
        // SAFETY: the call reads only the headers and the `len` bytes at `ptr`, and there are `cap` bytes at `out`.
        write(out, |c, out, cap| unsafe {
            c.lk_emit_udp_packet(&self.fields(), payload.as_ptr(), payload.len(), out, cap)
        })
    }

    /// Writes an IP packet with TCP.
    ///
    /// # Errors
    ///
    /// Those of [`Headers::emit_tcp`].
    pub fn emit_tcp_packet<'o>(
        &self,
        tcp: &Tcp,
        options: &TcpOptions,
        payload: &[u8],
        out: &'o mut [u8],
    ) -> Result<&'o mut [u8], Error> {
        let (fields, options) = (self.tcp_fields(tcp), (*options).into());
        // SAFETY: the call reads only headers, options and `len` bytes at `ptr`, and there are `cap` bytes at `out`.
        write(out, |c, out, cap| unsafe {
            c.lk_emit_tcp_packet(&fields, &options, payload.as_ptr(), payload.len(), out, cap)
        })
    }

    /// Writes an IP packet with an ICMP message. The ports are not used.
    ///
    /// # Errors
    ///
    /// Those of [`Headers::emit_icmp`].
    pub fn emit_icmp_packet<'o>(
        &self,
        icmp: &Icmp,
        payload: &[u8],
        out: &'o mut [u8],
    ) -> Result<&'o mut [u8], Error> {
        let fields = sys::Frame { icmp: (*icmp).into(), ..self.fields() };
        // SAFETY: the call reads only the headers and the `len` bytes at `ptr`, and there are `cap` bytes at `out`.
        write(out, |c, out, cap| unsafe {
            c.lk_emit_icmp_packet(&fields, payload.as_ptr(), payload.len(), out, cap)
        })
    }

    /// Writes the headers of an IP packet before a payload that is in `out` already, 14 bytes before
    /// [`Headers::udp_payload_offset`].
    ///
    /// # Errors
    ///
    /// Those of [`Headers::emit_udp`].
    pub fn wrap_udp_packet<'o>(&self, payload_len: usize, out: &'o mut [u8]) -> Result<&'o mut [u8], Error> {
        // SAFETY: the call reads only the headers, and there are `cap` bytes at `out`.
        write(out, |c, out, cap| unsafe { c.lk_wrap_udp_packet(&self.fields(), payload_len, out, cap) })
    }

    /// Writes the headers of an IP packet before a payload that is in `out` already, 14 bytes before
    /// [`Headers::tcp_payload_offset`].
    ///
    /// # Errors
    ///
    /// Those of [`Headers::emit_tcp`].
    pub fn wrap_tcp_packet<'o>(
        &self,
        tcp: &Tcp,
        options: &TcpOptions,
        payload_len: usize,
        out: &'o mut [u8],
    ) -> Result<&'o mut [u8], Error> {
        let (fields, options) = (self.tcp_fields(tcp), (*options).into());
        // SAFETY: the call reads only the headers and options, and there are `cap` bytes at `out`.
        write(out, |c, out, cap| unsafe { c.lk_wrap_tcp_packet(&fields, &options, payload_len, out, cap) })
    }

    fn transport_offset(&self) -> usize {
        if self.src.is_ipv4() {
            34
        } else {
            54
        }
    }

    fn tcp_fields(&self, tcp: &Tcp) -> sys::Frame {
        sys::Frame { tcp: (*tcp).into(), ..self.fields() }
    }
}

impl Arp {
    /// Writes a whole frame of 42 bytes, with EtherType ARP.
    ///
    /// # Errors
    ///
    /// [`Error::NoRoom`]
    ///
    /// ```
    /// use ip_wire_c::{Arp, Ethernet, EthernetAddr, Frame};
    ///
    /// let own = EthernetAddr([2, 0, 0, 0, 0, 1]);
    /// let arp = Arp {
    ///     operation: Arp::REQUEST,
    ///     src_hardware: own,
    ///     dst_hardware: EthernetAddr::default(),
    ///     src: [192, 0, 2, 1].into(),
    ///     dst: [192, 0, 2, 2].into(),
    /// };
    /// let mut out = [0; 42];
    /// let frame = arp.emit(&Ethernet::new(own, EthernetAddr::BROADCAST), &mut out).unwrap();
    /// assert_eq!(Frame::parse(frame).arp(), Some(arp));
    /// ```
    pub fn emit<'o>(&self, ethernet: &Ethernet, out: &'o mut [u8]) -> Result<&'o mut [u8], Error> {
        let fields = sys::Frame {
            ethernet: (*ethernet).into(),
            arp: (*self).into(),
            src: sys::Endpoint::of_addr(self.src),
            dst: sys::Endpoint::of_addr(self.dst),
            ..sys::Frame::default()
        };
        // SAFETY: the call reads only the headers, and there are `cap` bytes at `out`.
        write(out, |c, out, cap| unsafe { c.lk_emit_arp_frame(&fields, out, cap) })
    }
}

/// Parses an Ethernet frame, and emits each header again from its values, with new lengths and checksums and
/// without padding. `ip_wire.h` has the table of what changes. The rebuilt frame is at most as long as the frame.
///
/// # Errors
///
/// [`Error::NoHeader`] if the frame has fewer than 14 bytes, and [`Error::NoRoom`].
pub fn rebuild<'o>(frame: &[u8], out: &'o mut [u8]) -> Result<&'o mut [u8], Error> {
    // SAFETY: there are `len` bytes at `ptr`, and `cap` bytes at `out`.
    write(out, |c, out, cap| unsafe { c.lk_rebuild(frame.as_ptr(), frame.len(), out, cap) })
}
