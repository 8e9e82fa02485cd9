//! A host without connections.

use crate::emit::write;
use crate::{sys, Error, EthernetAddr, SeqNumber};
use core::net::{Ipv4Addr, Ipv6Addr};

/// A host with one interface and no connections.
#[derive(Clone, Copy, Debug, PartialEq, Eq, Hash)]
pub struct Host<'a> {
    /// The open TCP ports.
    pub open_ports: &'a [u16],
    /// The UDP ports that the caller serves: what comes to them is not answered, but at `echo_port`.
    pub open_udp_ports: &'a [u16],
    /// Its IPv4 address. 0.0.0.0 is none.
    pub ipv4: Ipv4Addr,
    /// Its IPv6 address. `::` is none.
    pub ipv6: Ipv6Addr,
    /// Its Ethernet address.
    pub hardware: EthernetAddr,
    /// The UDP port that echoes. Port 0 is none.
    pub echo_port: Option<u16>,
    /// What an open port sends: hard to guess, another for each connection (RFC 9293, section 3.4.1).
    pub seq_number: SeqNumber,
    /// What an open port sends as its timestamp.
    pub tsval: u32,
    /// What an open port sends as its window, in bytes; not scaled, because it is sent with SYN.
    pub window_len: u16,
    /// What an open port sends as its segment size, in bytes.
    pub mss: u16,
    /// What an open port sends as its window scale, in bits; more than 14 is sent as 14.
    pub window_scale: u8,
    /// Whether it forwards packets. Its neighbour advertisements have the flag R then.
    pub is_router: bool,
}

impl Host<'_> {
    /// Writes the answer to an Ethernet frame. `None`: the frame gets no answer.
    ///
    /// It replies to ARP for `ipv4`, neighbour solicitations for `ipv6` and echo requests, echoes UDP, answers SYN to an
    /// open port with SYN and ACK, other segments with RST, and UDP to a closed port with an ICMP error. `ip_wire.h` has
    /// the whole table.
    ///
    /// # Errors
    ///
    /// [`Error::NoRoom`]
    ///
    /// ```
    /// use ip_wire_c::{EthernetAddr, Frame, Host, SeqNumber};
    /// # use ip_wire_c::{Ethernet, Headers, Icmp, Ip};
    /// # let random = || 4;
    ///
    /// let host = Host {
    ///     open_ports: &[80],
    ///     open_udp_ports: &[],
    ///     ipv4: [192, 0, 2, 2].into(),
    ///     ipv6: "2001:db8::2".parse().unwrap(),
    ///     hardware: EthernetAddr([2, 0, 0, 0, 0, 2]),
    ///     echo_port: None,
    ///     seq_number: SeqNumber(random()),
    ///     tsval: 0,
    ///     window_len: 65535,
    ///     mss: 1460,
    ///     window_scale: 0,
    ///     is_router: false,
    /// };
    /// # let ethernet = Ethernet::new(EthernetAddr([2, 0, 0, 0, 0, 1]), host.hardware);
    /// # let (src, dst) = ("192.0.2.1:0".parse().unwrap(), "192.0.2.2:0".parse().unwrap());
    /// # let echo = Icmp { icmp_type: 8, ..Icmp::default() };
    /// # let (mut out, mut room) = ([0; 1514], [0; 64]);
    /// # let headers = Headers { ethernet, src, dst, ip: Ip::default() };
    /// # let ping = headers.emit_icmp(&echo, b"data", &mut room).unwrap();
    /// if let Some(answer) = host.answer(ping, &mut out)? {
    ///     assert_eq!(Frame::parse(answer).icmp().unwrap().icmp_type, 0); // an echo reply
    /// }
    /// # assert!(host.answer(ping, &mut out)?.is_some());
    /// # Ok::<(), ip_wire_c::Error>(())
    /// ```
    pub fn answer<'o>(&self, frame: &[u8], out: &'o mut [u8]) -> Result<Option<&'o mut [u8]>, Error> {
        let host = sys::Host {
            open_ports: self.open_ports.as_ptr(),
            open_port_count: self.open_ports.len(),
            open_udp_ports: self.open_udp_ports.as_ptr(),
            open_udp_port_count: self.open_udp_ports.len(),
            ipv4: self.ipv4.into(),
            ipv6: self.ipv6.into(),
            hardware: self.hardware.0,
            echo_port: self.echo_port.unwrap_or(0),
            seq_number: self.seq_number.0,
            tsval: self.tsval,
            window_len: self.window_len,
            mss: self.mss,
            window_scale: self.window_scale,
            is_router: self.is_router.into(),
        };
        // SAFETY: the call reads only host, ports and `len` bytes at `ptr`, and there are `cap` bytes at `out`.
        let answer =
            write(out, |c, out, cap| unsafe { c.lk_answer(&host, frame.as_ptr(), frame.len(), out, cap) })?;
        Ok(if answer.is_empty() { None } else { Some(answer) })
    }
}
