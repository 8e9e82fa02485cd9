// The structs and calls of ip_wire.h, written by tools/from_header.py.

/// The version of these declarations. Another minor version may have other structs.
#[allow(dead_code)]
pub const VERSION: (u32, u32) = (0, 5);

structs! {
    #[derive(Default)]
    struct Addr {
        octets: [u8; 16],
        version: u16,
    }

    #[derive(Default)]
    struct Endpoint {
        addr: Addr,
        port: u16,
    }

    #[derive(Default)]
    struct Prefix {
        addr: Addr,
        prefix_len: u16,
    }

    #[derive(Default)]
    struct Ethernet {
        src: [u8; 6],
        dst: [u8; 6],
        r#type: u16,
    }

    #[derive(Default)]
    struct Arp {
        operation: u16,
        src_hardware: [u8; 6],
        dst_hardware: [u8; 6],
    }

    #[derive(Default)]
    struct Ip {
        ident: u32,
        flow_label: u32,
        fragment_offset: u16,
        protocol: u8,
        hop_limit: u8,
        dscp: u8,
        ecn: u8,
        more_fragments: u8,
        dont_fragment: u8,
    }

    #[derive(Default)]
    struct Tcp {
        seq_number: u32,
        ack_number: u32,
        window_len: u16,
        urgent_at: u16,
        flags: u8,
        header_len: u8,
    }

    #[derive(Default)]
    struct SackRange {
        left: u32,
        right: u32,
    }

    #[derive(Default)]
    struct TcpOptions {
        sack_ranges: [SackRange; 4],
        tsval: u32,
        tsecr: u32,
        mss: u16,
        window_scale: u8,
        sack_permitted: u8,
        sack_range_count: u8,
        has_mss: u8,
        has_window_scale: u8,
        has_timestamp: u8,
    }

    #[derive(Default)]
    struct Icmp {
        word: u32,
        r#type: u8,
        code: u8,
    }

    #[derive(Default)]
    struct Ndisc {
        target: Addr,
        hardware: [u8; 6],
        has_hardware: u8,
        is_advert: u8,
        is_router: u8,
        is_solicited: u8,
        overrides: u8,
    }

    #[derive(Default)]
    struct Frame {
        network_offset: usize,
        transport_offset: usize,
        payload_offset: usize,
        payload_len: usize,
        payload_captured: usize,
        src: Endpoint,
        dst: Endpoint,
        ip: Ip,
        tcp: Tcp,
        ethernet: Ethernet,
        arp: Arp,
        reason: u8,
        network: u8,
        transport: u8,
        rejected: u8,
        is_fragment: u8,
        ipv4_checksum: u8,
        transport_checksum: u8,
        protocol: u8,
        unused: [u8; 4],
        icmp: Icmp,
    }

    #[derive(Default)]
    struct Link {
        offset: usize,
        r#type: u16,
        tags: [u16; 2],
        tag_count: u8,
    }

    #[derive(Default)]
    struct Ipv6Header {
        offset: u32,
        len: u16,
        protocol: u8,
        next: u8,
        is_malformed: u8,
    }

    #[derive(Default)]
    struct TcpOption {
        offset: u8,
        kind: u8,
        len: u8,
        is_malformed: u8,
    }

    #[derive(Default)]
    struct MldQuery {
        max_delay: u32,
    }

    struct Host {
        open_ports: *const u16,
        open_port_count: usize,
        open_udp_ports: *const u16,
        open_udp_port_count: usize,
        ipv4: Addr,
        ipv6: Addr,
        hardware: [u8; 6],
        echo_port: u16,
        seq_number: u32,
        tsval: u32,
        window_len: u16,
        mss: u16,
        window_scale: u8,
        is_router: u8,
    }

    #[derive(Default)]
    struct Interface {
        ipv4: Addr,
        ipv6: Addr,
        hardware: [u8; 6],
    }

    struct Reassembly {
        expires: u64,
        ident: u32,
        version: u8,
        protocol: u8,
        unused1: [u8; 2],
        src: [u8; 16],
        dst: [u8; 16],
        len: usize,
        high: usize,
        header: [u8; 60],
        not_ect: u8,
        ce: u8,
        unused2: [u8; 2],
        dropped: u8,
        link: [u8; 14],
        unused3: u8,
    }

    #[derive(Default)]
    struct Route {
        prefix: Prefix,
        next_hop: Addr,
        interface: u16,
    }

    #[derive(Default)]
    struct RouteNode {
        high: u64,
        low: u64,
        route: u32,
        above: u32,
        version: u8,
        prefix_len: u8,
        unused: [u8; 2],
        hint: u32,
    }

    #[derive(Default)]
    struct Nat {
        key: [u64; 2],
        udp_timeout: u64,
        tcp_timeout: u64,
        tcp_transitory_timeout: u64,
        icmp_timeout: u64,
        outside: [u8; 4],
        first_port: u16,
        unused: u16,
    }

    #[derive(Default)]
    struct Mapping {
        expires: u64,
        inside: [u8; 4],
        remote: [u8; 4],
        inside_port: u16,
        remote_port: u16,
        state: u8,
        shared: u8,
        reach: u16,
    }

    struct Connection {
        memory: [u64; 64],
    }

    struct Segment {
        tcp: Tcp,
        options: TcpOptions,
        payload: *const u8,
        payload_len: usize,
    }
}

calls! {
    fn lk_parse_addr(text: *const c_char, len: usize, addr: &mut Addr) -> c_int;
    fn lk_parse_prefix(text: *const c_char, len: usize, prefix: &mut Prefix) -> c_int;
    fn lk_print_prefix(prefix: &Prefix, out: *mut c_char, cap: usize) -> isize;
    fn lk_contains(prefix: &Prefix, addr: &Addr) -> c_int;
    fn lk_parse_endpoint(text: *const c_char, len: usize, endpoint: &mut Endpoint) -> c_int;
    fn lk_parse_mac(text: *const c_char, len: usize, octets: *mut u8) -> c_int;
    fn lk_print_mac(octets: *const u8, out: *mut c_char, cap: usize) -> isize;
    fn lk_is_unicast(addr: &Addr) -> c_int;
    fn lk_read_frame(ptr: *const u8, len: usize, frame: &mut Frame) -> c_int;
    fn lk_read_packet(ptr: *const u8, len: usize, frame: &mut Frame) -> c_int;
    fn lk_read_captured(ptr: *const u8, captured: usize, len: usize, frame: &mut Frame) -> c_int;
    fn lk_read_captured_packet(ptr: *const u8, captured: usize, len: usize, frame: &mut Frame) -> c_int;
    fn lk_read_link(link_type: u32, ptr: *const u8, captured: usize, link: &mut Link) -> c_int;
    fn lk_read_linktype(link_type: u32, ptr: *const u8, captured: usize, len: usize, frame: &mut Frame) -> c_int;
    fn lk_print_frame(frame: &Frame, out: *mut c_char, cap: usize) -> isize;
    fn lk_protocol_name(protocol: c_int) -> *const c_char;
    fn lk_ethertype_name(r#type: c_int) -> *const c_char;
    fn lk_next_ipv6_header(ptr: *const u8, len: usize, header: &mut Ipv6Header) -> c_int;
    fn lk_find_tcp_options(ptr: *const u8, len: usize, options: &mut TcpOptions) -> c_int;
    fn lk_read_frame_options(ptr: *const u8, len: usize, frame: &mut Frame, options: &mut TcpOptions) -> c_int;
    fn lk_next_tcp_option(ptr: *const u8, len: usize, option: &mut TcpOption) -> c_int;
    fn lk_make_reply(frame: &mut Frame);
    fn lk_emit_udp_frame(headers: &Frame, ptr: *const u8, len: usize, out: *mut u8, cap: usize) -> isize;
    fn lk_emit_tcp_frame(
        headers: &Frame, options: &TcpOptions, ptr: *const u8, len: usize, out: *mut u8, cap: usize
    ) -> isize;
    fn lk_wrap_udp_frame(headers: &Frame, len: usize, out: *mut u8, cap: usize) -> isize;
    fn lk_wrap_tcp_frame(headers: &Frame, options: &TcpOptions, len: usize, out: *mut u8, cap: usize) -> isize;
    fn lk_emit_icmp_frame(headers: &Frame, ptr: *const u8, len: usize, out: *mut u8, cap: usize) -> isize;
    fn lk_emit_udp_packet(headers: &Frame, ptr: *const u8, len: usize, out: *mut u8, cap: usize) -> isize;
    fn lk_emit_tcp_packet(
        headers: &Frame, options: &TcpOptions, ptr: *const u8, len: usize, out: *mut u8, cap: usize
    ) -> isize;
    fn lk_emit_icmp_packet(headers: &Frame, ptr: *const u8, len: usize, out: *mut u8, cap: usize) -> isize;
    fn lk_wrap_udp_packet(headers: &Frame, len: usize, out: *mut u8, cap: usize) -> isize;
    fn lk_wrap_tcp_packet(headers: &Frame, options: &TcpOptions, len: usize, out: *mut u8, cap: usize) -> isize;
    fn lk_tcp_header_len(options: &TcpOptions) -> isize;
    fn lk_emit_arp_frame(headers: &Frame, out: *mut u8, cap: usize) -> isize;
    fn lk_emit_ethernet(header: &Ethernet, out: *mut u8, cap: usize) -> isize;
    fn lk_emit_arp(header: &Arp, src: &Addr, dst: &Addr, out: *mut u8, cap: usize) -> isize;
    fn lk_emit_ip(
        header: &Ip, src: &Addr, dst: &Addr, payload_len: usize, computed: c_int, out: *mut u8, cap: usize
    ) -> isize;
    fn lk_emit_udp(
        src: &Endpoint, dst: &Endpoint, ptr: *const u8, len: usize, computed: c_int, out: *mut u8, cap: usize
    ) -> isize;
    fn lk_emit_tcp(
        header: &Tcp, options: &TcpOptions, src: &Endpoint, dst: &Endpoint, ptr: *const u8, len: usize, computed: c_int,
        out: *mut u8, cap: usize
    ) -> isize;
    fn lk_emit_icmp(
        header: &Icmp, src: &Addr, dst: &Addr, ptr: *const u8, len: usize, computed: c_int, out: *mut u8, cap: usize
    ) -> isize;
    fn lk_checksum(ptr: *const u8, len: usize) -> u16;
    fn lk_update_checksum(checksum: u16, before: u16, after: u16) -> u16;
    fn lk_update_checksum_addr(checksum: u16, before: &Addr, after: &Addr) -> u16;
    fn lk_update_udp_checksum(checksum: u16, before: u16, after: u16) -> u16;
    fn lk_update_udp_checksum_addr(checksum: u16, before: &Addr, after: &Addr) -> u16;
    fn lk_update_checksum_bytes(
        checksum: u16, offset: usize, before: *const u8, before_len: usize, after: *const u8, after_len: usize
    ) -> u16;
    fn lk_update_udp_checksum_bytes(
        checksum: u16, offset: usize, before: *const u8, before_len: usize, after: *const u8, after_len: usize
    ) -> u16;
    fn lk_add_seq(seq: u32, steps: u32) -> u32;
    fn lk_subtract_seq(a: u32, b: u32) -> i32;
    fn lk_compare_seq(a: u32, b: u32) -> c_int;
    fn lk_rebuild(ptr: *const u8, len: usize, out: *mut u8, cap: usize) -> isize;
    fn lk_find_ndisc(frame: *const u8, len: usize, ndisc: &mut Ndisc) -> c_int;
    fn lk_emit_ndisc_frame(headers: &Frame, ndisc: &Ndisc, out: *mut u8, cap: usize) -> isize;
    fn lk_emit_mld_report(headers: &Frame, out: *mut u8, cap: usize) -> isize;
    fn lk_find_mld_query(frame: *const u8, len: usize, group: &Addr, query: &mut MldQuery) -> c_int;
    fn lk_answer(host: &Host, ptr: *const u8, len: usize, out: *mut u8, cap: usize) -> isize;
    fn lk_emit_icmp_error(
        own: &Interface, problem: c_int, mtu: u32, frame: *const u8, len: usize, out: *mut u8, cap: usize
    ) -> isize;
    fn lk_forward(frame: *mut u8, len: usize, src: *const u8, dst: *const u8) -> c_int;
    fn lk_translate(frame: *mut u8, len: usize, side: c_int, end: &Endpoint) -> c_int;
    fn lk_clamp_mss(frame: *mut u8, len: usize, mss: u16) -> c_int;
    fn lk_clamp_mss_as(frame: *mut u8, len: usize, mss: u16, offload: c_int) -> c_int;
    fn lk_fragment(
        frame: *const u8, len: usize, mtu: usize, ident: i64, number: usize, out: *mut u8, cap: usize
    ) -> isize;
    fn lk_reassemble(
        reassemblies: *mut Reassembly, count: usize, memory: *mut u8, memory_len: usize, now: u64, frame: *const u8,
        len: usize, out: *mut u8, cap: usize
    ) -> isize;
    fn lk_expire_reassembly(
        reassemblies: *mut Reassembly, count: usize, memory: *const u8, memory_len: usize, now: u64, out: *mut u8,
        cap: usize
    ) -> usize;
    fn lk_set_hop_limit(frame: *mut u8, len: usize, hop_limit: u8) -> c_int;
    fn lk_set_dscp(frame: *mut u8, len: usize, dscp: u8) -> c_int;
    fn lk_set_addr(frame: *mut u8, len: usize, side: c_int, addr: &Addr) -> c_int;
    fn lk_set_addr_as(frame: *mut u8, len: usize, side: c_int, addr: &Addr, offload: c_int) -> c_int;
    fn lk_set_port(frame: *mut u8, len: usize, side: c_int, port: u16) -> c_int;
    fn lk_set_port_as(frame: *mut u8, len: usize, side: c_int, port: u16, offload: c_int) -> c_int;
    fn lk_set_bytes(frame: *mut u8, len: usize, offset: usize, ptr: *const u8, count: usize) -> c_int;
    fn lk_set_bytes_as(
        frame: *mut u8, len: usize, offset: usize, ptr: *const u8, count: usize, offload: c_int
    ) -> c_int;
    fn lk_fill_checksum(frame: *mut u8, len: usize) -> c_int;
    fn lk_index_routes(routes: *const Route, count: usize, nodes: *mut RouteNode, node_count: usize) -> isize;
    fn lk_make_route_table(nodes: *const RouteNode, count: usize, cells: *mut u64, cell_count: usize) -> isize;
    fn lk_choose_route_by_table(
        nodes: *const RouteNode, count: usize, cells: *const u64, cell_count: usize, addr: &Addr
    ) -> isize;
    fn lk_check_source_by_table(
        routes: *const Route, route_count: usize, nodes: *const RouteNode, count: usize, cells: *const u64,
        cell_count: usize, src: &Addr, interface: u16
    ) -> c_int;
    fn lk_translate_out(nat: &Nat, mappings: *mut Mapping, count: usize, now: u64, frame: *mut u8, len: usize) -> c_int;
    fn lk_translate_in(nat: &Nat, mappings: *mut Mapping, count: usize, now: u64, frame: *mut u8, len: usize) -> c_int;
    fn lk_shrink_reach(nat: &Nat, mappings: *mut Mapping, count: usize, now: u64);
    fn lk_connection_init(connection: &mut Connection, mss: u16, keep_alive_s: u32, no_delay: c_int);
    fn lk_connection_listen(connection: &mut Connection);
    fn lk_connection_connect(
        connection: &mut Connection, outgoing: *const u8, outgoing_len: usize, incoming: *mut u8, incoming_len: usize,
        now: u64, iss: u32, out: &mut Segment
    ) -> c_int;
    fn lk_connection_step(
        connection: &mut Connection, outgoing: *const u8, outgoing_len: usize, incoming: *mut u8, incoming_len: usize,
        now: u64, segment: &Segment, fresh: u32, out: &mut Segment
    ) -> c_int;
    fn lk_connection_tick(
        connection: &mut Connection, outgoing: *const u8, outgoing_len: usize, incoming: *mut u8, incoming_len: usize,
        now: u64, out: &mut Segment
    ) -> c_int;
    fn lk_connection_close(connection: &mut Connection);
    fn lk_connection_abort(connection: &mut Connection, out: &mut Segment) -> c_int;
    fn lk_connection_write(
        connection: &mut Connection, outgoing: *mut u8, outgoing_len: usize, ptr: *const u8, len: usize
    ) -> isize;
    fn lk_connection_read(
        connection: &mut Connection, incoming: *const u8, incoming_len: usize, out: *mut u8, cap: usize
    ) -> isize;
    fn lk_connection_next_timeout(connection: &Connection) -> u64;
    fn lk_connection_state(connection: &Connection) -> c_int;
    fn lk_connection_at_eof(connection: &Connection) -> c_int;
    fn lk_connection_unacked(connection: &Connection) -> usize;
    fn lk_connection_too_big(connection: &mut Connection, seq_number: u32, mss: u16) -> c_int;
}
