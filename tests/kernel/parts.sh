# The parts of tests/kernel/run, which reads this file. Each is a function that runs in namespaces of its own, where
# `programs` is a folder of its own with the programs, and loopback is up.

hardware=02:00:00:00:aa:07
host=(tap0 "$hardware" 10.77.0.2 fd77::2)

# The parts, those that take longest first. Those of the second list need pairs of virtual Ethernet devices.
parts=(own_addresses claims edges operation noticed flood router_taps page faulty_bridges icmp_router clock nat_taps timers silent
    router_sockets bridge firewall host proved_host faults_taps faults_sockets ports lost survive fragments_router icmp_nat icmp_link nat_sockets
    routes queue segments faults_flood with_one_version acks web fragments_nat fragments_sockets open retransmitting full path deleted limit)
pair_parts=(claims edges own_addresses page router_sockets nat_sockets fragments_sockets icmp_link icmp_nat faults_sockets clock path)

# ends_well WHAT: the program that was started last ends by SIGTERM with status 0
ends_well() {
    kill "$!" && ends "$!" 0 "SIGTERM $1"
}

# adds_tap NAME: a TAP device whose other end is the kernel, with both addresses of the kernel
adds_tap() {
    ip tuntap add "$1" mode tap && ip link set "$1" up && ip address add 10.77.0.1/24 dev "$1" &&
        ip address add fd77::1/64 dev "$1" nodad
}

# host_on_tap0 COMMAND..: starts programs/host.c on this device
host_on_tap0() {
    adds_tap tap0 && start_and_wait "$programs/host.out" "$@" "${host[@]}"
}

# ---- hosts

part_host() {
    host_on_tap0 "$programs/host" && tests/kernel/client.py host tap0 && tests/kernel/icmp_tests.py host tap0 &&
        tests/kernel/fragments.py host tap0 && ends_well 'to the host' && tail -n 1 "$programs/host.out"
}

# With a slow clock from when the host has its addresses on, so that it sends nothing again while a busy machine makes the next
# segment.
part_segments() {
    host_on_tap0 "${slowly[@]}" "$programs/host" && touch "$slow" && tests/kernel/segments.py host tap0 &&
        ends_well 'with a slow clock'
}

part_proved_host() {
    adds_tap tap0 && start_and_wait "$programs/host.out" "$programs/proved_host" "${host[@]}" 80 7 &&
        tests/kernel/client.py proved tap0 && tests/kernel/icmp_tests.py host tap0 &&
        tests/kernel/fragments.py host tap0 && kill "$!" || return 1
    wait "$!" 2> /dev/null
}

# programs/host.c without an address of IPv4, and of IPv6
part_with_one_version() {
    local start=(start_and_wait "$programs/host.out" "$programs/host" tap0 "$hardware")
    adds_tap tap0 && "${start[@]}" 0.0.0.0 fd77::2 && tests/kernel/segments.py without 4 tap0 && ends_well 'without IPv4' &&
        "${start[@]}" 10.77.0.2 :: && tests/kernel/segments.py without 6 tap0 && ends_well 'without IPv6'
}

part_lost() {
    ip tuntap add tap1 mode tap && ip link set tap1 up && ip tuntap add lossy mode tap && ip link set lossy up &&
        ip address add 10.79.0.1/24 dev lossy &&
        start_and_wait "$programs/host.out" "$checked/host" tap1 "$hardware" 10.79.0.2 fd79::2 &&
        tests/kernel/losses.py lost tap1 lossy && ends_well 'after losses'
}

# hostile WHAT: what no right peer does, and SIGTERM in this state
hostile() {
    host_on_tap0 "$checked/host" && tests/kernel/hostile.py "$1" tap0 "$!" || return 1
    kill "$!" 2> /dev/null # full has sent SIGTERM
    ends "$!" 0 "SIGTERM after $1"
}

part_flood() { hostile flood; }
part_queue() { hostile queue; }
part_open() { hostile open; }
part_retransmitting() { hostile retransmitting; }
part_full() { hostile full; }

part_acks() {
    host_on_tap0 "${slowly[@]}" "$checked/host" && tests/kernel/hostile.py acks tap0 "$!" "$slow" && ends_well 'after acknowledgements'
}

part_timers() {
    local fast=(env LD_PRELOAD="$clock" FAST_CLOCK=100 "$any_order")
    local leaps=(env LD_PRELOAD="$clock" FAST_CLOCK=1 FAST_CLOCK_AHEAD="$programs/ahead" "$any_order")
    host_on_tap0 "${fast[@]}" "$checked/host" && tests/kernel/timers.py again tap0 100 && ends_well 'with a fast clock' &&
        start_and_wait "$programs/host.out" "${leaps[@]}" "$checked/host" "${host[@]}" &&
        tests/kernel/timers.py silent tap0 "$programs/ahead" && ends_well 'with a clock that leaps'
}

part_silent() {
    host_on_tap0 "${slowly[@]}" "$checked/host" && tests/kernel/losses.py silent tap0 "$slow" && tests/kernel/losses.py down tap0 &&
        ip link set tap0 down && sleep 0.1 && ends_well 'while the device is down'
}

part_deleted() {
    host_on_tap0 "$checked/host" 2> "$programs/host.err" && ip link delete tap0 && ends "$!" 1 'a deleted device' || return 1
    [ "$(cat "$programs/host.err")" = 'host: tap0: the device was deleted' ] && return
    echo "tests/kernel: wrong: a deleted device: $(cat "$programs/host.err")" >&2
    return 1
}

# programs/http.c over a path that loses segments, with slow, right and wrong requests
part_web() {
    head -c 1000000 /dev/urandom > "$programs/file" && ip tuntap add tap2 mode tap && ip link set tap2 up &&
        ip tuntap add web mode tap && ip link set web up && ip address add 10.74.0.1/24 dev web &&
        ip address add fd74::1/64 dev web nodad &&
        start_and_wait "$programs/http.out" "$checked/http" tap2 "$hardware" 10.74.0.2 fd74::2 "$programs/file" &&
        tests/kernel/web.py lost tap2 web "$programs/file" && ends_well 'to the web server' || return 1
    local fast=(env LD_PRELOAD="$clock" FAST_CLOCK=20 "$any_order")
    local start=(start_and_wait "$programs/http.out") of_web=("$checked/http" "${host[@]}" "$programs/file")
    adds_tap tap0 && "${start[@]}" "${fast[@]}" "${of_web[@]}" &&
        tests/kernel/web.py slow 20 && ends_well 'after slow requests' &&
        "${start[@]}" "${of_web[@]}" && tests/kernel/web.py requests "$programs/file" && ends_well 'after requests'
}

# The host behind a router of the kernel
part_path() {
    start_and_wait "$programs/host.out" "$programs/host" "${host[@]}" && tests/kernel/segments.py path tap0 &&
        ends_well 'behind a router'
}

# ---- bridges

part_bridge() {
    local other bridge
    start_and_wait "$programs/other.out" unshare --net sh -c 'echo ready && exec sleep infinity' || return 1
    other=$!
    start_and_wait "$programs/bridge.out" "$programs/bridge" left right || return 1
    bridge=$!
    ip link set right netns "$other" && ip link set left up && ip address add 10.78.0.1/24 dev left &&
        ip address add fd78::1/64 dev left nodad || return 1
    nsenter --target "$other" --net sh -c 'ip link set lo up && ip link set right up &&
        ip address add 10.78.0.2/24 dev right && ip address add fd78::2/64 dev right nodad' || return 1
    tests/kernel/bridge.py frames "$other" left right && tests/kernel/bridge.py tcp "$other" left right || return 1
    # Short queues lose packets, so that SACK ranges have to arrive.
    ip link set left txqueuelen 8 && nsenter --target "$other" --net ip link set right txqueuelen 8 &&
        tests/kernel/bridge.py loss "$other" || return 1
    kill "$bridge" && wait "$bridge" && tail -n 2 "$programs/bridge.out"
}

# The firewall: TCP passes, packets to blocked addresses are rejected, and wrong frames are dropped
part_firewall() {
    local other firewall
    start_and_wait "$programs/other.out" unshare --net sh -c 'echo ready && exec sleep infinity' || return 1
    other=$!
    start_and_wait "$programs/firewall.out" "$checked/firewall" left right 10.78.1.0/24 fd78:1::/64 || return 1
    firewall=$!
    ip link set right netns "$other" && ip link set left up && ip address add 10.78.0.1/24 dev left &&
        ip address add fd78::1/64 dev left nodad && ip route add 10.78.1.0/24 via 10.78.0.2 &&
        ip route add fd78:1::/64 via fd78::2 || return 1
    nsenter --target "$other" --net sh -c 'ip link set lo up && ip link set right up &&
        ip address add 10.78.0.2/24 dev right && ip address add fd78::2/64 dev right nodad' || return 1
    tests/kernel/bridge.py tcp "$other" left right && tests/kernel/firewall.py left "$programs/firewall.out" || return 1
    kill "$firewall" && ends "$firewall" 143 'SIGTERM to the firewall'
}

# The bridge and the proved host, with hostile frames, and with devices that go down or are deleted
part_survive() {
    local bridge=(start_and_wait "$programs/bridge.out" "$checked/bridge" near far) proved
    proved=(start_and_wait "$programs/proved_host.out" "$checked/proved_host" "${host[@]}" 7)
    "${bridge[@]}" && ip link set near up && ip link set far up && tests/kernel/hostile.py bridge near "$!" &&
        ends "$!" 0 'SIGTERM to the bridge in a flood' || return 1
    "${bridge[@]}" 2> /dev/null && ip link delete far && ends "$!" 1 'a deleted device of the bridge' || return 1
    ip tuntap add tap0 mode tap && ip link set tap0 up && "${proved[@]}" 2> /dev/null && tests/kernel/hostile.py proved tap0 "$!" &&
        ip link delete tap0 && ends "$!" 1 'a deleted device of the proved host'
}

# The comparison of frames fails for each bridge of faulty_bridge.py, but for the one without a fault.
part_faulty_bridges() {
    local fault expected status count=0
    while read -r fault; do
        start_and_wait "$programs/faulty.out" tests/kernel/faulty_bridge.py "${library%.a}.so" "$fault" near far &&
            ip link set near up && ip link set far up || return 1
        [ "$fault" = 'no fault' ] && expected=0 || expected=1
        tests/kernel/bridge.py "$([ $expected = 0 ] && echo frames || echo faulty)" self near far > "$programs/noticed" 2>&1
        status=$?
        if [ "$status" != "$expected" ] || [ "$(grep -c '^tests/kernel: wrong: bridged frame' "$programs/noticed")" -lt "$expected" ]; then
            echo "tests/kernel: wrong: of the bridge with '$fault' it says"
            tail -n 20 "$programs/noticed"
            return 1
        fi
        # A bridge that has ended by itself shows nothing.
        kill "$!" || return 1
        wait "$!" 2> /dev/null
        count=$((count + 1))
    done < <(tests/kernel/faulty_bridge.py)
    [ "$count" -gt 1 ] && echo "faults: $((count - 1)) faulty bridges are noticed"
}

# ---- the router and the NAT

part_router_taps() { tests/kernel/router.py taps "$programs/router" "$clock"; }
part_icmp_router() { tests/kernel/icmp_tests.py router "$programs/router"; }
part_nat_taps() { tests/kernel/nat.py taps "$programs/nat" "$clock"; }
part_fragments_router() { tests/kernel/fragments.py router "$programs/router" "$clock"; }
part_fragments_nat() { tests/kernel/fragments.py nat "$programs/nat"; }
part_faults_taps() { tests/kernel/faults.py taps "$checked/router"; }
part_faults_flood() { tests/kernel/faults.py flood "$checked/nat"; }
part_routes() { tests/kernel/routes.py "$checked/router" "$clock"; }
part_operation() { tests/kernel/operation.py "$checked" "$clock"; }
part_ports() { tests/kernel/ports.py "$programs/nat" "$clock"; }
part_noticed() { tests/kernel/faults.py noticed "$programs/faulty_router" "$programs/faulty_nat"; }
part_limit() { "$programs/limit"; }

# On packet sockets
part_router_sockets() { tests/kernel/router.py sockets "$programs/router"; }
part_nat_sockets() { tests/kernel/nat.py sockets "$programs/nat"; }
part_fragments_sockets() { tests/kernel/fragments.py sockets "$programs/nat"; }
part_icmp_link() { tests/kernel/icmp_tests.py link "$programs/router"; }
part_icmp_nat() { tests/kernel/icmp_tests.py nat "$programs/nat"; }
part_claims() { tests/kernel/claims.py "$clock" "$checked"/{router,nat,host,proved_host}; }
part_edges() { tests/kernel/edges.py "$checked/router" "$clock"; }
part_own_addresses() { tests/kernel/own.py "$checked"/{router,nat,host,proved_host}; }
part_faults_sockets() { tests/kernel/faults.py sockets "$checked/router"; }
part_clock() { tests/kernel/faults.py clock "$programs/router" "$programs/nat" "$clock"; }

part_page() {
    if mount -t tmpfs tmpfs /run 2> /dev/null; then
        tests/kernel/page.py "$programs"
    else
        echo 'tests/kernel: skipped: the commands of docs/ROUTER.md: /run cannot be mounted'
    fi
}
