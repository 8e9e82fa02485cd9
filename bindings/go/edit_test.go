package ipwire

import (
	"encoding/hex"
	"net/netip"
	"testing"
)

// Scapy packed the frames after each edit. An empty one stands for an edit that is not possible.
func TestEdits(t *testing.T) {
	const (
		ping  = ethernet + "450000202160400040119569c0000201c0000202" + "a1670007000cfb92" + "70696e67"
		ping6 = "020000000002" + "020000000001" + "86dd" + "60000000000c1140" + "20010db8000000000000000000000001" +
			"20010db8000000000000000000000002" + "a1670007000c2422" + "70696e67"
		// The checksum of UDP is the sum of the pseudo-header.
		offloaded = "02a1a2a3a4a5" + "02b1b2b3b4b5" + "0800" + "45b9001f616240003d114f231a1b1c1d2a2b2c2d" + "31324142000b8cac" +
			"f1f2f3"
	)
	addr, addr6 := netip.MustParseAddr("203.0.113.9"), netip.MustParseAddr("2001:db8::9")
	for _, it := range []struct {
		name, before string
		edit         func([]byte) bool
		after        string
	}{
		{"SetHopLimit", ping, func(b []byte) bool { return SetHopLimit(b, 1) },
			ethernet + "45000020216040000111d469c0000201c0000202" + ping[68:]},
		{"SetHopLimit", "", func(b []byte) bool { return SetHopLimit(b, 1) }, ""},
		{"SetDSCP", ping, func(b []byte) bool { return SetDSCP(b, 46) },
			ethernet + "45b8002021604000401194b1c0000201c0000202" + ping[68:]},
		{"SetDSCP", ping6, func(b []byte) bool { return SetDSCP(b, 46) }, ping6[:28] + "6b80" + ping6[32:]},
		{"SetDSCP", ping, func(b []byte) bool { return SetDSCP(b, 64) }, ""},
		{"SetAddr", ping, func(b []byte) bool { return SetAddr(b, Source, addr) },
			ethernet + "450000202160400040111b61cb007109c0000202" + "a1670007000c818a" + "70696e67"},
		{"SetAddr", ping6, func(b []byte) bool { return SetAddr(b, Source, addr6) },
			ping6[:74] + "09" + ping6[76:122] + "1a" + ping6[124:]},
		{"SetAddr", ping6, func(b []byte) bool { return SetAddr(b, Source, addr) }, ""},
		{"SetPort", ping, func(b []byte) bool { return SetPort(b, Source, 5353) },
			ping[:68] + "14e90007000c8811" + "70696e67"},
		{"SetPort", offloaded, func(b []byte) bool { return SetPort(b, Destination, 53) },
			offloaded[:72] + "0035" + offloaded[76:]},
		{"SetBytes", ping, func(b []byte) bool { return SetBytes(b, 42, []byte("pong")) },
			ping[:82] + "8c" + "706f6e67"},
		{"SetBytes", ping, func(b []byte) bool { return SetBytes(b, 43, []byte("pong")) }, ""},
		{"SetBytes", ping, func(b []byte) bool { return SetBytes(b, -1, []byte("pong")) }, ""},
		{"SetPortAs", ping, func(b []byte) bool { return SetPortAs(b, Source, 5353, Offloaded) },
			ping[:68] + "14e9" + ping[72:]},
		{"SetAddrAs", ping, func(b []byte) bool { return SetAddrAs(b, Source, addr, Complete) },
			ethernet + "450000202160400040111b61cb007109c0000202" + "a1670007000c818a" + "70696e67"},
		{"SetBytesAs", ping, func(b []byte) bool { return SetBytesAs(b, 42, []byte("pong"), Offloaded) },
			ping[:84] + "706f6e67"},
		{"FillChecksum", offloaded, FillChecksum, offloaded[:80] + "1be0" + offloaded[84:]},
	} {
		frame, after := unhex(t, it.before), it.after
		if edited := it.edit(frame); edited != (after != "") {
			t.Errorf("%s(%s): %v", it.name, it.before, edited)
		}
		if after == "" {
			after = it.before
		}
		if hex.EncodeToString(frame) != after {
			t.Errorf("%s(%s): %x", it.name, it.before, frame)
		}
	}
}

// Scapy packed the fragments.
func TestFragment(t *testing.T) {
	const ping = ethernet + "450000202160400040119569c0000201c0000202" + "a1670007000cfb92" + "70696e67"
	const toIPv6 = "020000000002020000000001" + "86dd"
	const addrs = "20010db800000000000000000000000120010db8000000000000000000000002"
	const esp = toIPv6 + "6000000000183240" + addrs + "0001020304050607" + "08090a0b0c0d0e0f" + "1011121314151617"
	for _, it := range []struct {
		packet   string
		mtu      int
		ident    int64
		number   int
		fragment string
		failure  error
	}{
		{esp, 63, 0xffffffff, 0, toIPv6 + "6000000000102c40" + addrs + "32000001ffffffff" + "0001020304050607", nil},
		{esp, 63, 0xffffffff, 2, toIPv6 + "6000000000102c40" + addrs + "32000010ffffffff" + "1011121314151617", nil},
		{esp, 64, 1, 0, esp, nil},
		{esp, 63, Forwarded, 0, "", DontFragment},
		{ping, 28, 0x10000, 0, "", BadField},
		{ping, 28, 0x1234, 0, ethernet + "4500001c123420004011c499c0000201c0000202" + ping[68:84], nil},
		{ping, 28, 0x1234, 1, ethernet + "45000018123400014011e49cc0000201c0000202" + ping[84:], nil},
		{ping, 28, 0x1234, 2, "", nil},
		{ping, 32, Forwarded, 0, ping, nil},
		{ping, 31, Forwarded, 0, "", DontFragment},
		{ping, 27, 0x1234, 0, "", BadField},
	} {
		fragment, err := Fragment(unhex(t, it.packet), it.mtu, it.ident, it.number, make([]byte, 78))
		if hex.EncodeToString(fragment) != it.fragment || err != it.failure {
			t.Errorf("Fragment(%d, %d, %d): %x, %v", it.mtu, it.ident, it.number, fragment, err)
		}
	}
}
