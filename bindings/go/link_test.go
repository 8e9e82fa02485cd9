package ipwire

import (
	"errors"
	"reflect"
	"testing"
)

// UDP from port 54731 to 5353 with the payload "ping". The UDP checksums are not computed.
const (
	udp4      = "4500002055fd40004011e6cd7f0000017f000001d5cb14e9000cfe1f70696e67"
	udp6      = "60000000000c114020010db800000000000000000000000120010db8000000000000000000000002d5cb14e9000c87f570696e67"
	addresses = "020000000002" + "020000000001"
)

// The first two rows are captures of tcpdump on the loopback device. The others are by hand:
// www.tcpdump.org/linktypes.html, and IEEE 802.1Q.
func TestLinks(t *testing.T) {
	for _, it := range []struct {
		linkType       uint32
		header, packet string
		link           Link
	}{
		{113, "00000304000600000000000000000800", udp4, Link{16, 0x0800, nil}},
		{276, "0800000000000001030400060000000000000000", udp4, Link{20, 0x0800, nil}},
		{0, "02000000", udp4, Link{4, 0x0800, nil}},
		{0, "0000001c", udp6, Link{4, 0x86dd, nil}},
		{108, "00000018", udp6, Link{4, 0x86dd, nil}},
		{101, "", udp6, Link{0, 0x86dd, nil}},
		{228, "", udp4, Link{0, 0x0800, nil}},
		{1, addresses + "0800", udp4, Link{14, 0x0800, nil}},
		{1, addresses + "810000640800", udp4, Link{18, 0x0800, []uint16{100}}},
		{1, addresses + "88a8e0c88100006486dd", udp6, Link{22, 0x86dd, []uint16{0xe0c8, 100}}},
	} {
		data := unhex(t, it.header+it.packet)
		if link, err := ReadLink(it.linkType, data); err != nil || !reflect.DeepEqual(link, it.link) {
			t.Errorf("ReadLink(%d, %s): %+v, %v", it.linkType, it.header, link, err)
		}
		frame := ReadLinkType(it.linkType, data, len(data))
		if frame.Reason != 0 || frame.Ethernet.Type != it.link.Type || frame.NetworkOffset != it.link.Offset ||
			frame.Src.Port() != 54731 || string(frame.Payload) != "ping" {
			t.Errorf("ReadLinkType(%d, %s): %+v", it.linkType, it.header, frame)
		}
		if hasAddresses := frame.Ethernet.Src != (HardwareAddr{}); hasAddresses != (it.linkType == 1) {
			t.Errorf("ReadLinkType(%d, %s): %+v", it.linkType, it.header, frame.Ethernet)
		}
	}
}

func TestRejectedLinks(t *testing.T) {
	for _, it := range []struct {
		linkType uint32
		data     string
		err      error
	}{
		{105, addresses + "0800" + udp4, UnknownLink},
		{1, addresses + "08", TooShort},
		{1, addresses + "8100006408", TooShort},
		{101, "55000020", BadVersion},
		{101, "", TooShort},
		{228, udp6, BadVersion},
		{229, "", TooShort},
	} {
		data := unhex(t, it.data)
		if _, err := ReadLink(it.linkType, data); !errors.Is(err, it.err) {
			t.Errorf("ReadLink(%d, %s): %v", it.linkType, it.data, err)
		}
		if frame := ReadLinkType(it.linkType, data, len(data)); !errors.Is(frame.Check(), it.err) || len(frame.Payload) != len(data) {
			t.Errorf("ReadLinkType(%d, %s): %+v", it.linkType, it.data, frame)
		}
	}
	if frame := ReadLinkType(1, unhex(t, addresses+"8100006408"), 50); !errors.Is(frame.Check(), HeaderCut) {
		t.Errorf("ReadLinkType: %+v", frame)
	}
	if UnknownLink.Error() != "ipwire: LK_UNKNOWN_LINK" {
		t.Error(UnknownLink)
	}
}

// By hand, from RFC 8200, sections 4.3 to 4.6, and RFC 6564 for a length of more than one unit.
func TestIPv6Headers(t *testing.T) {
	const ends = "20010db8000000000000000000000001" + "20010db8000000000000000000000002"
	for _, it := range []struct {
		packet  string
		headers []IPv6Header
		err     error
	}{
		{udp6, []IPv6Header{{0, 40, 41, 17}}, nil},
		{"6000000000280040" + ends + "2b00050200000100" + "3c010000" + "000000000000000000000000" + "2c00010400000000" +
			"11000001000000ff", []IPv6Header{{0, 40, 41, 0}, {40, 8, 0, 43}, {48, 16, 43, 60}, {64, 8, 60, 44}, {72, 8, 44, 17}}, nil},
		{"6000000000102c40" + ends + "1100000800000001" + "d5cb14e900080000", []IPv6Header{{0, 40, 41, 44}, {40, 8, 44, 59}}, nil},
		{"6000000000073c40" + ends + "1100000000000000", []IPv6Header{{0, 40, 41, 60}}, BadLength},
		{"4000000000103c40" + ends, nil, BadVersion},
		{udp6[:78], nil, TooShort},
		{"", nil, TooShort},
	} {
		if headers, err := IPv6Headers(unhex(t, it.packet)); !errors.Is(err, it.err) || !reflect.DeepEqual(headers, it.headers) {
			t.Errorf("IPv6Headers(%s): %v, %v", it.packet, headers, err)
		}
	}
}
