package ipwire

import (
	"bytes"
	"net/netip"
	"testing"
	"time"
)

// Linux sent them: a report, and queries of version 1 for all groups and of version 2 for one.
const (
	mldReport = "3333ff00000202000000000186dd6000000000200001fe80000000000000000000fffe000001ff0200000000000000000001ff00" +
		"00023a000502000001008300831d00000000ff0200000000000000000001ff000002"
	mldQuery = "33330000000102000000000986dd6000000000200001fe80000000000000000000fffe000009ff02000000000000000000000000" +
		"00013a0005020000000082007f2b01f4000000000000000000000000000000000000"
	mldQuery2 = "3333ff00000202000000000986dd6000000000240001fe80000000000000000000fffe000009ff0200000000000000000001ff00" +
		"00023a000502000000008200762803e80000ff0200000000000000000001ff0000020a010000"
)

func TestMLD(t *testing.T) {
	src, group, other := netip.MustParseAddr("fe80::ff:fe00:1"), netip.MustParseAddr("ff02::1:ff00:2"), netip.MustParseAddr("ff02::fb")
	report, err := EmitMLDReport(HardwareAddr{2, 0, 0, 0, 0, 1}, src, group, make([]byte, 86))
	if err != nil || !bytes.Equal(report, unhex(t, mldReport)) {
		t.Errorf("%x %v", report, err)
	}
	if _, err := EmitMLDReport(HardwareAddr{}, src, group, make([]byte, 85)); err != NoRoom {
		t.Error(err)
	}
	if _, err := EmitMLDReport(HardwareAddr{}, netip.Addr{}, group, make([]byte, 86)); err != NoVersion {
		t.Error(err)
	}
	for _, it := range []struct {
		frame string
		group netip.Addr
		delay time.Duration
		found bool
	}{
		{mldQuery, group, 500 * time.Millisecond, true},
		{mldQuery, other, 500 * time.Millisecond, true},
		{mldQuery2, group, time.Second, true},
		{mldQuery2, other, 0, false},
		{mldReport, group, 0, false},
		{"", group, 0, false},
	} {
		if delay, found := ReadMLDQuery(unhex(t, it.frame), it.group); delay != it.delay || found != it.found {
			t.Error(it, delay, found)
		}
	}
}
