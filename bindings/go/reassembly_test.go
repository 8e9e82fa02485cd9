package ipwire

import (
	"encoding/hex"
	"testing"
	"time"
)

// Scapy packed the packets, and cut them.
func TestReassembler(t *testing.T) {
	const (
		whole  = ethernet + "45000034123400004011e481c0000201c0000202" + "0fa000070020e772" + "000102030405060708090a0b0c0d0e0f1011121314151617"
		begin  = ethernet + "45000024123420004011c491c0000201c0000202" + "0fa000070020e772" + "0001020304050607"
		end    = ethernet + "45000024123400024011e48fc0000201c0000202" + "08090a0b0c0d0e0f1011121314151617"
		other  = ethernet + "45000024123400024011e48fc0000201c0000202" + "09090a0b0c0d0e0f1011121314151617"
		link6  = "020000000002" + "020000000001" + "86dd"
		addrs  = "20010db8000000000000000000000001" + "20010db8000000000000000000000002"
		whole6 = link6 + "6000000000201140" + addrs + "0fa0000700201002" + "000102030405060708090a0b0c0d0e0f1011121314151617"
		begin6 = link6 + "6000000000182c40" + addrs + "1100000112345678" + "0fa0000700201002" + "0001020304050607"
		end6   = link6 + "6000000000182c40" + addrs + "1100001012345678" + "08090a0b0c0d0e0f1011121314151617"
	)
	r := NewReassembler(2, 64)
	for place, it := range []struct {
		now         time.Duration
		frame, came string
		failure     error
	}{
		{1, begin, "", nil},
		{1, begin, "", nil},
		{60, end, whole, nil},
		{60, whole, whole, nil},
		{60, end6, "", nil},
		{60, begin6, whole6, nil},
		{60, whole6, "", NoHeader},
		{60, "", "", NoHeader},
		{60, end, "", nil},
		{60, other, "", Dropped},
		{119, begin, "", Dropped},
		{120, begin, "", nil},
	} {
		came, err := r.Reassemble(it.now*time.Second, unhex(t, it.frame), make([]byte, MaxFrame))
		if hex.EncodeToString(came) != it.came || err != it.failure {
			t.Errorf("%d: %x, %v", place, came, err)
		}
	}
	for _, it := range []struct {
		now  time.Duration
		came string
	}{{179, ""}, {180, begin}, {180, ""}} {
		if came := r.Expire(it.now*time.Second, make([]byte, MaxFrame)); hex.EncodeToString(came) != it.came {
			t.Errorf("Expire(%d s): %x", it.now, came)
		}
	}
	if _, err := NewReassembler(0, 0).Reassemble(0, unhex(t, end), nil); err != PayloadTooLong {
		t.Error(err)
	}
}
