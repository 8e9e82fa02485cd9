package ipwire

/*
#include <ip_wire.h>
*/
import "C"

import "time"

// MaxFrame is the length of the longest frame that a Reassembler writes.
const MaxFrame = 14 + 40 + 65535

// Reassembler puts IPv4 and IPv6 packets together from their fragments (RFC 791, section 3.2; RFC 8200, section 4.5). The
// fragments are kept for 60 seconds. If all places are in use, the packet that expires first makes room. Two goroutines
// must not use one Reassembler at once. A host calls Host.Answer for each fragment before. If there is an answer, the
// fragment has a fault: send the answer, and discard the fragment.
type Reassembler struct {
	reassemblies []C.struct_lk_reassembly
	memory       []byte
}

// NewReassembler returns a Reassembler for so many packets at a time, each with a payload of at most longest bytes. Each 8
// bytes of it take 9.
func NewReassembler(packets, longest int) *Reassembler {
	return &Reassembler{
		reassemblies: make([]C.struct_lk_reassembly, packets),
		memory:       make([]byte, packets*((longest+7)/8)*9),
	}
}

// Reassemble takes the fragment in an Ethernet frame. If its packet is complete, it writes the frame with it to the
// beginning of out, and returns this part of it. Nil without an error means that a part of the packet is missing. MaxFrame
// bytes of out always suffice. A packet that is not fragmented is complete: of IPv4 each, of IPv6 one with an atomic
// fragment header. Now is the time since a fixed moment, and never goes back.
//
// The error is PayloadTooLong if the fragment ends after the memory of its packet, NoHeader without a valid fragment, and
// Dropped if the fragments of the packet contradict each other: they are dropped until it expires. After NoRoom any of
// them gives the packet again.
func (r *Reassembler) Reassemble(now time.Duration, frame, out []byte) ([]byte, error) {
	reassemblies, count := first(r.reassemblies)
	room, roomLen := memory(r.memory)
	ptr, length := memory(frame)
	to, outLen := memory(out)
	whole, err := written(out, C.lk_reassemble(reassemblies, count, room, roomLen, C.uint64_t(now.Milliseconds()), ptr, length, to, outLen))
	if len(whole) == 0 {
		return nil, err
	}
	return whole, nil
}

// Expire frees packets whose time is over, up to one whose fragment with offset 0 was received. It writes the frame with
// this fragment to the beginning of out, and returns this part of it: an ICMP error tells its sender (time exceeded, code
// 1). Call it until it returns nil. MaxFrame bytes of out always suffice.
func (r *Reassembler) Expire(now time.Duration, out []byte) []byte {
	reassemblies, count := first(r.reassemblies)
	room, roomLen := memory(r.memory)
	to, outLen := memory(out)
	length := C.lk_expire_reassembly(reassemblies, count, room, roomLen, C.uint64_t(now.Milliseconds()), to, outLen)
	if length == 0 {
		return nil
	}
	return out[:length]
}
