package ipwire

/*
#include <ip_wire.h>
*/
import "C"

import (
	"net/netip"
	"time"
)

// EmitMLDReport writes a whole frame, 86 bytes, to the beginning of out, and returns this part of it. Its report of version
// 1 (RFC 2710) says that the host with this Ethernet address listens to a multicast group. Send it when an interface comes
// up, and after each query that ReadMLDQuery finds. Src is a link-local address, or :: if there is none (RFC 3590, section
// 4). That the group is a multicast address is not checked. The error is a Failure.
func EmitMLDReport(hardware HardwareAddr, src, group netip.Addr, out []byte) ([]byte, error) {
	headers := C.struct_lk_frame{
		ethernet: C.struct_lk_ethernet{src: hardware.c()},
		src:      C.struct_lk_endpoint{addr: cAddr(src)},
		dst:      C.struct_lk_endpoint{addr: cAddr(group)},
	}
	to, room := memory(out)
	return written(out, C.lk_emit_mld_report(&headers, to, room))
}

// ReadMLDQuery returns the maximum response delay of a query in an Ethernet frame that asks for a multicast group: report
// the group after a random part of it (RFC 2710, section 4). It returns false if the frame has no valid query of version 1
// or 2 for all groups or for this one. The comment of lk_find_mld_query in ip_wire.h has the conditions.
func ReadMLDQuery(frame []byte, group netip.Addr) (time.Duration, bool) {
	ptr, length := memory(frame)
	asked := cAddr(group)
	var query C.struct_lk_mld_query
	if C.lk_find_mld_query(ptr, length, &asked, &query) == 0 {
		return 0, false
	}
	return time.Duration(query.max_delay) * time.Millisecond, true
}
