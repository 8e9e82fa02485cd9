package ipwire

/*
#include <ip_wire.h>

static struct lk_frame read_linktype(uint32_t type, const uint8_t *ptr, size_t count, size_t len)
{
    struct lk_frame frame;
    lk_read_linktype(type, ptr, count, len, &frame);
    return frame;
}
*/
import "C"

// Link is a link-layer header.
type Link struct {
	Offset int      // where the packet begins: the length of the header and its VLAN tags
	Type   uint16   // the EtherType of the packet; 0: the header has none
	Tags   []uint16 // the control information of each VLAN tag, the outer one first; at most 2
}

// ReadLink parses the link-layer header of a packet, up to its VLAN tags. linkType is the number that a capture file has
// (www.tcpdump.org/linktypes.html): 0, 1, 12, 14, 101, 108, 113, 228, 229 or 276. The error is UnknownLink, TooShort or
// BadVersion.
func ReadLink(linkType uint32, captured []byte) (Link, error) {
	var found C.struct_lk_link
	ptr, count := memory(captured)
	if reason := C.lk_read_link(C.uint32_t(linkType), ptr, count, &found); reason != C.LK_READ {
		return Link{}, Reason(reason)
	}
	link := Link{Offset: int(found.offset), Type: uint16(found._type)}
	for _, tag := range found.tags[:found.tag_count] {
		link.Tags = append(link.Tags, uint16(tag))
	}
	return link, nil
}

// ReadLinkType parses a packet of this length, of any link type that ReadLink knows, of which only the first bytes were
// captured. Ethernet.Type is the EtherType after the VLAN tags. Only link type 1 has Ethernet addresses.
func ReadLinkType(linkType uint32, captured []byte, length int) Frame {
	ptr, count := memory(captured)
	return frameOf(captured, C.read_linktype(C.uint32_t(linkType), ptr, count, sizeOf(length)))
}
