package ipwire

/*
#include <ip_wire.h>
*/
import "C"

// SackRange is a range of received data (RFC 2018), from Left up to Right, without Right.
type SackRange struct {
	Left, Right uint32
}

// Timestamp is the option of RFC 7323.
type Timestamp struct {
	Value, Reply uint32
}

// TCPOptions has the options of a TCP header (RFC 9293, RFC 2018, RFC 7323). A nil is an option that is not there.
type TCPOptions struct {
	MSS           *uint16 // in bytes
	WindowScale   *uint8  // in bits; at most 14 is read
	SackPermitted bool
	SackRanges    []SackRange // at most 4
	Timestamp     *Timestamp
}

// ReadTCPOptions parses the options of a TCP header, such as Frame.TCPHeader. The error is BadOptions if one is
// malformed, or the header is shorter than 20 bytes or than it says.
func ReadTCPOptions(header []byte) (TCPOptions, error) {
	var set C.struct_lk_tcp_options
	ptr, length := memory(header)
	if C.lk_find_tcp_options(ptr, length, &set) == 0 {
		return TCPOptions{}, BadOptions
	}
	return optionsOf(&set), nil
}

// RawOption is where an option of a TCP header is.
type RawOption struct {
	Offset int   // of its first byte in the header
	Kind   uint8 // 0: the end mark, 1: padding; the data of the others begins after 2 bytes
	Len    int   // of the whole option, in bytes
}

// RawTCPOptions returns the options of every kind of a TCP header, in their order, with padding, up to the end mark. The
// error is BadOptions if one is malformed, or the header is shorter than 20 bytes or than it says; then those before it are
// returned.
func RawTCPOptions(header []byte) ([]RawOption, error) {
	var (
		options []RawOption
		option  C.struct_lk_tcp_option
	)
	ptr, length := memory(header)
	for C.lk_next_tcp_option(ptr, length, &option) != 0 {
		options = append(options, RawOption{int(option.offset), uint8(option.kind), int(option.len)})
	}
	if option.is_malformed != 0 {
		return options, BadOptions
	}
	return options, nil
}

// TCPFlagName returns the name of one flag of a TCP header, as "SYN" for 2, or "unknown".
func TCPFlagName(flag uint8) string {
	return C.GoString(C.lk_tcp_flag_name(C.int(flag)))
}

// AddSeq returns a sequence number so many numbers later. Sequence numbers are modulo 2^32 (RFC 9293, section 3.4).
func AddSeq(number, count uint32) uint32 {
	return uint32(C.lk_add_seq(C.uint32_t(number), C.uint32_t(count)))
}

// SubtractSeq returns how many numbers the first one is after the second, from -2^31 to 2^31 - 1.
func SubtractSeq(a, b uint32) int32 {
	return int32(C.lk_subtract_seq(C.uint32_t(a), C.uint32_t(b)))
}

// CompareSeq returns -1, 0 or 1 if the first number is before, equal to or after the second.
func CompareSeq(a, b uint32) int {
	return int(C.lk_compare_seq(C.uint32_t(a), C.uint32_t(b)))
}

func optionsOf(set *C.struct_lk_tcp_options) TCPOptions {
	options := TCPOptions{SackPermitted: set.sack_permitted != 0}
	if set.has_mss != 0 {
		size := uint16(set.mss)
		options.MSS = &size
	}
	if set.has_window_scale != 0 {
		scale := uint8(set.window_scale)
		options.WindowScale = &scale
	}
	if set.has_timestamp != 0 {
		options.Timestamp = &Timestamp{uint32(set.tsval), uint32(set.tsecr)}
	}
	for _, it := range set.sack_ranges[:set.sack_range_count] {
		options.SackRanges = append(options.SackRanges, SackRange{uint32(it.left), uint32(it.right)})
	}
	return options
}

// HeaderLen returns the length of a TCP header with these options, 20 to 60 bytes. The error is OptionsTooLong.
func (o *TCPOptions) HeaderLen() (int, error) {
	set, err := o.c()
	if err != nil {
		return 0, err
	}
	length := C.lk_tcp_header_len(&set)
	if length < 0 {
		return 0, Failure(length)
	}
	return int(length), nil
}

// c returns the struct of the options. Those of nil are none.
func (o *TCPOptions) c() (set C.struct_lk_tcp_options, err error) {
	if o == nil {
		return set, nil
	}
	if len(o.SackRanges) > len(set.sack_ranges) {
		return set, OptionsTooLong
	}
	for place, it := range o.SackRanges {
		set.sack_ranges[place] = C.struct_lk_sack_range{left: C.uint32_t(it.Left), right: C.uint32_t(it.Right)}
	}
	set.sack_range_count = C.uint8_t(len(o.SackRanges))
	set.sack_permitted = flag(o.SackPermitted)
	if o.MSS != nil {
		set.mss, set.has_mss = C.uint16_t(*o.MSS), 1
	}
	if o.WindowScale != nil {
		set.window_scale, set.has_window_scale = C.uint8_t(*o.WindowScale), 1
	}
	if o.Timestamp != nil {
		set.tsval, set.tsecr = C.uint32_t(o.Timestamp.Value), C.uint32_t(o.Timestamp.Reply)
		set.has_timestamp = 1
	}
	return set, nil
}
