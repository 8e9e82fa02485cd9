// Package bench times the package ipwire. bench/bindings.py runs it.
package bench

import (
	"encoding/binary"
	"net/netip"
	"os"
	"strconv"
	"testing"

	"lerkvist.example/ipwire"
)

var (
	frames [][]byte
	sink   int
)

func TestMain(m *testing.M) {
	data, err := os.ReadFile(os.Getenv("BENCH_FRAMES"))
	if err != nil {
		panic(err)
	}
	for len(data) > 0 {
		end := 4 + binary.LittleEndian.Uint32(data)
		frames = append(frames, data[4:end])
		data = data[end:]
	}
	os.Exit(m.Run())
}

// measure times a reader of frames, which returns the sum of ports and payload length, and compares its sum.
func measure(b *testing.B, name string, read func(frame []byte) int) {
	total := 0
	for _, frame := range frames {
		total += read(frame)
	}
	if wanted := os.Getenv("BENCH_SUM"); strconv.Itoa(total) != wanted {
		b.Fatalf("%s finds %d, and not %s", name, total, wanted)
	}
	b.Run(name, func(b *testing.B) {
		for i := 0; i < b.N; i++ {
			sink += read(frames[i%len(frames)])
		}
	})
}

func sumOf(frame *ipwire.Frame) int {
	return int(frame.Src.Port()) + int(frame.Dst.Port()) + frame.PayloadLen
}

func BenchmarkFrames(b *testing.B) {
	measure(b, "`ReadFrame`", func(data []byte) int {
		frame := ipwire.ReadFrame(data)
		return sumOf(&frame)
	})
	var frame ipwire.Frame
	measure(b, "`ReadFrameInto`", func(data []byte) int {
		if ipwire.ReadFrameInto(&frame, data) != nil {
			return 0
		}
		return sumOf(&frame)
	})
}

func BenchmarkTexts(b *testing.B) {
	for _, it := range []struct {
		name  string
		parse func(string) (netip.Addr, error)
	}{{"`ParseAddr`", ipwire.ParseAddr}, {"netip `ParseAddr`", netip.ParseAddr}} {
		for _, text := range []string{"192.0.2.1", "2001:db8:1234:5678:9abc:def0:1234:5678"} {
			b.Run(it.name+" "+text, func(b *testing.B) {
				for i := 0; i < b.N; i++ {
					addr, _ := it.parse(text)
					sink += addr.BitLen()
				}
			})
		}
	}
}
