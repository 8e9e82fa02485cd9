//go:build gopacket

package bench

import (
	"testing"

	"github.com/google/gopacket"
	"github.com/google/gopacket/layers"
)

// parser decodes into the same layers again and again.
type parser struct {
	ethernet layers.Ethernet
	ipv4     layers.IPv4
	ipv6     layers.IPv6
	tcp      layers.TCP
	udp      layers.UDP
	payload  gopacket.Payload
	decoded  []gopacket.LayerType
	parser   *gopacket.DecodingLayerParser
}

func newParser() *parser {
	p := new(parser)
	p.parser = gopacket.NewDecodingLayerParser(layers.LayerTypeEthernet, &p.ethernet, &p.ipv4, &p.ipv6, &p.tcp, &p.udp, &p.payload)
	return p
}

// read returns the sum of ports and payload length. A wrong TCP checksum counts as a failure, if it is to be verified.
func (p *parser) read(data []byte, isVerified bool) int {
	if p.parser.DecodeLayers(data, &p.decoded) != nil {
		return 0
	}
	var network gopacket.NetworkLayer
	for _, layer := range p.decoded {
		switch layer {
		case layers.LayerTypeIPv4:
			network = &p.ipv4
		case layers.LayerTypeIPv6:
			network = &p.ipv6
		case layers.LayerTypeTCP:
			if isVerified && !p.isValid(network) {
				return 0
			}
			return int(p.tcp.SrcPort) + int(p.tcp.DstPort) + len(p.tcp.Payload)
		case layers.LayerTypeUDP:
			return int(p.udp.SrcPort) + int(p.udp.DstPort) + len(p.udp.Payload)
		}
	}
	return 0
}

// isValid tells whether the sum over a segment with its checksum is that of a valid one.
func (p *parser) isValid(network gopacket.NetworkLayer) bool {
	if p.tcp.SetNetworkLayerForChecksum(network) != nil {
		return false
	}
	sum, err := p.tcp.ComputeChecksum()
	return err == nil && sum == 0
}

func BenchmarkGopacket(b *testing.B) {
	p := newParser()
	measure(b, "gopacket `DecodingLayerParser`", func(data []byte) int { return p.read(data, false) })
	measure(b, "gopacket `DecodingLayerParser`, TCP checksum", func(data []byte) int { return p.read(data, true) })
	measure(b, "gopacket `NewPacket`, lazy", func(data []byte) int {
		packet := gopacket.NewPacket(data, layers.LayerTypeEthernet, gopacket.DecodeOptions{Lazy: true, NoCopy: true})
		switch segment := packet.TransportLayer().(type) {
		case *layers.TCP:
			return int(segment.SrcPort) + int(segment.DstPort) + len(segment.Payload)
		case *layers.UDP:
			return int(segment.SrcPort) + int(segment.DstPort) + len(segment.Payload)
		}
		return 0
	})
}
