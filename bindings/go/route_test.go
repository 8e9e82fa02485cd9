package ipwire

import (
	"math/rand"
	"net/netip"
	"testing"
)

// linearSearch is the place of the route for an address by net/netip. All blocks are looked at.
func linearSearch(blocks []netip.Prefix, addr netip.Addr) int {
	found := -1
	for place, block := range blocks {
		if block.Contains(addr) && (found < 0 || block.Bits() > blocks[found].Bits()) {
			found = place
		}
	}
	return found
}

// edges are the first and last address of a block, and those before and after, if there are any.
func edges(block netip.Prefix) []netip.Addr {
	first := block.Masked().Addr()
	octets := first.AsSlice()
	for bit := block.Bits(); bit < 8*len(octets); bit++ {
		octets[bit/8] |= 0x80 >> (bit % 8)
	}
	last, _ := netip.AddrFromSlice(octets)
	return []netip.Addr{first.Prev(), first, last, last.Next()}
}

// searches compares both searches with one of all blocks: by the table, and without one as for 2^26 routes.
func searches(t *testing.T, blocks []netip.Prefix) {
	t.Helper()
	list := make([]Route, len(blocks))
	for place, block := range blocks {
		list[place] = Route{Prefix: block, Interface: uint16(place)}
	}
	byTable, err := NewRoutes(list)
	if err != nil || len(byTable.cells) != 5*len(list)+5 {
		t.Fatal(err, len(byTable.cells))
	}
	byIndex := &Routes{routes: byTable.routes, nodes: byTable.nodes}
	addrs := []netip.Addr{netip.MustParseAddr("192.0.2.1"), netip.MustParseAddr("ff02::1"), {}}
	for _, block := range blocks {
		addrs = append(addrs, edges(block)...)
	}
	for _, addr := range addrs {
		place := linearSearch(blocks, addr)
		if table, index := byTable.Choose(addr), byIndex.Choose(addr); table != place || index != place {
			t.Errorf("%v: %v by the table, %v by the index, not %v: %v", addr, table, index, place, blocks)
		}
	}
}

func TestSearches(t *testing.T) {
	for _, texts := range [][]string{
		{},
		{"0.0.0.0/0"},
		{"::/0", "0.0.0.0/0"},
		{"128.0.0.0/1", "::1/128", "0.0.0.0/32", "255.255.255.255/32"},
		{"10.1.0.0/16", "10.9.9.9/8", "10.0.0.0/8", "10.1.255.255/16"}, // two blocks are there twice
	} {
		var blocks []netip.Prefix
		for _, text := range texts {
			blocks = append(blocks, netip.MustParsePrefix(text))
		}
		searches(t, blocks)
	}
	random := rand.New(rand.NewSource(1))
	for spread := 1; spread <= 24; spread++ {
		var nested, scattered []netip.Prefix
		for place := 0; place < 150; place++ {
			low := random.Intn(1 << spread)
			octets := [16]byte{0x20, 1, 0xd, 0xb8, 13: byte(low >> 16), 14: byte(low >> 8), 15: byte(low)}
			ipv4 := netip.AddrFrom4([4]byte{10, octets[13], octets[14], octets[15]})
			nested = append(nested, netip.PrefixFrom(ipv4, random.Intn(33)))
			scattered = append(scattered, netip.PrefixFrom(ipv4, 32-random.Intn(3)),
				netip.PrefixFrom(netip.AddrFrom16(octets), 128-random.Intn(spread)))
		}
		searches(t, nested)
		searches(t, scattered)
	}
}
