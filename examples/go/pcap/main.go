// Prints one line for each packet of a pcap file, of any link type that the library knows:
//
//	cd examples/go && go run ./pcap ../echo.pcap
package main

import (
	"bufio"
	"encoding/binary"
	"errors"
	"fmt"
	"io"
	"log"
	"os"

	"lerkvist.example/ipwire"
)

const longest = 1 << 18 // a packet of libpcap, in bytes

// The first four bytes: the byte order, and times in microseconds or nanoseconds.
var orders = map[string]binary.ByteOrder{
	"\xd4\xc3\xb2\xa1": binary.LittleEndian,
	"\x4d\x3c\xb2\xa1": binary.LittleEndian,
	"\xa1\xb2\xc3\xd4": binary.BigEndian,
	"\xa1\xb2\x3c\x4d": binary.BigEndian,
}

// printLines prints the packets of a file.
func printLines(file io.Reader, out io.Writer) error {
	var header [24]byte
	if _, err := io.ReadFull(file, header[:]); err != nil {
		return err
	}
	order := orders[string(header[:4])]
	if order == nil {
		return errors.New("this is no pcap file")
	}
	linkType := order.Uint32(header[20:]) & 0xffff // the upper bits say whether frames have a check sequence
	if _, err := ipwire.ReadLink(linkType, nil); err == ipwire.UnknownLink {
		return fmt.Errorf("link type %d is not supported", linkType)
	}
	packet := make([]byte, longest)
	for {
		_, err := io.ReadFull(file, header[:16])
		if err == io.EOF {
			return nil
		}
		if err != nil {
			return err
		}
		captured, length := order.Uint32(header[8:]), order.Uint32(header[12:])
		if captured > longest {
			return fmt.Errorf("a packet of %d bytes", captured)
		}
		if _, err := io.ReadFull(file, packet[:captured]); err != nil {
			return err
		}
		fmt.Fprintln(out, ipwire.ReadLinkType(linkType, packet[:captured], int(length)))
	}
}

func main() {
	log.SetFlags(0)
	if len(os.Args) != 2 {
		log.Fatal("usage: pcap FILE")
	}
	file, err := os.Open(os.Args[1])
	if err != nil {
		log.Fatal(err)
	}
	out := bufio.NewWriter(os.Stdout)
	err = printLines(bufio.NewReader(file), out)
	out.Flush()
	if err != nil {
		log.Fatal(err)
	}
}
