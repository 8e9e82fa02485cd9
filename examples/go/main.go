// Reads a frame, as examples/quick.c does, by the package ipwire of bindings/go:
//
//	cd examples/go && go run .
package main

import (
	"fmt"
	"log"

	"lerkvist.example/ipwire"
)

var ping = []byte("\x02\x00\x00\x00\x00\x02\x02\x00\x00\x00\x00\x01\x08\x00" + // Ethernet
	"\x45\x00\x00\x20\x00\x00\x40\x00\x40\x11\xb6\xc9\xc0\x00\x02\x01\xc0\x00\x02\x02" + // IPv4
	"\xb5\xe3\x14\xe9\x00\x0c\x00\x00" + "ping") // UDP

func main() {
	frame := ipwire.ReadFrame(ping)
	if err := frame.Check(); err != nil {
		log.Fatal(err)
	}
	if frame.Transport != ipwire.TransportUDP {
		log.Fatal("the frame has no UDP packet")
	}
	fmt.Printf("%s from %s\n", frame.Payload, frame.Src)

	reply := frame.Reply()
	written, err := reply.EmitUDP([]byte("pong"), make([]byte, 1514))
	if err != nil {
		log.Fatal(err)
	}
	fmt.Printf("the reply has %d bytes\n", len(written))
}
