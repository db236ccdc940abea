// check KIND FILE MOMENT TA [CA ..]: the status of an object, its text, and the rows of a ROA.
package main

// #cgo LDFLAGS: -lrpki_check
// #include <stdlib.h>
// #include "rpki_check.h"
import "C"

import (
	"fmt"
	"net/netip"
	"os"
	"strconv"
	"unsafe"
)

// Octets of a file, in memory of C.
func octetsOf(path string) C.rpki_octets {
	octets, err := os.ReadFile(path)
	if err != nil {
		panic(err)
	}
	return C.rpki_octets{at: (*C.uint8_t)(C.CBytes(octets)), length: C.size_t(len(octets))}
}

func number(digits string) int {
	value, err := strconv.Atoi(digits)
	if err != nil {
		panic(err)
	}
	return value
}

func main() {
	words := os.Args[1:]
	kind, object, moment := C.uint32_t(number(words[0])), octetsOf(words[1]), words[2]
	// the chain lies in memory of C too, since what is passed to C may hold no pointer of Go
	chain := (*[16]C.rpki_octets)(C.calloc(16, C.sizeof_rpki_octets))
	for i, path := range words[4:] {
		chain[i] = octetsOf(path)
	}
	part := func(at int) C.uint8_t { return C.uint8_t(number(moment[at : at+2])) }
	question := C.rpki_question{anchor: octetsOf(words[3]), chain: &chain[0]}
	question.chain_length = C.size_t(len(words) - 4)
	question.moment = C.rpki_moment{year: C.uint16_t(number(moment[:4])), month: part(4),
		day: part(6), hour: part(8), minute: part(10), second: part(12)}
	// how long the text is, and then the text
	var length, count C.size_t
	C.rpki_check_object(&question, kind, object.at, object.length, nil, 0, &length)
	room, text := length, make([]byte, length+1)
	status := C.rpki_check_object(&question, kind, object.at, object.length,
		(*C.char)(unsafe.Pointer(&text[0])), room, &length)
	if length > room { // memory ran out in between: nothing was written
		length = 0
	}
	fmt.Printf("%d\n%s\n", status, text[:length])
	// how many rows there are, and then the rows
	C.rpki_check_roa(&question, object.at, object.length, nil, 0, &count)
	rows := make([]C.rpki_payload, count+1)
	C.rpki_check_roa(&question, object.at, object.length, &rows[0], count, &count)
	for _, row := range rows[:count] {
		size := map[C.uint8_t]C.int{4: 4, 6: 16}[row.family]
		octets := C.GoBytes(unsafe.Pointer(&row.address), size)
		address, _ := netip.AddrFromSlice(octets)
		fmt.Printf("origin %s/%d-%d\n", address, row.prefix_length, row.max_length)
	}
	if status != C.RPKI_GOOD {
		os.Exit(1)
	}
}
