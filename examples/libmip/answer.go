// What a correspondent answers to the packets on standard input, a line of digits each: the listing of each packet that it sends.
//
//	CGO_CFLAGS=-IPREFIX/include CGO_LDFLAGS='-LPREFIX/lib -lmip' go build answer.go
//
// Its seed is that of the examples, so that the same packets give the same answers.
package main

// #include <mip.h>
import "C"

import (
	"bufio"
	"encoding/hex"
	"fmt"
	"net"
	"os"
	"unsafe"
)

// at is where the bytes stand. The header asks for a pointer that is not null, so there is a byte where there are none.
func at(bytes []byte) *C.uint8_t {
	if len(bytes) == 0 {
		bytes = make([]byte, 1)
	}
	return (*C.uint8_t)(unsafe.Pointer(&bytes[0]))
}

func check(status C.uint32_t) {
	if status != C.MIP_OK {
		fmt.Fprintln(os.Stderr, "answer:", C.GoString(C.mip_status_name(status)))
		os.Exit(1)
	}
}

func list(packet []byte) {
	text := make([]byte, 1<<18)
	var size C.size_t
	check(C.mip_decode(at(packet), C.size_t(len(packet)), at(text), C.size_t(len(text)), &size))
	fmt.Print(string(text[:size]))
}

func main() {
	var node C.struct_mip_correspondent_handle
	seed := make([]byte, 32)
	for i := range seed {
		seed[i] = byte(i)
	}
	check(C.mip_correspondent_open(&node, at(net.ParseIP("2001:db8:2::2")), at(seed), 0, 0, 64, 1))
	defer C.mip_correspondent_close(&node)
	lines := bufio.NewScanner(os.Stdin)
	for number := 0; lines.Scan(); number++ {
		packet, fault := hex.DecodeString(lines.Text())
		if fault != nil {
			fmt.Fprintln(os.Stderr, "answer:", fault)
			os.Exit(2)
		}
		check(C.mip_correspondent_take(&node, 0, C.uint64_t(number), at(packet), C.size_t(len(packet))))
		var fields C.struct_mip_answer_fields
		out := make([]byte, 2048)
		var size C.size_t
		for C.mip_correspondent_next(&node, &fields, at(out), C.size_t(len(out)), &size) == C.MIP_OK {
			if fields.kind == C.MIP_ANSWER_SEND {
				list(out[:size])
			}
		}
	}
}
