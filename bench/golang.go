// The library beside ChaCha20-Poly1305 of Go's x/crypto, in turns in one process: golang BUILD PEERS. Each message is sealed and opened from
// one buffer into another under a kept key, without associated data, and each figure is the best of many short rounds. Every round of
// the library is one call from Go, whose cost is spread over its messages. It prints lines as bench.c writes them behind --data.
package main

/*
#include "aeadkit.h"
static struct aeadkit_key kept;
static uint8_t text[2048], sealed[2064], opened[2048], nonce[AEADKIT_NONCE_BYTES];
static const uint8_t *made(void) {
    return sealed;
}
static uint32_t begin(const uint8_t *key) {
    return aeadkit_key_init(&kept, AEADKIT_CHACHA20_POLY1305, key, 32);
}
static uint32_t seal(size_t length, int times) {
    uint32_t status = AEADKIT_DONE;
    while (times-- > 0) status |= aeadkit_seal_with(&kept, nonce, sizeof nonce, text, length, 0, 0, sealed, length + 16);
    return status;
}
static uint32_t open_again(size_t length, int times) {
    uint32_t status = AEADKIT_DONE;
    while (times-- > 0) status |= aeadkit_open_with(&kept, nonce, sizeof nonce, sealed, length + 16, 0, 0, opened, length);
    return status;
}
*/
import "C"

import (
	"bytes"
	"fmt"
	"os"
	"runtime"
	"runtime/debug"
	"time"
	"unsafe"

	"golang.org/x/crypto/chacha20poly1305"
)

const times, rounds = 400, 300

var least [2]float64

// Takes the time of a round, in nanoseconds for each message.
func measure(whose int, round func()) {
	start := time.Now()
	round()
	if took := float64(time.Since(start).Nanoseconds()) / times; least[whose] == 0 || took < least[whose] {
		least[whose] = took
	}
}

func main() {
	runtime.LockOSThread()
	debug.SetGCPercent(-1)
	key, nonce := make([]byte, 32), make([]byte, 12)
	peer, err := chacha20poly1305.New(key)
	if err != nil || C.begin((*C.uint8_t)(&key[0])) != C.AEADKIT_DONE {
		panic("no key")
	}
	text, sealed, opened := make([]byte, 2048), make([]byte, 0, 2064), make([]byte, 0, 2048)
	for _, length := range []int{0, 16, 64, 128, 256, 512, 1024} {
		for _, direction := range []string{"sealing", "opening"} {
			least = [2]float64{}
			sealed = peer.Seal(sealed[:0], nonce, text[:length], nil)
			for round := 0; round < rounds; round++ {
				measure(0, func() {
					if direction == "sealing" {
						if C.seal(C.size_t(length), times) != C.AEADKIT_DONE {
							panic("no sealing")
						}
					} else if C.open_again(C.size_t(length), times) != C.AEADKIT_DONE {
						panic("no opening")
					}
				})
				measure(1, func() {
					for i := 0; i < times; i++ {
						if direction == "sealing" {
							sealed = peer.Seal(sealed[:0], nonce, text[:length], nil)
						} else if _, err := peer.Open(opened[:0], nonce, sealed, nil); err != nil {
							panic(err)
						}
					}
				})
				if !bytes.Equal(sealed, unsafe.Slice((*byte)(C.made()), length+16)) {
					panic("the sealings differ")
				}
			}
			for whose, name := range []string{"aeadkit", "Go"} {
				fmt.Printf("%s\tChaCha20-Poly1305\t%s\t%d\t%s\t%s\tgo\t%.0f\n", os.Args[1], direction, length, name, os.Args[2], least[whose])
			}
		}
	}
}
