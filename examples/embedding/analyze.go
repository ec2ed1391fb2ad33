// Prints the ModuleInfo of a source text, or the report on it, by cgo.
//
// example: CGO_ENABLED=1 go run examples/embedding/analyze.go file:///a.js < a.js
package main

// #cgo pkg-config: modinfo
// #include <modinfo.h>
import "C"

import (
	"encoding/json"
	"fmt"
	"io"
	"os"
)

// The status of a command on a document, and the line that it writes, in the room that it needs.
func run(command C.uint8_t, document []byte) (C.uint8_t, []byte) {
	for length := C.size_t(4096); ; {
		answer := make([]byte, length)
		status := C.modinfo_run(command, (*C.uint8_t)(&document[0]), C.size_t(len(document)),
			(*C.uint8_t)(&answer[0]), C.size_t(len(answer)), &length)
		if status != C.MODINFO_TOO_SMALL {
			return status, answer[:length]
		}
	}
}

func main() {
	text, _ := io.ReadAll(os.Stdin)
	document, _ := json.Marshal(map[string]string{"specifier": os.Args[1], "source": string(text)})
	status, line := run(C.MODINFO_ANALYZE_SOURCE, document)
	if status == C.MODINFO_FAULT {
		_, line = run(C.MODINFO_CHECK_SOURCE, document)
	}
	fmt.Printf("%s", line)
	os.Exit(int(status))
}
