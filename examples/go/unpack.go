// unpack.go checks an image, and writes the payload at a position to standard output, like
// examples/c/unpack.c: go run . kernel.itb 0 > payload, or by keys go run . signed.itb 0 dev.pem > payload.
// CGO_CFLAGS and CGO_LDFLAGS name the header and the library, if the compiler does not find them.
package main

import (
	"errors"
	"fmt"
	"os"
	"strconv"
	"uimg"
)

const (
	done      = 0
	notRight  = 1
	wrongLine = 2
	failed    = 3
)

// check checks an image, by the keys of a file if there is one.
func check(image []byte, paths []string) error {
	if len(paths) == 0 {
		return uimg.CheckStrict(image, uimg.SHA256)
	}
	keys, err := os.ReadFile(paths[0])
	if err != nil {
		return err
	}
	return uimg.CheckSigned(image, keys, "", uimg.SHA256)
}

func unpack(image []byte, position uint32) error {
	payload, err := uimg.PayloadAt(image, position)
	if err == nil {
		_, err = os.Stdout.Write(payload)
	}
	return err
}

// status returns the exit status for an error: that of the program uimg.
func status(err error) int {
	var fault uimg.Fault
	switch {
	case err == nil:
		return done
	case errors.As(err, &fault), errors.Is(err, uimg.ErrNotRight):
		return notRight
	case errors.Is(err, uimg.ErrBadKeys):
		return wrongLine
	}
	return failed
}

func main() {
	if len(os.Args) != 3 && len(os.Args) != 4 {
		fmt.Fprintln(os.Stderr, "usage: unpack IMAGE POSITION [KEYS]")
		os.Exit(wrongLine)
	}
	position, err := strconv.ParseUint(os.Args[2], 10, 32)
	if err != nil {
		fmt.Fprintln(os.Stderr, "unpack:", err)
		os.Exit(wrongLine)
	}
	image, err := os.ReadFile(os.Args[1])
	if err == nil {
		err = check(image, os.Args[3:])
	}
	if err == nil {
		err = unpack(image, uint32(position))
	}
	if err != nil {
		fmt.Fprintln(os.Stderr, "unpack:", err)
	}
	os.Exit(status(err))
}
