// Package uimg lists and verifies U-Boot images in memory, legacy images and FIT images, and locates
// their payloads, with libuimg.
//
// CheckStrict with SHA256 is the check for an image that U-Boot is to boot: each image in it has a right
// hash of that strength, and U-Boot takes just the bytes that were checked. Without it U-Boot may take
// others, which no hash covers, since by libfdt it finds a node kernel@1 by the name kernel, and the
// first of two properties of one name. Verify also succeeds for an image without hashes.
//
// Right hashes say that the image is undamaged, not who made it: that needs keys, and CheckSigned. No call
// checks the hash nodes of configurations.
package uimg

/*
#cgo LDFLAGS: -luimg
#include <uimg.h>
*/
import "C"

import (
	"errors"
	"fmt"
	"unsafe"
)

// Need is the weakest algorithm that a check accepts, in order of strength. CRC32, MD5 and SHA1 detect
// damage, but not forgery.
type Need uint32

// The algorithms. A legacy image has CRC32 alone.
const (
	CRC32  Need = C.UIMG_CRC32
	MD5    Need = C.UIMG_MD5
	SHA1   Need = C.UIMG_SHA1
	SHA256 Need = C.UIMG_SHA256
	SHA384 Need = C.UIMG_SHA384
	SHA512 Need = C.UIMG_SHA512
)

// Fault is the error of an image that is refused, or of a payload that was not found. The letter is L for
// legacy images, B for the blob of a FIT image, F for the images in it, and S for what only CheckStrict and
// CheckSigned refuse. uimg-faults(7) explains each.
type Fault struct {
	Letter byte
	Number uint8
	Place  uint64 // offset in the image of a fault with the letter B, else 0
}

// Error returns the line of the fault, as the program uimg prints it.
func (fault Fault) Error() string {
	number := C.uint32_t(fault.Letter)<<8 | C.uint32_t(fault.Number)
	line := text(func(to *C.uint8_t, size C.size_t) C.size_t { return C.uimg_fault_line(number, to, size) })
	if fault.Letter == 'B' {
		return fmt.Sprintf("%s at %d", line, fault.Place)
	}
	return line
}

var (
	// ErrNotRight is returned if a hash is wrong, missing or too weak, if payloads overlap, or if a FIT has
	// no image.
	ErrNotRight = errors.New("not right, or without a strong hash")
	// ErrBadKeys is returned by CheckSigned if the keys are refused: nothing is known of the image.
	ErrBadKeys = errors.New("no keys that U-Boot takes")
	// ErrNoMemory is returned if memory was refused: nothing is known of the image.
	ErrNoMemory = errors.New("out of memory")
)

// List lists an image, like `uimg dumpimage -l`. With a Fault it returns all that was printed before it.
func List(image []byte) (string, error) {
	return report(image, func(text []byte, report *C.uimg_report) {
		C.uimg_list(pointer(image), C.size_t(len(image)), pointer(text), C.size_t(len(text)), report)
	})
}

// Verify verifies an image's checksums, like `uimg verify`. The error is nil if and only if the image is
// not refused and each line ends with ok or, for an image without hash nodes, with unhashed. That includes
// a FIT without images: use Check to require more.
func Verify(image []byte) (string, error) {
	return report(image, func(text []byte, report *C.uimg_report) {
		C.uimg_verify(pointer(image), C.size_t(len(image)), pointer(text), C.size_t(len(text)), report)
	})
}

// Check checks an image, like `uimg check --need`. The error is nil only if the FIT has an image, each hash
// of its images is right, each has a right hash by need or a stronger algorithm, and their payloads together
// are not longer than the file; of a legacy image, only if Verify succeeds, need is CRC32, and its table of
// parts fits its data.
func Check(image []byte, need Need) error {
	var report C.uimg_report
	C.uimg_check(pointer(image), C.size_t(len(image)), C.uint32_t(need), &report)
	return done(report.status, report.fault, report.place)
}

// CheckStrict checks an image as Check does and, if that finds all right, whether U-Boot reads what was
// checked: if the error is nil, U-Boot 2023.01 finds exactly the images that were checked, each with the
// payload whose hashes are right.
func CheckStrict(image []byte, need Need) error {
	var report C.uimg_report
	C.uimg_check_strict(pointer(image), C.size_t(len(image)), C.uint32_t(need), &report)
	return done(report.status, report.fault, report.place)
}

// CheckSigned checks an image as CheckStrict does and, if that finds all right, whether each configuration of
// the FIT is signed, as U-Boot 2023.01 verifies it. The keys are the text of a public key in PEM with nothing
// before or after it, as openssl rsa -pubout writes it, or a control devicetree of U-Boot, as mkimage -K
// completes it. The keys of a devicetree are the nodes in /signature whose required is conf: each of them must
// have signed each configuration, or one of them if required-mode is any. A key is RSA of 2048, 3072 or 4096
// bits, with an odd exponent above 2. If config is not empty, only the configuration of this name must be signed.
// The error is ErrBadKeys if there is no such key, and a Fault from S17 to S24 if a configuration is not signed,
// S17 if there is none of this name, and for a legacy image.
func CheckSigned(image, keys []byte, config string, need Need) error {
	var report C.uimg_report
	name := []byte(config)
	C.uimg_check_signed(pointer(image), C.size_t(len(image)), pointer(keys), C.size_t(len(keys)), pointer(name), C.size_t(len(name)), C.uint32_t(need), &report)
	return done(report.status, report.fault, report.place)
}

// PayloadAt returns the part of a legacy image, or the payload of an image in a FIT, at a position, counted
// from 0. It is a slice of the image. The checksums of a legacy image are verified; the payload of a FIT is
// not read, so check it first. The Fault is L8 or F4 if there is no such position.
func PayloadAt(image []byte, position uint32) ([]byte, error) {
	var payload C.uimg_payload
	C.uimg_payload_at(pointer(image), C.size_t(len(image)), C.uint32_t(position), &payload)
	return found(image, &payload)
}

// PayloadNamed returns the payload of the first image with a name in a FIT, as a slice of the image. The
// Fault is F4 if no image has the name, and B2 for a legacy image, whose parts have no names.
func PayloadNamed(image []byte, name string) ([]byte, error) {
	var payload C.uimg_payload
	bytes := []byte(name)
	C.uimg_payload_named(pointer(image), C.size_t(len(image)), pointer(bytes), C.size_t(len(bytes)), &payload)
	return found(image, &payload)
}

// PayloadName returns the name of the image at a position, counted from 0, in a FIT.
func PayloadName(image []byte, position uint32) (string, error) {
	var name C.uimg_payload
	C.uimg_payload_name(pointer(image), C.size_t(len(image)), C.uint32_t(position), &name)
	bytes, err := found(image, &name)
	return string(bytes), err
}

// PayloadCount returns the number of images of a FIT, or of parts of a legacy image.
func PayloadCount(image []byte) (int, error) {
	var count C.uimg_count
	C.uimg_payload_count(pointer(image), C.size_t(len(image)), &count)
	return int(count.count), done(count.status, count.fault, count.place)
}

// Version returns the version of the library, as 0.1.0.
func Version() string {
	return text(func(to *C.uint8_t, size C.size_t) C.size_t { return C.uimg_version(to, size) })
}

// pointer returns a pointer to the first of some bytes, never null.
func pointer(bytes []byte) *C.uint8_t {
	if len(bytes) == 0 {
		return (*C.uint8_t)(unsafe.Pointer(new(byte)))
	}
	return (*C.uint8_t)(unsafe.Pointer(&bytes[0]))
}

// report makes a call, again with enough room if its text was truncated.
func report(image []byte, call func(text []byte, report *C.uimg_report)) (string, error) {
	room := 4096
	for {
		var report C.uimg_report
		text := make([]byte, room)
		call(text, &report)
		if report.needed <= C.size_t(room) {
			return string(text[:report.written]), done(report.status, report.fault, report.place)
		}
		room = int(report.needed)
	}
}

// found returns the bytes of an image that a call located.
func found(image []byte, payload *C.uimg_payload) ([]byte, error) {
	if err := done(payload.status, payload.fault, payload.place); err != nil {
		return nil, err
	}
	return image[payload.start : payload.start+payload.size], nil
}

func done(status, fault C.uint32_t, place C.uint64_t) error {
	switch {
	case status == C.UIMG_DONE:
		return nil
	case status == C.UIMG_BAD_KEYS:
		return ErrBadKeys
	case status == C.UIMG_NO_MEMORY:
		return ErrNoMemory
	case fault == 0:
		return ErrNotRight
	}
	return Fault{byte(fault >> 8), uint8(fault), uint64(place)}
}

// text returns a text of at most 64 bytes, which a call writes.
func text(call func(to *C.uint8_t, size C.size_t) C.size_t) string {
	line := make([]byte, 64)
	return string(line[:call(pointer(line), C.size_t(len(line)))])
}
