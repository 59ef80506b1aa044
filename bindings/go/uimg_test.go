package uimg

import (
	"errors"
	"os"
	"strings"
	"testing"
)

var none = Fault{'F', 4, 0}

func example(t *testing.T, name string) []byte {
	image, err := os.ReadFile("../../examples/" + name)
	if err != nil {
		t.Fatal(err)
	}
	return image
}

// changed returns kernel.itb with one byte of its payload changed.
func changed(t *testing.T) []byte {
	image := example(t, "kernel.itb")
	image[168] = 'X'
	return image
}

// require fails if two values differ.
func require(t *testing.T, found, wanted any) {
	t.Helper()
	if found != wanted {
		t.Errorf("found %v, wanted %v", found, wanted)
	}
}

func TestTexts(t *testing.T) {
	listing, err := List(example(t, "kernel.itb"))
	require(t, err, nil)
	require(t, strings.HasPrefix(listing, "FIT description: demo\n"), true)
	report, err := Verify(example(t, "kernel.itb"))
	require(t, err, nil)
	require(t, strings.HasSuffix(report, "kernel hash-4 sha256 ok\n"), true)
	report, err = Verify(changed(t))
	require(t, err, ErrNotRight)
	require(t, strings.HasPrefix(report, "kernel hash-1 crc32 bad\n"), true)
}

func TestChecks(t *testing.T) {
	image, legacy := example(t, "kernel.itb"), example(t, "abc-kernel.img")
	for _, check := range []func([]byte, Need) error{Check, CheckStrict} {
		require(t, check(image, SHA256), nil)
		require(t, check(image, SHA512), ErrNotRight)
		require(t, check(changed(t), CRC32), ErrNotRight)
		require(t, check(legacy, CRC32), nil)
		require(t, check(legacy, MD5), ErrNotRight)
	}
}

// other is a public key of 2048 bits, by OpenSSL 3.0, which has signed nothing here.
const other = `-----BEGIN PUBLIC KEY-----
MIIBIjANBgkqhkiG9w0BAQEFAAOCAQ8AMIIBCgKCAQEAxFKhn/DXFaEXihRGcgrr
1K0rfarUvKg8vtVPUYG9JqqgPc4AKRxIyumfQfcAG7EKrtyQl4AdOmvFLK5nrKKh
KLO924XwezCR4gm4hwOOhPK1kDpfyA1rDhlzvvdG/VOE84fqcqJatE0j2soyv6HO
DtNjz21DKsQ/5tkMgZGLypNcGfnvmMV3uCsIqhKr0USk07Y5xf+F4TRMRONNaAPw
ymMZzqfR83fDP0tOEOE8IdpFXQkXiYe1TbK8IQg3sdMOZlGi+b6mi6npObjyDIk+
dBVjBO9B51V9jNb1px8GSweM4MtFvrRViFNBctMFUVbmq3CGGihqGEKcg/OBZ6tP
/QIDAQAB
-----END PUBLIC KEY-----
`

func TestSignatures(t *testing.T) {
	image, keys := example(t, "signed.itb"), example(t, "dev.pem")
	legacy := example(t, "abc-kernel.img")
	unsigned, bad := Fault{'S', 17, 0}, Fault{'S', 24, 0}
	require(t, CheckSigned(image, keys, "", SHA256), nil)
	require(t, CheckSigned(image, keys, "", SHA512), ErrNotRight)
	require(t, CheckSigned(image, []byte(other), "", SHA256), bad)
	require(t, CheckSigned(image, keys[1:], "", SHA256), ErrBadKeys)
	require(t, CheckSigned(image, nil, "", SHA256), ErrBadKeys)
	require(t, CheckSigned(example(t, "kernel.itb"), keys, "", SHA256), unsigned)
	require(t, CheckSigned(legacy, keys, "", CRC32), unsigned)
	require(t, CheckSigned(legacy, nil, "", CRC32), ErrBadKeys)
	require(t, CheckSigned(image, keys, "conf", SHA256), nil)
	require(t, CheckSigned(image, []byte(other), "conf", SHA256), bad)
	require(t, CheckSigned(image, keys, "con", SHA256), unsigned)
	require(t, CheckSigned(changed(t), keys, "", CRC32), ErrNotRight)
}

func TestPayloads(t *testing.T) {
	image, three := example(t, "kernel.itb"), example(t, "three-part.img")
	count, err := PayloadCount(image)
	require(t, count, 1)
	require(t, err, nil)
	name, err := PayloadName(image, 0)
	require(t, name, "kernel")
	require(t, err, nil)
	payload, err := PayloadAt(image, 0)
	require(t, string(payload), "abc")
	require(t, &payload[0], &image[168])
	require(t, err, nil)
	payload, err = PayloadNamed(image, "kernel")
	require(t, string(payload), "abc")
	require(t, err, nil)
	payload, err = PayloadAt(three, 1)
	require(t, string(payload), "defg")
	require(t, err, nil)
	count, err = PayloadCount(three)
	require(t, count, 3)
	require(t, err, nil)
	_, err = PayloadAt(image, 1)
	require(t, err, none)
	_, err = PayloadNamed(image, "kerne")
	require(t, err, none)
	_, err = PayloadNamed(image, "")
	require(t, err, none)
}

func TestFaults(t *testing.T) {
	_, err := PayloadCount(nil)
	require(t, err, Fault{'L', 1, 0})
	require(t, err.Error(), "L1 too short")
	_, err = PayloadNamed(example(t, "abc-kernel.img"), "kernel")
	var fault Fault
	require(t, errors.As(err, &fault), true)
	require(t, fault, Fault{'B', 2, 0})
	require(t, err.Error(), "B2 bad magic at 0")
	require(t, Fault{'S', 3, 0}.Error(), "S3 unit-address")
}

func TestVersion(t *testing.T) {
	require(t, strings.Count(Version(), "."), 2)
}
