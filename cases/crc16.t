crc16-ccitt in hash nodes
=========================

mkimage 2023.01 has it beside the algorithms of the profile, and so has uimg by the old names. The values are mkimage's.

  $ export SOURCE_DATE_EPOCH=1700000000
  $ for name in mkimage dumpimage; do ln -s "$(command -v uimg)" $name; done
  $ PATH=$PWD:$PATH
  $ cp "$TESTDIR/../examples/kernel.its" .
  $ sed 's/"md5"/"crc16-ccitt"/' kernel.its > crc16.its
  $ sums() { mkimage "$@" | grep -A1 'algo:    crc'; }
  $ printf 123456789 > abc.bin && sums -f crc16.its image.itb
    Hash algo:    crc32
    Hash value:   cbf43926
    Hash algo:    crc16-ccitt
    Hash value:   31c3
  $ sums -l image.itb | tail -1
    Hash value:   31c3
  $ dumpimage -l image.itb | grep -A1 crc16
    Hash algo:    crc16-ccitt
    Hash value:   31c3
  $ dumpimage -T flat_dt -p 0 -o part image.itb > part.txt && cmp part abc.bin

Payloads of one byte, of 64 KiB and one byte, and of none:

  $ printf x > abc.bin && sums -f crc16.its one.itb | tail -1
    Hash value:   ff9f
  $ head -c 65537 /dev/zero | tr '\0' U > abc.bin && sums -f crc16.its long.itb | tail -1
    Hash value:   4e24
  $ : > abc.bin && sums -f crc16.its none.itb | tail -1
    Hash value:   0000

Payloads after the blob, a source in the whole language of dtc, and one from standard input:

  $ printf x > abc.bin && sums -E -f crc16.its after.itb | tail -1
    Hash value:   ff9f
  $ sed 's/entry = <0x80000>/entry = <(0x8 << 16)>/' crc16.its > whole.its && mkimage -q -f whole.its whole.itb && cmp whole.itb one.itb
  $ mkimage -q -f - from-input.itb < crc16.its && cmp from-input.itb one.itb

-F sets the value:

  $ printf y > abc.bin && mkimage -q -f crc16.its wanted.itb && cp one.itb image.itb
  $ printf y | dd of=image.itb bs=1 seek=168 conv=notrunc status=none
  $ sums -F image.itb | tail -1
    Hash value:   efbe
  $ cmp image.itb wanted.itb

A check and an unpacking compare it. It is weaker than each algorithm that may be needed:

  $ printf x > abc.bin && sed '/"crc32"\|"sha1"\|"sha256"/d' crc16.its > alone.its && mkimage -q -f alone.its alone.itb
  $ uimg check one.itb alone.itb
  one.itb: ok 1 payload, 4 hashes
  alone.itb: ok 1 payload, 1 hash
  $ uimg check --need crc32 one.itb alone.itb
  one.itb: ok 1 payload, 4 hashes
  alone.itb: weak kernel
  [1]
  $ uimg check --strict alone.itb
  alone.itb: weak kernel
  [1]
  $ mkdir out && uimg unpack -C out alone.itb && cmp out/kernel abc.bin
  kernel: 1 byte, crc16-ccitt ff9f
  $ uimg unpack --json -C out --force alone.itb | grep -o '"algo".*'
  "algo":"crc16-ccitt","digest":"ff9f"}
  $ printf y | dd of=alone.itb bs=1 seek=168 conv=notrunc status=none
  $ uimg check alone.itb
  alone.itb: bad kernel hash-2
  [1]
  $ rm out/kernel && uimg unpack -C out alone.itb
  kernel: bad hash-2
  [1]
  $ ls out

The profile has no such algorithm. A report says so, and a source is refused, as one with any unknown algorithm is by
each name:

  $ uimg verify one.itb
  kernel hash-1 crc32 ok
  kernel hash-2 crc16-ccitt unsupported
  kernel hash-3 sha1 ok
  kernel hash-4 sha256 ok
  [1]
  $ uimg mkimage -f crc16.its out.itb
  uimg: F5 unknown algorithm
  [1]
  $ sed 's/"sha1"/"sha3"/' crc16.its > sha3.its && sed 's/"sha1"/"sha3"/' kernel.its > plain.its
  $ mkimage -f sha3.its out.itb
  mkimage: sha3.its: F5 unknown algorithm
  [1]
  $ mkimage -f plain.its out.itb
  mkimage: plain.its: F5 unknown algorithm
  [1]
  $ cp one.itb out.itb && mkimage -q -f sha3.its out.itb
  mkimage: sha3.its: F5 unknown algorithm
  [1]
  $ cmp out.itb one.itb && ls | grep uimg-new
  [1]
