Checks of many images, a line for each
======================================

  $ files="$TESTDIR/files"

`cell FILE AT BYTE..` sets bytes of a file at an offset:

  $ cell() {
  >     to=$1 at=$2; shift 2
  >     printf "$(printf '\\%03o' "$@")" | dd of=$to bs=1 seek=$at conv=notrunc status=none
  > }

`fit IMAGES` makes a FIT image k.itb with these images:

  $ fit() {
  >     echo "/dts-v1/; / { description = \"d\"; images { $1 }; };" > k.its
  >     SOURCE_DATE_EPOCH=0 uimg mkimage -f k.its k.itb > /dev/null
  > }

Legacy images have two checksums:

  $ cp "$files/abc-kernel.img" kernel.img
  $ cp "$files/three-part-multi.img" parts.img && uimg check kernel.img parts.img
  kernel.img: ok 2 checksums
  parts.img: ok 2 checksums
  $ cp kernel.img name.img && printf 1 | dd of=name.img bs=1 seek=32 conv=notrunc status=none
  $ cp kernel.img data.img && printf b | dd of=data.img bs=1 seek=64 conv=notrunc status=none
  $ head -c 63 kernel.img > short.img
  $ cp "$files/size-too-large.img" cut.img
  $ uimg check name.img data.img short.img cut.img kernel.img
  name.img: refused L3 bad header CRC
  data.img: bad checksum
  short.img: refused L1 too short
  cut.img: refused L4 truncated
  kernel.img: ok 2 checksums
  [1]

A table of parts has to fit the data, which are read after it:

  $ cp "$files/part-outside.img" "$files/no-table-end.img" . && cp part-outside.img both.img
  $ printf b | dd of=both.img bs=1 seek=76 conv=notrunc status=none
  $ uimg check part-outside.img no-table-end.img both.img
  part-outside.img: refused L7 part outside
  no-table-end.img: refused L6 no table end
  both.img: refused L7 part outside
  [1]

The line of a FIT image reports its first hash that is not right:

  $ for name in four-hash-fit one-bad-hash sha3-node no-data no-images; do cp "$files/$name.itb" .; done
  $ uimg check four-hash-fit.itb one-bad-hash.itb sha3-node.itb no-data.itb no-images.itb
  four-hash-fit.itb: ok 1 payload, 4 hashes
  one-bad-hash.itb: bad a hash
  sha3-node.itb: unsupported b hash-1
  no-data.itb: refused F2 no data
  no-images.itb: refused F1 no images
  [1]

Words and counts:

  $ fit 'a { data = "abc"; hash-1 { algo = "crc32"; }; }; b { data = "de"; hash { algo = "sha1"; }; hash-2 { algo = "md5"; }; };'
  $ uimg check k.itb
  k.itb: ok 2 payloads, 3 hashes
  $ fit 'a { data = "abc"; hash-1 { algo = "crc32"; }; };'
  $ uimg check k.itb
  k.itb: ok 1 payload, 1 hash
  $ fit ''
  $ uimg check k.itb
  k.itb: ok 0 payloads, 0 hashes
  $ uimg check --need crc32 k.itb
  k.itb: empty
  [1]

An image without a hash node is reported, and is not wrong unless an algorithm is needed:

  $ fit 'a { data = "abc"; hash-1 { algo = "sha256"; }; }; b { data = "de"; }; c { data = "f"; };'
  $ uimg check k.itb
  k.itb: unhashed b
  $ uimg check --need crc32 k.itb
  k.itb: weak b
  [1]

The longest name of an image, of 255 bytes, is told whole:

  $ fit "$(printf 'a%.0s' $(seq 255)) { data = \"abc\"; hash-1 { algo = \"crc32\"; }; };"
  $ uimg check --need sha256 k.itb | wc -c
  268

The needed algorithm, or a stronger one, is enough:

  $ fit 'a { data = "abc"; hash-1 { algo = "crc32"; }; hash-2 { algo = "sha256"; }; }; b { data = "de"; hash-1 { algo = "sha512"; }; };'
  $ for algo in crc32 md5 sha1 sha256 sha384 sha512; do uimg check --need $algo k.itb kernel.img; done
  k.itb: ok 2 payloads, 3 hashes
  kernel.img: ok 2 checksums
  k.itb: ok 2 payloads, 3 hashes
  kernel.img: weak crc32
  k.itb: ok 2 payloads, 3 hashes
  kernel.img: weak crc32
  k.itb: ok 2 payloads, 3 hashes
  kernel.img: weak crc32
  k.itb: weak a
  kernel.img: weak crc32
  k.itb: weak a
  kernel.img: weak crc32
  [1]

In one image a wrong hash comes before a weak one, and the first image before the others:

  $ fit 'a { data = "abc"; hash-1 { algo = "crc32"; }; }; b { data = "defg"; hash-1 { algo = "sha256"; }; };'
  $ at=$(grep -abo defg k.itb | cut -d: -f 1) && cell k.itb $at 68
  $ uimg check k.itb
  k.itb: bad b hash-1
  [1]
  $ uimg check --need sha256 k.itb
  k.itb: weak a
  [1]

Payloads that overlap are not hashed for more bytes than the file has. Two images with the same 4000 bytes after the tree:

  $ head -c 4000 /dev/zero > zeros
  $ fit 'a { data = /incbin/("zeros"); hash-1 { algo = "crc32"; }; }; b { data = /incbin/("zeros"); hash-1 { algo = "crc32"; }; };'
  $ uimg mkimage -f k.its -E k.itb > /dev/null && uimg check k.itb
  k.itb: ok 2 payloads, 2 hashes
  $ python3 - <<'END'
  > import re
  > image = open("k.itb", "rb").read()
  > # (4000 is the size of the first, the offset of the second, which becomes that of the first, and its size)
  > _, at, _ = [it.start() for it in re.finditer(rb"\0\0\x0f\xa0", image)]
  > open("shared.itb", "wb").write(image[:at] + bytes(4) + image[at + 4:-4000])
  > END
  $ uimg verify shared.itb
  a hash-1 crc32 ok
  b hash-1 crc32 ok
  $ uimg check shared.itb
  shared.itb: overlapping b
  [1]

A name does not end its line, and hides nothing in it:

  $ fit 'kernel { data = "abcd"; hash-2 { algo = "crc32"; }; };'
  $ at=$(grep -abo abcd k.itb | cut -d: -f 1) && cell k.itb $at 65
  $ python3 - <<'END'
  > image = bytearray(open("k.itb", "rb").read())
  > at = image.index(b"kernel\0")
  > image[at:at + 6] = b"o\nk\\\x7f\x1b"
  > open("name.itb", "wb").write(image)
  > image[at:at + 6] = "k\u00e4\u0085n".encode()
  > open("text.itb", "wb").write(image)
  > image[at:at + 6] = b"k\xe4\xff\xfen\t"
  > open("bytes.itb", "wb").write(image)
  > END
  $ uimg check name.itb
  name.itb: bad o\x0ak\x5c\x7f\x1b hash-2
  [1]
  $ fit 'aaaaaaaaaaaaaaaaaaaaaaa { data = "abcd"; hash-2 { algo = "crc32"; }; };' && cell k.itb $(grep -abo abcd k.itb | cut -d: -f 1) 65
  $ python3 -c 'image = open("k.itb", "rb").read(); open("spoof.itb", "wb").write(image.replace(b"a" * 23, b"k: ok 1 payload, 1 hash"))'
  $ uimg check spoof.itb
  spoof.itb: bad k\x3a\x20ok\x201\x20payload\x2c\x201\x20hash hash-2
  [1]
  $ uimg check text.itb
  text.itb: bad k\xc3\xa4\\xc2\\x85n hash-2 (esc)
  [1]
  $ uimg check bytes.itb
  bytes.itb: bad k\xe4\xff\xfen\x09 hash-2
  [1]
  $ cp kernel.img "$(printf 'a\342\200\250b\342\200\256c')" && uimg check "$(printf 'a\342\200\250b\342\200\256c')"
  a\xe2\x80\xa8b\xe2\x80\xaec: ok 2 checksums
  $ cp kernel.img "$(printf 'a: ok\nb')" && uimg check "$(printf 'a: ok\nb')"
  a: ok\x0ab: ok 2 checksums

A file that cannot be read does not stop the check of the others; the status is the greatest:

  $ mkdir folder && mkfifo pipe && cp kernel.img "last one.img"
  $ uimg check none.img data.img folder pipe "last one.img" ''
  none.img: failed cannot read: No such file or directory (os error 2)
  data.img: bad checksum
  folder: failed cannot read: Is a directory (os error 21)
  pipe: failed cannot read: it is a pipe
  last one.img: ok 2 checksums
  : failed cannot read: No such file or directory (os error 2)
  [3]

Paths from a file, a line each, after those of the command line; empty lines are ignored:

  $ printf 'data.img\n\nlast one.img' > names
  $ uimg check --files-from names kernel.img
  kernel.img: ok 2 checksums
  data.img: bad checksum
  last one.img: ok 2 checksums
  [1]
  $ printf 'last one.img\0kernel.img\0' | uimg check -0 --files-from -
  last one.img: ok 2 checksums
  kernel.img: ok 2 checksums
  $ printf 'k\344\nkernel.img\n' | uimg check --files-from -
  k\xe4: failed cannot read: the path is not UTF-8
  kernel.img: ok 2 checksums
  [3]

A list without a path is wrong, as one whose maker failed, unless it is allowed:

  $ uimg check --files-from /dev/null
  uimg: no image
  [2]
  $ printf '\n\n' | uimg check --files-from -
  uimg: no image
  [2]
  $ uimg check --allow-empty --files-from /dev/null
  $ uimg check --files-from /dev/null kernel.img
  kernel.img: ok 2 checksums

--quiet prints what is not ok:

  $ uimg check --quiet kernel.img data.img 'last one.img'
  data.img: bad checksum
  [1]
  $ uimg check --quiet --json kernel.img && uimg check --quiet --files-from names
  data.img: bad checksum
  [1]

A file of paths that cannot be read:

  $ uimg check kernel.img --files-from none
  kernel.img: ok 2 checksums
  uimg: cannot read none: No such file or directory (os error 2)
  [3]
  $ uimg check --files-from folder
  uimg: cannot read folder: Is a directory (os error 21)
  [3]

Paths of at most 65536 bytes are read, far more than the system's have, so that no file takes all the memory:

  $ { echo kernel.img; head -c 65536 /dev/zero | tr '\0' x; echo; echo kernel.img; } > long
  $ uimg check --files-from long | awk '{ sub(/^x+:/, length($1) - 1 ":"); print }'
  kernel.img: ok 2 checksums
  65536: failed cannot read: File name too long (os error 36)
  kernel.img: ok 2 checksums
  $ { head -c 65537 /dev/zero | tr '\0' x; echo; echo kernel.img; } | uimg check --files-from -
  uimg: cannot read -: a path in it has more than 65536 bytes
  [3]
  $ { echo kernel.img; head -c 20000000 /dev/zero | tr '\0' x; echo; echo kernel.img; } > long
  $ (ulimit -v 61440; uimg check --files-from long)
  kernel.img: ok 2 checksums
  uimg: cannot read long: a path in it has more than 65536 bytes
  [3]

Lines that cannot be written, and that nobody reads:

  $ uimg check kernel.img > /dev/full
  uimg: cannot write standard output: No space left on device (os error 28)
  [3]
  $ (sleep 0.5; uimg check kernel.img 2> said; echo "status $?" >> said) | true
  $ cat said
  status 3

Wrong command lines:

  $ uimg check
  uimg: no image
  [2]
  $ uimg check --need sha2 kernel.img
  uimg: --need: unknown algorithm 'sha2'; use crc32, md5, sha1, sha256, sha384 or sha512
  [2]
  $ uimg check -0 kernel.img
  kernel.img: ok 2 checksums

With --strict an image needs a hash, and the names in configurations need a node: the default first, then each configuration's
kernel, ramdisk, fdt, loadables, firmware, fpga, setup, standalone and script:

  $ fit2() {
  >     images='kernel { data = "k"; hash-1 { algo = "crc32"; }; }; board { data = "f"; hash-1 { algo = "sha1"; }; };'
  >     echo "/dts-v1/; / { description = \"d\"; images { $images }; configurations { $1 }; };" > k.its
  >     SOURCE_DATE_EPOCH=0 uimg mkimage -f k.its k.itb > /dev/null
  > }
  $ fit2 'default = "c"; c { kernel = "kernel"; fdt = "board"; }; d { kernel = "kernel"; fdt = "board", "kernel"; loadables = "board"; };'
  $ uimg check --strict k.itb kernel.img
  k.itb: ok 2 payloads, 2 hashes
  kernel.img: ok 2 checksums
  $ uimg check --strict --need sha1 k.itb kernel.img
  k.itb: weak kernel
  kernel.img: weak crc32
  [1]
  $ missing() { fit2 "$1" && uimg check k.itb && uimg check --strict k.itb; uimg check --strict --json k.itb; }
  $ missing 'default = "d"; c { kernel = "gone"; };'
  k.itb: ok 2 payloads, 2 hashes
  k.itb: missing default d
  {"path":"k.itb","status":1,"verdict":"missing","format":"fit","property":"default","name":"d"}
  [1]
  $ missing 'c { kernel = "kernel"; }; d { kernel = "kerne"; ramdisk = "gone"; };'
  k.itb: ok 2 payloads, 2 hashes
  k.itb: missing d kernel kerne
  {"path":"k.itb","status":1,"verdict":"missing","format":"fit","configuration":"d","property":"kernel","name":"kerne"}
  [1]
  $ missing 'c { ramdisk = "kernel2"; fdt = "gone"; };' | head -n 2
  k.itb: ok 2 payloads, 2 hashes
  k.itb: missing c ramdisk kernel2
  $ missing 'c { fdt = "board", "over, lay"; loadables = "gone"; };' | head -n 2
  k.itb: ok 2 payloads, 2 hashes
  k.itb: missing c fdt over\x2c\x20lay
  $ missing 'c { loadables = "kernel", "", "board"; };'
  k.itb: ok 2 payloads, 2 hashes
  k.itb: missing c loadables 
  {"path":"k.itb","status":1,"verdict":"missing","format":"fit","configuration":"c","property":"loadables","name":""}
  [1]
  $ missing 'c { loadables = [ff 0a 00]; };'
  k.itb: ok 2 payloads, 2 hashes
  k.itb: missing c loadables \xff\x0a
  {"path":"k.itb","status":1,"verdict":"missing","format":"fit","configuration":"c","property":"loadables","name":"\xef\xbf\xbd\\n","name_base64":"/wo="} (esc)
  [1]

  $ fit2 'c { firmware = "kernel"; fpga = "board"; setup = "kernel"; standalone = "board", "kernel"; script = "kernel"; };'
  $ uimg check --strict k.itb
  k.itb: ok 2 payloads, 2 hashes
  $ for name in firmware fpga setup standalone script; do missing "c { $name = \"board\", \"gone\"; };" | sed -n 2,3p; done
  k.itb: missing c firmware gone
  {"path":"k.itb","status":1,"verdict":"missing","format":"fit","configuration":"c","property":"firmware","name":"gone"}
  k.itb: missing c fpga gone
  {"path":"k.itb","status":1,"verdict":"missing","format":"fit","configuration":"c","property":"fpga","name":"gone"}
  k.itb: missing c setup gone
  {"path":"k.itb","status":1,"verdict":"missing","format":"fit","configuration":"c","property":"setup","name":"gone"}
  k.itb: missing c standalone gone
  {"path":"k.itb","status":1,"verdict":"missing","format":"fit","configuration":"c","property":"standalone","name":"gone"}
  k.itb: missing c script gone
  {"path":"k.itb","status":1,"verdict":"missing","format":"fit","configuration":"c","property":"script","name":"gone"}

They are checked in this order, whatever their order in the image, and other properties are not checked:

  $ told() { missing "c { script = \"s\"; standalone = \"a\"; setup = \"e\"; fpga = \"p\"; firmware = \"f\"; loadables = $1; };" | sed -n 2p; }
  $ told '"l"'; told '"kernel"'
  k.itb: missing c loadables l
  k.itb: missing c firmware f
  $ told() { missing "c { script = \"s\"; standalone = $3; setup = $2; fpga = $1; firmware = \"kernel\"; };" | sed -n 2p; }
  $ told '"p"' '"e"' '"a"'; told '"board"' '"e"' '"a"'; told '"board"' '"board"' '"a"'; told '"board"' '"board"' '"board"'
  k.itb: missing c fpga p
  k.itb: missing c setup e
  k.itb: missing c standalone a
  k.itb: missing c script s
  $ fit2 'c { kernel = "kernel"; compatible = "gone"; uboot = "gone"; scripts = "gone"; firm = "gone"; };' && uimg check --strict k.itb
  k.itb: ok 2 payloads, 2 hashes

Hash nodes and signatures of configurations are not checked; --strict counts them if the image is right. Nodes below these
are not counted, nor are those of images:

  $ signature='signature-1 { algo = "sha256,rsa2048"; key-name-hint = "dev"; };'
  $ fit2 "c { kernel = \"kernel\"; hash-1 { algo = \"sha1\"; value = <1>; }; $signature }; d { fdt = \"board\"; };"
  $ uimg check k.itb && uimg check --strict k.itb kernel.img
  k.itb: ok 2 payloads, 2 hashes
  k.itb: ok 2 payloads, 2 hashes, 2 nodes of configurations unchecked
  kernel.img: ok 2 checksums
  $ fit2 "c { $signature }; d { $signature }; e { $signature hash { }; }; " && uimg check --strict k.itb
  k.itb: ok 2 payloads, 2 hashes, 4 nodes of configurations unchecked
  $ fit2 'c { kernel = "kernel"; signature { below { further { }; }; }; };' && uimg check --strict --need crc32 k.itb
  k.itb: ok 2 payloads, 2 hashes, 1 node of configurations unchecked
  $ fit2 "c { kernel = \"gone\"; $signature };" && uimg check --strict k.itb
  k.itb: missing c kernel gone
  [1]
  $ fit "a { data = \"abc\"; hash-1 { algo = \"crc32\"; }; $signature };" && uimg check --strict k.itb
  k.itb: ok 1 payload, 1 hash

An empty value, an empty name and a value that does not end with a NUL are missing; an image without a hash is weak, and a FIT
image without images is empty:

  $ fit2 'default = []; c { kernel = "kernel"; };' && uimg check k.itb && uimg check --strict k.itb
  k.itb: ok 2 payloads, 2 hashes
  k.itb: missing default 
  [1]
  $ fit2 'default = "c", ""; c { kernel = "kernel"; };' && uimg check --strict --json k.itb
  {"path":"k.itb","status":1,"verdict":"missing","format":"fit","property":"default","name":""}
  [1]
  $ fit2 'c { kernel = [6b 65 72 6e 65 6c]; };' && uimg check --strict k.itb
  k.itb: missing c kernel kernel
  [1]
  $ fit2 'c { fdt = "board", [6b]; };' && uimg check --strict --json k.itb
  {"path":"k.itb","status":1,"verdict":"missing","format":"fit","configuration":"c","property":"fdt","name":"k"}
  [1]
  $ fit 'a { data = "abc"; };' && uimg check k.itb && uimg check --strict k.itb
  k.itb: unhashed a
  k.itb: weak a
  [1]
  $ fit '' && uimg check --strict k.itb
  k.itb: empty
  [1]

With --strict U-Boot has to read the tree as the check does. It finds a node by its name up to a unit address, and the first of
two nodes or properties of a name, and compares no hash of a node with uboot-ignore:

  $ strict() { uimg check k.itb && uimg check --strict k.itb; }
  $ tree() {
  >     echo "/dts-v1/; / { $1 };" > k.its
  >     SOURCE_DATE_EPOCH=0 uimg mkimage -f k.its k.itb > /dev/null && strict
  > }
  $ hash='hash-1 { algo = "sha256"; };'
  $ fit "a@1 { data = \"abc\"; $hash };" && strict
  k.itb: ok 1 payload, 1 hash
  k.itb: unit-address a@1
  [1]
  $ tree "description = \"d\"; images@1 { a { data = \"evil\"; }; }; images { a { data = \"abc\"; $hash }; };"
  k.itb: ok 1 payload, 1 hash
  k.itb: unit-address images@1
  [1]
  $ fit 'a { data = "abc"; hash-1@ { algo = "sha256"; }; };' && strict
  k.itb: ok 1 payload, 1 hash
  k.itb: unit-address hash-1@
  [1]
  $ fit "a { data = \"abc\"; $hash }; b { data = \"d\"; $hash }; a { data = \"e\"; $hash };" && strict
  k.itb: ok 3 payloads, 3 hashes
  k.itb: doubled-node a
  [1]
  $ tree "description = \"d\"; images { a { data = \"abc\"; $hash }; }; images { b { data = \"e\"; }; };"
  k.itb: ok 1 payload, 1 hash
  k.itb: doubled-node images
  [1]
  $ fit "a { data = \"abc\"; os = \"linux\"; os = \"efi\"; $hash };" && strict
  k.itb: ok 1 payload, 1 hash
  k.itb: doubled-property a
  [1]
  $ tree "description = \"d\"; description = \"e\"; images { a { data = \"abc\"; $hash }; };"
  k.itb: ok 1 payload, 1 hash
  k.itb: doubled-property /
  [1]
  $ fit 'a { data = "abc"; hash-1 { algo = "sha256"; uboot-ignore = <1>; }; };' && strict
  k.itb: ok 1 payload, 1 hash
  k.itb: ignored-hash hash-1
  [1]
  $ uimg check --strict --json k.itb
  {"path":"k.itb","status":1,"verdict":"ignored-hash","format":"fit","node":"hash-1"}
  [1]

A root needs both its properties. mkimage adds the timestamp, so its name is changed:

  $ tree "images { a { data = \"abc\"; $hash }; };"
  k.itb: ok 1 payload, 1 hash
  k.itb: no-description
  [1]
  $ fit "a { data = \"abc\"; $hash };" && at=$(grep -abo timestamp k.itb | cut -d: -f 1) && cell k.itb $at 84 && strict
  k.itb: ok 1 payload, 1 hash
  k.itb: no-timestamp
  [1]
  $ uimg check --strict --json k.itb
  {"path":"k.itb","status":1,"verdict":"no-timestamp","format":"fit"}
  [1]

U-Boot reads the first four bytes of a cell, whatever its length, and takes `data` only where there is no offset. `payload WORDS`
has the payload of image a both ways; a cell of another length counts as missing in a check without --strict:

  $ payload() { fit "a { data = \"abc\"; unused = \"\"; $1 $hash };" && sed -e 's/DATA/data/g' < k.itb > l.itb && mv l.itb k.itb && strict; }
  $ payload 'DATA-size = <3 4>; DATA-offset = <0>;'
  k.itb: ok 1 payload, 1 hash
  k.itb: odd-cell a
  [1]
  $ payload 'DATA-size = <3>; DATA-offset = [00 00 00];'
  k.itb: ok 1 payload, 1 hash
  k.itb: odd-cell a
  [1]
  $ payload 'DATA-size = <3>; DATA-position = [];'
  k.itb: ok 1 payload, 1 hash
  k.itb: odd-cell a
  [1]
  $ payload 'DATA-size = <3>;'
  k.itb: ok 1 payload, 1 hash
  k.itb: half-place a
  [1]
  $ payload 'DATA-offset = <0>;'
  k.itb: ok 1 payload, 1 hash
  k.itb: half-place a
  [1]
  $ payload 'DATA-position = <0>; DATA-size = <3>;'
  k.itb: bad a hash-1
  [1]
  $ at=$(grep -abo abc k.itb | cut -d: -f 1) && payload "DATA-position = <$at>; DATA-size = <4>;"
  k.itb: ok 1 payload, 1 hash
  k.itb: two-payloads a
  [1]

Payloads after the tree come in the order of their images and share no bytes:

  $ fit "a { data = /incbin/(\"zeros\"); $hash }; b { data = /incbin/(\"zeros\"); $hash };"
  $ uimg mkimage -f k.its -E k.itb > /dev/null && strict
  k.itb: ok 2 payloads, 2 hashes
  k.itb: ok 2 payloads, 2 hashes
  $ python3 - <<'END'
  > import re, struct
  > image = bytearray(open("k.itb", "rb").read())
  > # (as above: 4000 is the size of the first, the offset of the second, which becomes 3999, and its size)
  > _, at, _ = [it.start() for it in re.finditer(rb"\0\0\x0f\xa0", image)]
  > image[at:at + 4] = struct.pack(">I", 3999)
  > open("k.itb", "wb").write(image)
  > END
  $ strict
  k.itb: ok 2 payloads, 2 hashes
  k.itb: misplaced b
  [1]

libfdt's fdt_check_full refuses a block that begins in the header, a reservation block without an end, and a root with a name:

  $ sound() { fit "a { data = \"abc\"; $hash };" && cell k.itb "$@" && strict; }
  $ sound 16 0 0 0 39
  k.itb: ok 1 payload, 1 hash
  k.itb: unsound-blob
  [1]
  $ sound 48 0 0 0 0 0 0 0 1
  k.itb: ok 1 payload, 1 hash
  k.itb: unsound-blob
  [1]
  $ sound 60 97
  k.itb: ok 1 payload, 1 hash
  k.itb: unsound-blob
  [1]

libfdt looks for the root at the start of the structure block alone, not behind FDT_NOP:

  $ fit "a { data = \"abc\"; $hash };" && python3 - <<'END' && strict
  > import struct
  > image = bytearray(open("k.itb", "rb").read())
  > fields = list(struct.unpack(">10I", image[:40]))
  > image[fields[2]:fields[2]] = b"\0\0\0\4"
  > # the sizes of the blob and of the structure block, and the offset of the strings behind it
  > for field in (1, 9, 3):
  >     fields[field] += 4
  > image[:40] = struct.pack(">10I", *fields)
  > open("k.itb", "wb").write(image)
  > END
  k.itb: ok 1 payload, 1 hash
  k.itb: unsound-blob
  [1]

A legacy image needs data, codes of image.h, and parts that end in the data. `header AT BYTE` changes a byte of a header:

  $ header() {
  >     cp kernel.img changed.img && cell changed.img "$@" && python3 - <<'END'
  > import struct, zlib
  > image = bytearray(open("changed.img", "rb").read())
  > image[24:28] = struct.pack(">I", zlib.crc32(image[64:64 + struct.unpack(">I", image[12:16])[0]]))
  > image[4:8] = bytes(4)
  > image[4:8] = struct.pack(">I", zlib.crc32(image[:64]))
  > open("changed.img", "wb").write(image)
  > END
  >     uimg check changed.img && uimg check --strict changed.img
  > }
  $ header 12 0 0 0 0
  changed.img: ok 2 checksums
  changed.img: empty-data
  [1]
  $ for at in 30 29 28 31; do header $at 99; done
  changed.img: ok 2 checksums
  changed.img: unknown-type
  changed.img: ok 2 checksums
  changed.img: unknown-architecture
  changed.img: ok 2 checksums
  changed.img: unknown-system
  changed.img: ok 2 checksums
  changed.img: unknown-compression
  [1]
  $ header 30 39
  changed.img: ok 2 checksums
  changed.img: ok 2 checksums
  $ uimg check --strict --json changed.img && header 31 99 > /dev/null; uimg check --strict --json changed.img
  {"path":"changed.img","status":0,"verdict":"ok","format":"legacy","checksums":2}
  {"path":"changed.img","status":1,"verdict":"unknown-compression","format":"legacy"}
  [1]
