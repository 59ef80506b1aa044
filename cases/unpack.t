Payloads of an image, written to a folder
=========================================

Of a FIT image
--------------

  $ files="$TESTDIR/files"

`fit IMAGES` makes a FIT image k.itb with these images, and `patch FILE TEXT NEW` replaces bytes by others, where they
occur first:

  $ fit() {
  >     echo "/dts-v1/; / { description = \"d\"; images { $1 }; };" > k.its
  >     SOURCE_DATE_EPOCH=0 uimg mkimage -f k.its k.itb > /dev/null
  > }
  $ patch() {
  >     printf '%s' "$3" | dd of="$1" bs=1 seek="$(grep -abo "$2" "$1" | head -n 1 | cut -d: -f1)" conv=notrunc status=none
  > }

Each payload becomes a file; its line has its size and what vouches for it: the strongest algorithm of its image's hashes, and
the digest (of `abc`: FIPS 180-2, B.1):

  $ fit 'kernel { data = [61 62 63]; hash-1 { algo = "crc32"; }; hash-2 { algo = "sha256"; }; }; ramdisk { data = [64 65 66 67]; };'
  $ mkdir out && uimg unpack -C out k.itb
  kernel: 3 bytes, sha256 ba7816bf8f01cfea414140de5dae2223b00361a396177a9cb410ff61f20015ad
  ramdisk: 4 bytes, unhashed
  $ ls -A out && cat out/kernel out/ramdisk && echo
  kernel
  ramdisk
  abcdefg

Nothing is written if one of the files exists:

  $ rm out/kernel && echo old > out/ramdisk && uimg unpack -C out k.itb
  uimg: out/ramdisk exists; use --force to replace it
  [3]
  $ ls -A out && cat out/ramdisk
  ramdisk
  old
  $ uimg unpack --force -C out k.itb > lines && cut -c1-20 lines && cat out/ramdisk && echo
  kernel: 3 bytes, sha
  ramdisk: 4 bytes, un
  defg
  $ ln -s nowhere link && rm out/ramdisk && mv link out/ramdisk && uimg unpack --only ramdisk -C out k.itb
  uimg: out/ramdisk exists; use --force to replace it
  [3]
  $ uimg unpack --only ramdisk --force -C out k.itb && test ! -L out/ramdisk && test ! -e out/nowhere && cat out/ramdisk && echo
  ramdisk: 4 bytes, unhashed
  defg

A single one, and one that does not exist:

  $ rm -r out && mkdir out && uimg unpack --only ramdisk -C out k.itb && ls -A out
  ramdisk: 4 bytes, unhashed
  ramdisk
  $ uimg unpack --only fdt -C out k.itb
  uimg: F4 no such image
  [1]
  $ uimg unpack --only "$(printf %0300d 0)" -C out k.itb
  uimg: F4 no such image
  [1]

The images that a configuration names, in any of nine properties, each once. `conf NODES` makes a FIT image c.itb with four
images and these configurations. `default` is the default one (U-Boot's fit_conf_get_node), unless one has that name itself:

  $ conf() {
  >     echo "/dts-v1/; / { description = \"d\"; images { kernel { data = [61]; }; fdt-1 { data = [62]; }; fdt-2 { data = [63]; };
  >         initrd { data = [64]; }; }; configurations { $1 }; };" > c.its
  >     SOURCE_DATE_EPOCH=0 uimg mkimage -f c.its c.itb > /dev/null
  > }
  $ conf 'default = "two"; one { loadables = "initrd", "fdt-1"; kernel = "kernel"; fdt = "fdt-1", "fdt-1"; }; two { script = "fdt-2"; };'
  $ rm -r out && mkdir out && uimg unpack --config one -C out c.itb && cat out/* && echo
  kernel: 1 byte, unhashed
  fdt-1: 1 byte, unhashed
  initrd: 1 byte, unhashed
  bda
  $ rm out/* && uimg unpack --config default -C out c.itb && ls out
  fdt-2: 1 byte, unhashed
  fdt-2
  $ conf 'default = "two"; two { kernel = "kernel"; }; default { kernel = "initrd"; };' && uimg unpack --config default -C out c.itb
  initrd: 1 byte, unhashed
  $ rm out/*

Without the configuration, or an image that it names, nothing is written; a name is no prefix of another:

  $ conf 'default = "three"; one { kernel = "kernel"; fdt = "fdt-1", "fdt"; }; empty { description = "e"; };'
  $ uimg unpack --config tw -C out c.itb
  uimg: c.itb: missing configuration tw
  [1]
  $ uimg unpack --config default -C out c.itb
  uimg: c.itb: missing default three
  [1]
  $ uimg unpack --config one -C out c.itb
  uimg: c.itb: missing one fdt fdt
  [1]
  $ uimg unpack --config one --json -C out c.itb
  {"path":"c.itb","status":1,"verdict":"missing","format":"fit","configuration":"one","property":"fdt","name":"fdt"}
  [1]
  $ uimg unpack --config empty -C out c.itb
  uimg: F4 no such image
  [1]
  $ conf 'one { kernel = "kernel"; };' && uimg unpack --config default -C out c.itb
  uimg: c.itb: missing configuration default
  [1]
  $ uimg unpack --config one -C out "$files/abc-kernel.img"
  uimg: */files/abc-kernel.img: refused a legacy image has no configuration (glob)
  [1]
  $ uimg unpack --config one --only kernel -C out c.itb
  uimg: --only with --config
  [2]
  $ ls -A out

If the hash of one payload is not right, nothing is written, with --force too. --keep-good writes the others, and with
--force it removes an existing file of that name:

  $ rm -r out && mkdir out && fit 'a { data = [61 62 63]; hash-1 { algo = "crc32"; }; hash-2 { algo = "sha1"; }; }; b { data = [78 79 7a]; hash { algo = "md5"; }; };'
  $ cp k.itb changed.itb && patch changed.itb abc abd && uimg unpack -C out changed.itb
  a: bad hash-1
  [1]
  $ ls -A out && cp k.itb last.itb && patch last.itb xyz xyy && uimg unpack -C out last.itb
  b: bad hash
  [1]
  $ ls -A out && echo old > out/a && echo older > out/b && uimg unpack --force -C out last.itb
  b: bad hash
  [1]
  $ ls -A out && cat out/a out/b && rm out/*
  a
  b
  old
  older
  $ uimg unpack --keep-good -C out changed.itb
  a: bad hash-1
  b: 3 bytes, md5 d16fb36f0911f878998c136191af705e
  [1]
  $ ls -A out && cat out/b && echo
  b
  xyz
  $ echo old > out/a && uimg unpack --keep-good --force -C out changed.itb > /dev/null
  [1]
  $ ls -A out
  b

A hash node with something missing is reported as by verify:

  $ rm -r out && mkdir out && cp "$files/sha3-node.itb" . && uimg unpack -C out sha3-node.itb
  b: unsupported hash-1
  [1]
  $ fit 'a { data = [61 62 63]; hash-1 { algo = "crc32"; }; };' && cp k.itb m.itb && patch m.itb crc32 sha16 && uimg verify m.itb
  a hash-1 sha16 unsupported
  [1]
  $ rm -r out && mkdir out && uimg unpack -C out m.itb
  a: unsupported hash-1
  [1]
  $ ls -A out

A needed strength:

  $ rm -r out && mkdir out && fit 'a { data = [61 62 63]; hash-1 { algo = "sha1"; }; }; b { data = [61 62 63]; hash-1 { algo = "sha512"; }; }; c { data = [61 62 63]; };'
  $ uimg unpack --need sha256 -C out k.itb
  a: weak
  c: weak
  [1]
  $ ls -A out && uimg unpack --keep-good --need sha256 -C out k.itb > lines
  [1]
  $ cut -c1-27 lines
  a: weak
  b: 3 bytes, sha512 ddaf35a1
  c: weak
  $ ls -A out
  b
  $ uimg unpack --need-hash sha3 -C out k.itb
  uimg: --need: unknown algorithm 'sha3'; use crc32, md5, sha1, sha256, sha384 or sha512
  [2]
  $ fit '' && uimg unpack -C out k.itb && uimg unpack --need-hash crc32 -C out k.itb
  uimg: no image has a hash, as there is none
  [1]

Names that are no file names, and repeated names, also in another case:

  $ rm -r out && mkdir out && fit 'a,b { data = [31]; }; c { data = [32]; }; C { data = [33]; }; image-2 { data = [34]; };'
  $ uimg unpack -C out k.itb
  a\x2cb: 1 byte as image-0, unhashed
  c: 1 byte, unhashed
  C: 1 byte as image-2, unhashed
  image-2: 1 byte as image-3, unhashed
  $ for name in image-0 c image-2 image-3; do cat out/$name; done && echo && ls -A out | wc -l
  1234
  4
  $ uimg unpack --force -C out k.itb | grep -c ' as '
  3
  $ rm out/c out/image-0 out/image-2 && uimg unpack -C out k.itb
  uimg: out/image-3 exists; use --force to replace it
  [3]
  $ ls -A out
  image-3
  $ cp k.itb hostile.itb && patch hostile.itb a,b ../ && rm -r out && mkdir out && uimg unpack -C out hostile.itb > lines && head -n 1 lines
  ../: 1 byte as image-0, unhashed
  $ ls -A out
  c
  image-0
  image-2
  image-3
  $ cp k.itb hostile.itb && patch hostile.itb a,b .ab && rm -r out && mkdir out && uimg unpack -C out hostile.itb > lines && head -n 1 lines
  .ab: 1 byte as image-0, unhashed
  $ cp k.itb hostile.itb && patch hostile.itb a,b -ab && rm -r out && mkdir out && uimg unpack -C out hostile.itb > lines && head -n 1 lines
  -ab: 1 byte as image-0, unhashed
  $ fit 'a { data = [61 62 63]; hash-1 { algo = "crc32"; }; }; A { data = [64]; };' && patch k.itb abc abd && rm -r out && mkdir out && uimg unpack --keep-good -C out k.itb
  a: bad hash-1
  A: 1 byte as image-1, unhashed
  [1]
  $ name=$(printf %0255d 7) && fit "$name { data = [61]; };" && rm -r out && mkdir out && uimg unpack -C out k.itb > lines && cat out/$name && echo
  a
  $ uimg unpack --only $name -C out k.itb
  uimg: out/*7 exists; use --force to replace it (glob)
  [3]

A name makes no line of its own, and no line of another:

  $ fit 'abcde { data = [61]; };' && patch k.itb abcde 'a: 3,' && rm -r out && mkdir out && uimg unpack -C out k.itb
  a\x3a\x203\x2c: 1 byte as image-0, unhashed

Refusals come before anything is written:

  $ rm -r out && mkdir out && for name in no-data no-images; do cp "$files/$name.itb" .; done
  $ uimg unpack -C out no-data.itb
  uimg: F2 no data
  [1]
  $ uimg unpack -C out no-images.itb
  uimg: F1 no images
  [1]
  $ head -c 100 /dev/zero > neither && uimg unpack -C out neither
  uimg: L2 bad magic
  [1]
  $ ls -A out
  $ fit 'abcde { data = [61]; };' && uimg unpack -C none k.itb
  uimg: cannot create none/abcde: No such file or directory (os error 2)
  [3]
  $ uimg unpack --help | grep -c 'Write the files to this folder, which must exist$'
  1
  $ uimg unpack -C k.its k.itb
  uimg: cannot create k.its/abcde: Not a directory (os error 20)
  [3]
  $ uimg unpack --max-files many k.itb
  uimg: --max-files: 'many' is not a decimal number below 2^64
  [2]
  $ uimg unpack -C '' k.itb
  uimg: -C: no folder
  [2]
  $ mkfifo pipe && uimg unpack pipe
  uimg: cannot read pipe: it is a pipe
  [3]
  $ uimg unpack out
  uimg: cannot read out: Is a directory (os error 21)
  [3]
  $ uimg unpack none.itb
  uimg: cannot read none.itb: No such file or directory (os error 2)
  [3]
  $ uimg unpack
  uimg: no image
  [2]

Payloads that have more bytes together than the file overlap, and none is written. Two images with the same 4000 bytes after
the tree (4000 is the size of the first, the offset of the second, which becomes that of the first, and its size):

  $ head -c 4000 /dev/zero > zeros
  $ fit 'a { data = /incbin/("zeros"); hash-1 { algo = "crc32"; }; }; b { data = /incbin/("zeros"); hash-1 { algo = "crc32"; }; };'
  $ SOURCE_DATE_EPOCH=0 uimg mkimage -f k.its -E k.itb > /dev/null
  $ uimg unpack -C out k.itb
  a: 4000 bytes, crc32 3a8b93be
  b: 4000 bytes, crc32 3a8b93be
  $ python3 - <<'END'
  > import re
  > image = open("k.itb", "rb").read()
  > _, at, _ = [it.start() for it in re.finditer(rb"\0\0\x0f\xa0", image)]
  > open("shared.itb", "wb").write(image[:at] + bytes(4) + image[at + 4:-4000])
  > END
  $ rm -r out && mkdir out && uimg unpack -C out shared.itb
  b: overlapping
  [1]
  $ ls -A out
  $ uimg unpack --only b -C out shared.itb
  b: 4000 bytes, crc32 3a8b93be

The image is not overwritten, under any name, nor is a folder:

  $ rm -r out && mkdir out && fit 'k.itb { data = [61 62 63]; };' && cp k.itb before.itb && uimg unpack --force k.itb
  uimg: ./k.itb would be written while it is read
  [2]
  $ cmp k.itb before.itb
  $ fit 'c { data = [61]; hash-1 { algo = "crc32"; }; }; c { data = [62]; hash-1 { algo = "crc32"; }; };' && cp k.itb out/image-1 && uimg unpack --force -C out out/image-1
  uimg: out/image-1 would be written while it is read
  [2]
  $ cmp k.itb out/image-1 && ls -A out
  image-1
  $ rm out/image-1 && mkdir out/c && uimg unpack --force -C out k.itb
  uimg: out/c is a folder, which is never replaced
  [3]

Nobody reads the lines, and there is no space for them:

  $ rm -r out && mkdir out && fit 'a { data = [61 62 63]; };' && (sleep 0.1; uimg unpack -C out k.itb; echo $? > status) | true; sleep 0.5; cat status
  3
  $ rm -f out/a && uimg unpack -C out k.itb > /dev/full
  uimg: cannot write standard output: No space left on device (os error 28)
  [3]
  $ ls -A out
  a

A folder that cannot be read cannot be synced either: that is an error, and what files were to replace is there again:

  $ as_user() { if test "$(id -u)" = 0; then setpriv --bounding-set=-dac_override,-dac_read_search "$@"; else "$@"; fi; }
  $ mkdir blind && echo old > blind/a && chmod 300 blind && as_user uimg unpack --force -C blind k.itb
  uimg: cannot sync blind: Permission denied (os error 13)
  [3]
  $ cp "$files/abc-kernel.img" . && as_user uimg unpack -C blind abc-kernel.img
  uimg: cannot sync blind: Permission denied (os error 13)
  [3]
  $ cat blind/a && as_user uimg unpack --no-sync --force -C blind k.itb && cat blind/a && echo
  old
  a: 3 bytes, unhashed
  abc
  $ chmod 700 blind && ls -A blind
  a

Nor does a file get its name that cannot be synced: where the call fails, as it does under `fail-sync`, unless nothing is to
be synced:

  $ cat > fail-sync <<'END'
  > #!/usr/bin/env python3
  > import ctypes, os, struct, sys
  > # a seccomp filter: fsync (74) and fdatasync (75) answer EIO
  > rules = [(0x20, 0, 0, 0), (0x15, 2, 0, 74), (0x15, 1, 0, 75), (0x06, 0, 0, 0x7FFF0000), (0x06, 0, 0, 0x00050005)]
  > code = ctypes.create_string_buffer(b"".join(struct.pack("HBBI", *rule) for rule in rules))
  > class Program(ctypes.Structure):
  >     _fields_ = [("length", ctypes.c_ushort), ("code", ctypes.c_void_p)]
  > libc = ctypes.CDLL(None)
  > assert not libc.prctl(38, 1, 0, 0, 0)
  > assert not libc.prctl(22, 2, ctypes.byref(Program(len(rules), ctypes.addressof(code))))
  > os.execvp(sys.argv[1], sys.argv[1:])
  > END
  $ chmod +x fail-sync && rm -r out && mkdir out && ./fail-sync uimg unpack -C out k.itb
  uimg: cannot write out/a: Input/output error (os error 5)
  [3]
  $ ./fail-sync uimg unpack -C out abc-kernel.img
  uimg: cannot write out/image-0: Input/output error (os error 5)
  [3]
  $ ls -A out && ./fail-sync uimg unpack --no-sync -C out k.itb
  a: 3 bytes, unhashed

As JSON objects: of kept payloads, with the digest of FIPS 180-2, of refused ones, of images that are refused, and of folders
and files:

  $ fit 'kernel { data = [61 62 63]; hash-1 { algo = "crc32"; }; hash-2 { algo = "sha256"; }; }; abcde { data = [64]; };'
  $ patch k.itb abcde "$(printf 'a\n\302\205\177')" && rm -r out && mkdir out && uimg unpack --json -C out k.itb && ls -A out
  {"path":"k.itb","status":0,"verdict":"ok","format":"fit","image":"kernel","file":"kernel","size":3,"algo":"sha256","digest":"ba7816bf8f01cfea414140de5dae2223b00361a396177a9cb410ff61f20015ad"}
  {"path":"k.itb","status":0,"verdict":"unhashed","format":"fit","image":"a\n\u0085\u007f","file":"image-1","size":1}
  image-1
  kernel
  $ uimg unpack --json -C out k.itb
  {"path":"k.itb","status":3,"verdict":"failed","message":"out/kernel exists; use --force to replace it"}
  [3]
  $ uimg unpack --json -C none k.itb
  {"path":"k.itb","status":3,"verdict":"failed","message":"cannot create none/kernel: No such file or directory (os error 2)"}
  [3]
  $ rm out/* && patch k.itb abc abd && uimg unpack --json -C out k.itb
  {"path":"k.itb","status":1,"verdict":"bad","format":"fit","image":"kernel","hash":"hash-1"}
  [1]
  $ uimg unpack --json --keep-good -C out k.itb
  {"path":"k.itb","status":1,"verdict":"bad","format":"fit","image":"kernel","hash":"hash-1"}
  {"path":"k.itb","status":0,"verdict":"unhashed","format":"fit","image":"a\n\u0085\u007f","file":"image-1","size":1}
  [1]
  $ uimg unpack --json --need sha512 --only kernel -C out k.itb
  {"path":"k.itb","status":1,"verdict":"bad","format":"fit","image":"kernel","hash":"hash-1"}
  [1]
  $ patch k.itb abd abc && uimg unpack --json --need sha512 --only kernel -C out k.itb
  {"path":"k.itb","status":1,"verdict":"weak","format":"fit","image":"kernel"}
  [1]
  $ uimg unpack --json --only gone -C out k.itb
  {"path":"k.itb","status":1,"verdict":"refused","format":"fit","fault":"F4","message":"F4 no such image"}
  [1]
  $ uimg unpack --json --max-files 1 -C out k.itb
  {"path":"k.itb","status":1,"verdict":"refused","message":"more than 1 files; --max-files allows more"}
  [1]
  $ rm out/* && head -c 50 k.itb > cut.itb && uimg unpack --json -C out cut.itb
  {"path":"cut.itb","status":1,"verdict":"refused","format":"fit","fault":"B4","message":"B4 block outside at 4","offset":4}
  [1]
  $ uimg check --json cut.itb
  {"path":"cut.itb","status":1,"verdict":"refused","format":"fit","fault":"B4","message":"B4 block outside at 4","offset":4}
  [1]
  $ fit '' && uimg unpack --json --need crc32 -C out k.itb
  {"path":"k.itb","status":1,"verdict":"empty","format":"fit"}
  [1]
  $ uimg unpack --json none.itb
  {"path":"none.itb","status":3,"verdict":"failed","message":"cannot read: No such file or directory (os error 2)"}
  [3]
  $ uimg unpack --json -C out abc-kernel.img && uimg unpack --json --need md5 -C out abc-kernel.img
  {"path":"abc-kernel.img","status":0,"verdict":"ok","format":"legacy","file":"image-0","size":3,"data-crc":891568578}
  {"path":"abc-kernel.img","status":1,"verdict":"weak","format":"legacy","algo":"crc32"}
  [1]
  $ rm out/* && uimg unpack --json -C out abc-kernel.img > /dev/full
  uimg: cannot write standard output: No space left on device (os error 28)
  [3]
  $ uimg unpack --json --clean -C out
  uimg: --clean with --json
  [2]
  $ fit 'k.itb { data = [61 62 63]; };' && uimg unpack --json --force k.itb
  uimg: ./k.itb would be written while it is read
  [2]

Of a legacy image
-----------------

Its parts, or its data if it has no parts, with the checksum of the data (0x352441c2, of `abc`):

  $ rm -r out && mkdir out && cp "$files/abc-kernel.img" "$files/three-part-multi.img" "$files/no-table-end.img" "$files/part-outside.img" .
  $ uimg unpack -C out abc-kernel.img && ls -A out && cat out/image-0 && echo
  image-0: 3 bytes, data crc32 352441c2
  image-0
  abc
  $ rm out/* && uimg unpack -C out three-part-multi.img
  image-0: 3 bytes, data crc32 9350b6ea
  image-1: 4 bytes, data crc32 9350b6ea
  image-2: 5 bytes, data crc32 9350b6ea
  $ ls -A out && for part in 0 1 2; do cat out/image-$part && echo; done
  image-0
  image-1
  image-2
  abc
  defg
  hijkl
  $ printf 'echo hi\n' > boot.cmd && uimg mkimage -A arm -T script -C none -d boot.cmd boot.scr > listing && rm out/* && uimg unpack -C out boot.scr > lines && cut -c1-28 lines && cat out/image-0
  image-0: 8 bytes, data crc32
  echo hi
  $ printf '' > empty && SOURCE_DATE_EPOCH=0 uimg mkimage -A arm -T kernel -C none -d empty empty.img > listing && rm out/* && uimg unpack -C out empty.img && wc -c < out/image-0
  image-0: 0 bytes, data crc32 00000000
  0

dumpimage extracts the same at each position:

  $ rm out/* && uimg unpack -C out three-part-multi.img > lines && for part in 0 1 2; do uimg dumpimage -p $part -o part three-part-multi.img && cmp part out/image-$part; done

A single one, and one that does not exist:

  $ rm out/* && uimg unpack --only image-1 -C out three-part-multi.img && ls -A out && cat out/image-1 && echo
  image-1: 4 bytes, data crc32 9350b6ea
  image-1
  defg
  $ for name in image-3 image-01 image- image-4294967296 image--1 image-+1 kernel 1; do uimg unpack --only $name -C out three-part-multi.img; done
  uimg: L8 no such part
  uimg: L8 no such part
  uimg: L8 no such part
  uimg: L8 no such part
  uimg: L8 no such part
  uimg: L8 no such part
  uimg: L8 no such part
  uimg: L8 no such part
  [1]
  $ ls -A out
  image-1

A needed strength:

  $ rm out/* && uimg unpack --need sha256 -C out three-part-multi.img
  three-part-multi.img: weak crc32
  [1]
  $ ls -A out && uimg unpack --need-hash crc32 -C out abc-kernel.img
  image-0: 3 bytes, data crc32 352441c2
  $ uimg unpack --need-hash sha256 neither
  uimg: L2 bad magic
  [1]

Nothing is written if one of the files exists:

  $ rm out/* && echo old > out/image-2 && uimg unpack -C out three-part-multi.img
  uimg: out/image-2 exists; use --force to replace it
  [3]
  $ ls -A out && cat out/image-2
  image-2
  old
  $ uimg unpack --force -C out three-part-multi.img > lines && cat out/image-2 && echo
  hijkl
  $ rm out/* && mkdir out/image-1 && uimg unpack --force -C out three-part-multi.img
  uimg: out/image-1 is a folder, which is never replaced
  [3]
  $ ls -A out
  image-1

Nor is the image overwritten:

  $ rm -r out && mkdir out && cp three-part-multi.img out/image-1 && uimg unpack --force -C out out/image-1
  uimg: out/image-1 would be written while it is read
  [2]
  $ cmp three-part-multi.img out/image-1 && ls -A out
  image-1

Changed data are not written, and with --force nothing is replaced; so for each byte of them: of the table, of a part and of
the padding between parts:

  $ rm out/* && cp three-part-multi.img changed.img && patch changed.img defg defh && uimg unpack -C out changed.img
  uimg: L5 bad data CRC
  [1]
  $ ls -A out && echo old > out/image-1 && echo old > out/image-3 && uimg unpack --force -C out changed.img
  uimg: L5 bad data CRC
  [1]
  $ uimg unpack --keep-good --force -C out changed.img
  uimg: L5 bad data CRC
  [1]
  $ ls -A out && cat out/* && rm out/*
  image-1
  image-3
  old
  old
  $ for place in $(seq 64 92); do cp three-part-multi.img changed.img; printf x | dd of=changed.img bs=1 seek=$place conv=notrunc status=none; uimg unpack -C out changed.img; done 2>&1 | sort | uniq -c | tr -s ' '
   13 uimg: L5 bad data CRC
   4 uimg: L6 no table end
   12 uimg: L7 part outside
  $ ls -A out

Refusals of the header and of the table, and a cut image, leave no file either:

  $ for name in no-table-end part-outside; do uimg unpack -C out $name.img; done
  uimg: L6 no table end
  uimg: L7 part outside
  [1]
  $ cp three-part-multi.img changed.img && printf x | dd of=changed.img bs=1 seek=40 conv=notrunc status=none && uimg unpack -C out changed.img
  uimg: L3 bad header CRC
  [1]
  $ head -c 92 three-part-multi.img > cut.img && uimg unpack -C out cut.img
  uimg: L4 truncated
  [1]
  $ head -c 63 three-part-multi.img > cut.img && uimg unpack -C out cut.img
  uimg: L1 too short
  [1]
  $ ls -A out
  $ uimg unpack -C none three-part-multi.img
  uimg: cannot create none/image-0: No such file or directory (os error 2)
  [3]

Bytes after the data belong to no part:

  $ cat three-part-multi.img boot.cmd > longer.img && uimg unpack --only image-2 -C out longer.img && cat out/image-2 && echo
  image-2: 5 bytes, data crc32 9350b6ea
  hijkl

Existing files with the temporary names are left alone, and a hundred of them stop nobody:

  $ rm out/* && mkdir out/.uimg-new1 && echo old > out/.uimg-new2 && uimg unpack -C out abc-kernel.img && ls -A out | LC_ALL=C sort
  image-0: 3 bytes, data crc32 352441c2
  .uimg-new1
  .uimg-new2
  image-0
  $ rm -r out && mkdir out && for number in $(seq 100); do echo > out/.uimg-new$number; done && uimg unpack -C out abc-kernel.img
  image-0: 3 bytes, data crc32 352441c2
  $ fit 'a { data = [61 62 63]; };' && uimg unpack -C out k.itb && ls -A out | wc -l
  a: 3 bytes, unhashed
  102

--clean removes them, folders too and links themselves, and no other file:

  $ rm -r out && mkdir out && mkdir out/.uimg-new1 && echo old | tee out/.uimg-new1/0 out/.uimg-new2 out/.uimg-newer out/kept > out/.uimg-new100
  $ ln -s kept out/.uimg-new3 && ln -s none out/.uimg-new5 && ln -s . out/.uimg-new6
  $ uimg unpack --clean -C out
  .uimg-new1: removed
  .uimg-new2: removed
  .uimg-new3: removed
  .uimg-new5: removed
  .uimg-new6: removed
  .uimg-new100: removed
  $ ls -A out && uimg unpack --clean -C out && touch out/.uimg-new7 && uimg unpack --clean -C out abc-kernel.img && cat out/kept
  .uimg-newer
  kept
  .uimg-new7: removed
  image-0: 3 bytes, data crc32 352441c2
  old

It never removes the image:

  $ rm -r out && mkdir -p out/.uimg-new3 && cp abc-kernel.img out/.uimg-new2 && cp abc-kernel.img out/.uimg-new3/image && touch out/.uimg-new1
  $ uimg unpack --clean -C out out/.uimg-new2
  .uimg-new1: removed
  uimg: out/.uimg-new2 would be removed while it is read
  [2]
  $ mv out/.uimg-new2 out/image && uimg unpack --clean -C out out/.uimg-new3/image
  uimg: out/.uimg-new3 would be removed while it is read
  [2]
  $ cmp abc-kernel.img out/image && cmp abc-kernel.img out/.uimg-new3/image

At most 4096 files, or as many as are allowed, and as many bytes as are allowed; of an image with more nothing is unpacked:

  $ fit 'a { data = [61 62 63]; }; b { data = [64 65]; }; c { data = []; };' && rm -r out && mkdir out
  $ uimg unpack --max-files 2 -C out k.itb
  uimg: more than 2 files; --max-files allows more
  [1]
  $ uimg unpack --max-bytes 4 -C out k.itb
  uimg: more than 4 bytes; --max-bytes allows more
  [1]
  $ ls -A out && uimg unpack --max-files 1 --max-bytes 2 --only b -C out k.itb
  b: 2 bytes, unhashed
  $ rm out/* && uimg unpack --max-files 3 --max-bytes 5 -C out k.itb
  a: 3 bytes, unhashed
  b: 2 bytes, unhashed
  c: 0 bytes, unhashed
  $ rm out/* && uimg unpack --max-files 2 -C out three-part-multi.img
  uimg: more than 2 files; --max-files allows more
  [1]
  $ uimg unpack --max-bytes 11 -C out three-part-multi.img
  uimg: more than 11 bytes; --max-bytes allows more
  [1]
  $ uimg unpack --max-bytes 1 -C out part-outside.img
  uimg: L7 part outside
  [1]
  $ uimg unpack --max-bytes 1000 -C out part-outside.img
  uimg: L7 part outside
  [1]
  $ uimg unpack --max-bytes 1 --only image-1 -C out abc-kernel.img
  uimg: L8 no such part
  [1]
  $ uimg unpack --max-bytes 2 -C out abc-kernel.img
  uimg: more than 2 bytes; --max-bytes allows more
  [1]
  $ ls -A out && uimg unpack --max-files 3 --max-bytes 12 -C out three-part-multi.img > lines && uimg unpack --force --max-bytes 4 --only image-1 -C out three-part-multi.img
  image-1: 4 bytes, data crc32 9350b6ea
  $ uimg unpack --max-bytes 18446744073709551615 --max-files 0 -C out k.itb
  uimg: more than 0 files; --max-files allows more
  [1]
  $ for number in 18446744073709551616 +1 -1 0x1 '' ' 1'; do uimg unpack --max-bytes="$number" -C out k.itb; done
  uimg: --max-bytes: '18446744073709551616' is not a decimal number below 2^64
  uimg: --max-bytes: '+1' is not a decimal number below 2^64
  uimg: --max-bytes: '-1' is not a decimal number below 2^64
  uimg: --max-bytes: '0x1' is not a decimal number below 2^64
  uimg: --max-bytes: '' is not a decimal number below 2^64
  uimg: --max-bytes: ' 1' is not a decimal number below 2^64
  [2]
  $ rm out/* && python3 - <<'END'
  > import struct, zlib
  > for count in 4096, 4097:
  >     data = struct.pack(">I", 1) * count + bytes(4) + bytes(4) * count
  >     fields = [0x27051956, 0, 0, len(data), 0, 0, zlib.crc32(data)]
  >     rest = bytes([5, 2, 4, 0]) + bytes(32)
  >     fields[1] = zlib.crc32(struct.pack(">7I", *fields) + rest)
  >     open("%d.img" % count, "wb").write(struct.pack(">7I", *fields) + rest + data)
  > END
  $ uimg unpack -C out 4097.img
  uimg: more than 4096 files; --max-files allows more
  [1]
  $ ls -A out && uimg unpack --no-sync -C out 4096.img | tail -n 1 | cut -c 1-18
  image-4095: 1 byte

The bytes are counted without memory for the parts: a table of 5 million parts of 1 byte, in a file of 40 MB, which the
program with at most 64 MiB of memory refuses by their number:

  $ python3 - <<'END'
  > import struct, zlib
  > count = 5000000
  > data = struct.pack(">I", 1) * count + bytes(4) + bytes(4) * count
  > fields, rest = [0x27051956, 0, 0, len(data), 0, 0, zlib.crc32(data)], bytes([5, 2, 4, 0]) + bytes(32)
  > fields[1] = zlib.crc32(struct.pack(">7I", *fields) + rest)
  > open("millions.img", "wb").write(struct.pack(">7I", *fields) + rest + data)
  > END
  $ rm out/* && (ulimit -v 65536; uimg unpack --max-bytes 5000000 -C out millions.img)
  uimg: more than 4096 files; --max-files allows more
  [1]
  $ (ulimit -v 65536; uimg unpack --max-bytes 4999999 -C out millions.img)
  uimg: more than 4999999 bytes; --max-bytes allows more
  [1]
  $ ls -A out && rm millions.img

An image whose name cannot be a file's, where all the numbers for it are names of others:

  $ rm -r out && mkdir out && fit "$(for number in $(seq 100 199); do echo "image-$number { data = [61]; };"; done) a,b { data = [62]; };"
  $ uimg unpack -C out k.itb
  uimg: no name for a file
  [1]
  $ ls -A out

A failed write leaves no file, and a line that nobody reads leaves no folder:

  $ rm -r out && mkdir out && head -c 3000000 /dev/zero > zeros && uimg mkimage -A arm -T kernel -C none -d zeros large.img > listing
  $ (ulimit -f 1000; trap '' XFSZ; uimg unpack -C out large.img)
  uimg: cannot write out/image-0: File too large (os error 27)
  [3]
  $ ls -A out
  $ (sleep 0.1; uimg unpack -C out abc-kernel.img; echo $? > status) | true; sleep 0.5; cat status
  3
  $ ls -A out && rm out/* && uimg unpack -C out abc-kernel.img > /dev/full
  image-0
  uimg: cannot write standard output: No space left on device (os error 28)
  [3]
  $ ls -A out
  image-0

More sizes than fit into the window, read again a window at a time:

  $ rm -r out && mkdir out && python3 - <<'END'
  > import struct, zlib
  > parts = [bytes([65 + number % 26]) * (1 + number % 3) for number in range(3000)]
  > data = b"".join(struct.pack(">I", len(part)) for part in parts) + bytes(4) + b"".join(part + bytes(-len(part) % 4) for part in parts)
  > head = struct.pack(">7I4B32s", 0x27051956, 0, 0, len(data), 0, 0, zlib.crc32(data), 5, 7, 4, 0, b"many")
  > head = head[:4] + struct.pack(">I", zlib.crc32(head)) + head[8:]
  > open("many.img", "wb").write(head + data)
  > END
  $ uimg unpack --no-sync -C out many.img | tail -n 1 | cut -c1-29 && ls -A out | wc -l && cat out/image-2999 && echo
  image-2999: 3 bytes, data crc
  3000
  JJJ

Nothing is written for an image without the one that is asked for, or without any, so no folder is needed:

  $ cp "$TESTDIR/../examples/kernel.itb" k.itb && uimg unpack --only none -C nowhere k.itb
  uimg: F4 no such image
  [1]
  $ echo '/dts-v1/; / { description = "d"; images { }; };' > e.its && uimg mkimage -f e.its e.itb > e.txt && uimg unpack -C nowhere e.itb

Below a folder whose name is not UTF-8 nothing tells whether a file is the image, so it is not removed:

  $ folder=$(printf 'nu\377') && mkdir "$folder" "$folder/.uimg-new1" && cp k.itb "$folder/.uimg-new1/new-0"
  $ (cd "$folder" && uimg unpack --clean .uimg-new1/new-0)
  uimg: ./.uimg-new1 would be removed while it is read
  [2]
  $ cmp k.itb "$folder/.uimg-new1/new-0"
