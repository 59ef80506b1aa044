Making of legacy images
=======================

  $ files="$TESTDIR/files"
  $ printf abc > abc.bin
  $ : > empty
  $ SOURCE_DATE_EPOCH=0
  $ export SOURCE_DATE_EPOCH

abc-kernel:

  $ name=0123456789012345678901234567890123456789
  $ SOURCE_DATE_EPOCH=1700000000 uimg mkimage -A arm64 -O linux -T kernel -C none -a 80000 -n $name -d abc.bin u.img
  Image Name:   01234567890123456789012345678901
  Created:      Tue Nov 14 22:13:20 2023
  Image Type:   AArch64 Linux Kernel Image (uncompressed)
  Data Size:    3 Bytes = 0.00 KiB = 0.00 MiB
  Load Address: 00080000
  Entry Point:  00080000
  $ cmp u.img "$files/abc-kernel.img"
  $ od -An -v -tx1 u.img
   27 05 19 56 f9 f1 41 de 65 53 f1 00 00 00 00 03
   00 08 00 00 00 08 00 00 35 24 41 c2 05 16 02 00
   30 31 32 33 34 35 36 37 38 39 30 31 32 33 34 35
   36 37 38 39 30 31 32 33 34 35 36 37 38 39 30 31
   61 62 63
  $ uimg mkimage -l u.img
  Image Name:   01234567890123456789012345678901
  Created:      Tue Nov 14 22:13:20 2023
  Image Type:   AArch64 Linux Kernel Image (uncompressed)
  Data Size:    3 Bytes = 0.00 KiB = 0.00 MiB
  Load Address: 00080000
  Entry Point:  00080000
  $ uimg verify u.img
  header crc32 ok
  data crc32 ok

three-part-multi:

  $ printf abc > a
  $ printf defg > b
  $ printf hijkl > c
  $ uimg mkimage -T multi -d a:b:c m.img
  Image Name:   
  Created:      Thu Jan  1 00:00:00 1970
  Image Type:   PowerPC Linux Multi-File Image (gzip compressed)
  Data Size:    29 Bytes = 0.03 KiB = 0.00 MiB
  Load Address: 00000000
  Entry Point:  00000000
  Contents:
     Image 0: 3 Bytes = 0.00 KiB = 0.00 MiB
     Image 1: 4 Bytes = 0.00 KiB = 0.00 MiB
     Image 2: 5 Bytes = 0.00 KiB = 0.00 MiB
  $ cmp m.img "$files/three-part-multi.img"
  $ tail -c 29 m.img | od -An -v -tx1
   00 00 00 03 00 00 00 04 00 00 00 05 00 00 00 00
   61 62 63 00 64 65 66 67 68 69 6a 6b 6c
  $ for part in 0 1 2; do uimg dumpimage -p $part -o part m.img; cat part; echo; done
  abc
  defg
  hijkl
  $ uimg dumpimage -p 3 -o part m.img
  uimg: L8 no such part
  [1]

A script has a line for each part too:

  $ uimg mkimage -T script -d a s.img
  Image Name:   
  Created:      Thu Jan  1 00:00:00 1970
  Image Type:   PowerPC Linux Script (gzip compressed)
  Data Size:    11 Bytes = 0.01 KiB = 0.00 MiB
  Load Address: 00000000
  Entry Point:  00000000
  Contents:
     Image 0: 3 Bytes = 0.00 KiB = 0.00 MiB
  $ tail -c 11 s.img | od -An -v -tx1
   00 00 00 03 00 00 00 00 61 62 63

empty-parts: an empty part of a script is refused before the outfile is created, an empty single file is not.

  $ uimg mkimage -T script -d empty e.img
  uimg: L9 empty part
  [1]
  $ uimg mkimage -T multi -d a:empty:c e.img
  uimg: L9 empty part
  [1]
  $ test -e e.img
  [1]
  $ uimg mkimage -d empty k.img
  Image Name:   
  Created:      Thu Jan  1 00:00:00 1970
  Image Type:   PowerPC Linux Kernel Image (gzip compressed)
  Data Size:    0 Bytes = 0.00 KiB = 0.00 MiB
  Load Address: 00000000
  Entry Point:  00000000
  $ wc -c < k.img
  64
  $ od -An -v -tx1 -j 24 -N 4 k.img
   00 00 00 00

too-large-parts: a file of 4294967296 bytes, and two parts whose table and bytes are as long. No byte of them
is read, and no outfile is created:

  $ truncate -s 4294967296 large
  $ uimg mkimage -d large l.img
  uimg: L10 too large
  [1]
  $ truncate -s 4294967280 large
  $ printf abcd > four
  $ uimg mkimage -T multi -d four:large l.img
  uimg: L10 too large
  [1]
  $ test -e l.img
  [1]
  $ rm large

Many long files, of about a window's length and of several windows, are made into an image, verified and unpacked:

  $ seq 1 10000 | head -c 40000 > numbers
  $ for length in 8191 8192 8193 1 20000 40000; do head -c $length numbers > n$length; done
  $ uimg mkimage -T multi -d n8191:n8192:n8193:n1:n20000:n40000 many.img | tail -n 6
     Image 0: 8191 Bytes = 8.00 KiB = 0.01 MiB
     Image 1: 8192 Bytes = 8.00 KiB = 0.01 MiB
     Image 2: 8193 Bytes = 8.00 KiB = 0.01 MiB
     Image 3: 1 Bytes = 0.00 KiB = 0.00 MiB
     Image 4: 20000 Bytes = 19.53 KiB = 0.02 MiB
     Image 5: 40000 Bytes = 39.06 KiB = 0.04 MiB
  $ uimg verify many.img
  header crc32 ok
  data crc32 ok
  $ part=0
  $ for length in 8191 8192 8193 1 20000 40000; do
  >     uimg dumpimage -p $part -o out many.img && cmp out n$length
  >     part=$((part + 1))
  > done

Defaults: without options the header has ppc, linux, kernel, gzip, addresses of 0 and no name.

  $ SOURCE_DATE_EPOCH=7 uimg mkimage -d abc.bin d.img > /dev/null
  $ od -An -v -tx1 -j 8 d.img
   00 00 00 07 00 00 00 03 00 00 00 00 00 00 00 00
   35 24 41 c2 05 07 02 01 00 00 00 00 00 00 00 00
   00 00 00 00 00 00 00 00 00 00 00 00 00 00 00 00
   00 00 00 00 00 00 00 00 61 62 63

Codes by name:

  $ uimg mkimage -A riscv -O u-boot -T firmware -C lzma -n 'a name' -d abc.bin c.img
  Image Name:   a name
  Created:      Thu Jan  1 00:00:00 1970
  Image Type:   RISC-V U-Boot Firmware (lzma compressed)
  Data Size:    3 Bytes = 0.00 KiB = 0.00 MiB
  Load Address: 00000000
  Entry Point:  00000000
  $ od -An -v -tx1 -j 28 -N 12 c.img
   11 1a 05 03 61 20 6e 61 6d 65 00 00

A name keeps its blanks, at both ends too:

  $ uimg mkimage -n '  a  name ' -d abc.bin n.img | head -n 1
  Image Name:     a  name 
  $ od -An -v -tx1 -j 32 -N 11 n.img
   20 20 61 20 20 6e 61 6d 65 20 00

Names that begin with a dash follow their option directly, or after a `=`:

  $ for option in -n-x -n=-x -n-- -n==x; do
  >     uimg mkimage $option -d abc.bin n.img | head -n 1
  >     od -An -v -tx1 -j 32 -N 3 n.img
  > done
  Image Name:   -x
   2d 78 00
  Image Name:   -x
   2d 78 00
  Image Name:   --
   2d 2d 00
  Image Name:   =x
   3d 78 00

Addresses: the entry point is the load address unless it is given.

  $ address() { uimg mkimage "$@" -d abc.bin a.img > /dev/null; od -An -v -tx1 -j 16 -N 8 a.img; }
  $ address -a 0x12345678
   12 34 56 78 12 34 56 78
  $ address -a 80000 -e 0x80040
   00 08 00 00 00 08 00 40
  $ address -e aB
   00 00 00 00 00 00 00 ab
  $ address -e 0 -a ffffffff
   ff ff ff ff 00 00 00 00
  $ address -a 0x0000000001
   00 00 00 01 00 00 00 01
  $ address -a 0
   00 00 00 00 00 00 00 00
  $ address -a aBcDeF
   00 ab cd ef 00 ab cd ef
  $ address -a 0x00000000ffffffff
   ff ff ff ff ff ff ff ff

Times: SOURCE_DATE_EPOCH in decimal digits.

  $ for epoch in 0 007 4294967295; do
  >     SOURCE_DATE_EPOCH=$epoch uimg mkimage -d abc.bin t.img | sed -n 2p
  >     od -An -v -tx1 -j 8 -N 4 t.img
  > done
  Created:      Thu Jan  1 00:00:00 1970
   00 00 00 00
  Created:      Thu Jan  1 00:00:07 1970
   00 00 00 07
  Created:      Sun Feb  7 06:28:15 2106
   ff ff ff ff

If it is not set the clock gives the time, in UTC:

  $ (
  >     unset SOURCE_DATE_EPOCH
  >     before=$(date +%s)
  >     uimg mkimage -d abc.bin t.img > /dev/null
  >     after=$(date +%s)
  >     time=$((0x$(od -An -v -tx1 -j 8 -N 4 t.img | tr -d ' ')))
  >     test $before -le $time && test $time -le $after && echo between
  >     uimg dumpimage -l t.img | grep -c "$(LC_ALL=C date -u -d @$time '+^Created:      %a %b %e %H:%M:%S %Y$')"
  > )
  between
  1

Options without effect: the placement of a FIT's data has none with -d, and its number is not checked.

  $ uimg mkimage -d abc.bin plain.img > /dev/null
  $ uimg mkimage -E -p x -d abc.bin same.img > /dev/null
  $ cmp plain.img same.img

Names with colons: the word of -d is cut only for multi and script.

  $ printf abc > colon:a
  $ printf x > colon
  $ printf y > a
  $ for type in kernel ramdisk multi script; do
  >     uimg mkimage -T $type -d colon:a colon.img > /dev/null && wc -c < colon.img
  > done
  67
  67
  81
  81

An existing outfile is replaced, and its bytes beyond the image are gone:

  $ head -c 100 numbers > old.img
  $ uimg mkimage -d abc.bin old.img > /dev/null
  $ cmp old.img plain.img
  $ wc -c < old.img
  67

The same files, options and time give the same bytes:

  $ uimg mkimage -d abc.bin again.img > /dev/null
  $ cmp again.img plain.img

An image, and its file, whose names begin with a dash:

  $ cp abc.bin ./-x
  $ uimg mkimage -d-x -- -y > /dev/null && cmp ./-y plain.img
  $ uimg verify ./-y
  header crc32 ok
  data crc32 ok
  $ uimg verify -- -y
  header crc32 ok
  data crc32 ok
