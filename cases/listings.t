Listings of legacy images
=========================

  $ files="$TESTDIR/files"

abc-kernel, and with its type; if a listing is requested no other value is checked:

  $ uimg dumpimage -l "$files/abc-kernel.img"
  Image Name:   01234567890123456789012345678901
  Created:      Tue Nov 14 22:13:20 2023
  Image Type:   AArch64 Linux Kernel Image (uncompressed)
  Data Size:    3 Bytes = 0.00 KiB = 0.00 MiB
  Load Address: 00080000
  Entry Point:  00080000
  $ uimg dumpimage -l -T kernel "$files/abc-kernel.img"
  Image Name:   01234567890123456789012345678901
  Created:      Tue Nov 14 22:13:20 2023
  Image Type:   AArch64 Linux Kernel Image (uncompressed)
  Data Size:    3 Bytes = 0.00 KiB = 0.00 MiB
  Load Address: 00080000
  Entry Point:  00080000
  $ uimg dumpimage -l -p x -o no/outfile "$files/abc-kernel.img"
  Image Name:   01234567890123456789012345678901
  Created:      Tue Nov 14 22:13:20 2023
  Image Type:   AArch64 Linux Kernel Image (uncompressed)
  Data Size:    3 Bytes = 0.00 KiB = 0.00 MiB
  Load Address: 00080000
  Entry Point:  00080000
  $ uimg mkimage -l "$files/abc-kernel.img"
  Image Name:   01234567890123456789012345678901
  Created:      Tue Nov 14 22:13:20 2023
  Image Type:   AArch64 Linux Kernel Image (uncompressed)
  Data Size:    3 Bytes = 0.00 KiB = 0.00 MiB
  Load Address: 00080000
  Entry Point:  00080000

Any type but flat_dt requests a legacy image, whatever type the header has:

  $ uimg dumpimage -l -T script "$files/abc-kernel.img" | head -n 1
  Image Name:   01234567890123456789012345678901

three-part-multi; the first line ends with three blanks:

  $ uimg dumpimage -l "$files/three-part-multi.img"
  Image Name:   
  Created:      Thu Jan  1 00:00:00 1970
  Image Type:   PowerPC Linux Multi-File Image (gzip compressed)
  Data Size:    29 Bytes = 0.03 KiB = 0.00 MiB
  Load Address: 00000000
  Entry Point:  00000000
  Contents:
     Image 0: 3 Bytes = 0.00 KiB = 0.00 MiB
     Image 1: 4 Bytes = 0.00 KiB = 0.00 MiB
     Image 2: 5 Bytes = 0.00 KiB = 0.00 MiB

A listing goes to standard output alone:

  $ uimg dumpimage -l "$files/abc-kernel.img" > /dev/null

Bytes after the data are accepted:

  $ { cat "$files/abc-kernel.img"; echo more; } > longer.img
  $ uimg dumpimage -l longer.img
  Image Name:   01234567890123456789012345678901
  Created:      Tue Nov 14 22:13:20 2023
  Image Type:   AArch64 Linux Kernel Image (uncompressed)
  Data Size:    3 Bytes = 0.00 KiB = 0.00 MiB
  Load Address: 00080000
  Entry Point:  00080000

Refused images have no listing. The empty file, and short-file, which has 63 bytes:

  $ : > short.img
  $ uimg dumpimage -l short.img
  uimg: L1 too short
  [1]
  $ head -c 63 "$files/abc-kernel.img" > short.img
  $ uimg dumpimage -l short.img
  uimg: L1 too short
  [1]

64 zeros:

  $ head -c 64 /dev/zero > zeros.img
  $ uimg dumpimage -l zeros.img
  uimg: L2 bad magic
  [1]

changed-name:

  $ cp "$files/abc-kernel.img" changed.img
  $ printf 1 | dd of=changed.img bs=1 seek=32 conv=notrunc status=none
  $ uimg dumpimage -l changed.img
  uimg: L3 bad header CRC
  [1]

size-too-large is L4, not L5:

  $ uimg dumpimage -l "$files/size-too-large.img"
  uimg: L4 truncated
  [1]

Its last byte is gone:

  $ head -c 66 "$files/abc-kernel.img" > cut.img
  $ uimg dumpimage -l cut.img
  uimg: L4 truncated
  [1]

Other data:

  $ cp "$files/abc-kernel.img" data.img
  $ printf d | dd of=data.img bs=1 seek=66 conv=notrunc status=none
  $ uimg dumpimage -l data.img
  uimg: L5 bad data CRC
  [1]

A fault goes to standard error alone:

  $ uimg dumpimage -l data.img 2> /dev/null
  [1]
  $ uimg dumpimage -l data.img > /dev/null
  uimg: L5 bad data CRC
  [1]

no-table-end is refused after the six lines:

  $ uimg dumpimage -l "$files/no-table-end.img"
  Image Name:   
  Created:      Thu Jan  1 00:00:00 1970
  Image Type:   PowerPC Linux Multi-File Image (gzip compressed)
  Data Size:    4 Bytes = 0.00 KiB = 0.00 MiB
  Load Address: 00000000
  Entry Point:  00000000
  uimg: L6 no table end
  [1]

part-outside is refused before the line of the part; the text comes before the fault:

  $ uimg dumpimage -l "$files/part-outside.img"
  Image Name:   
  Created:      Thu Jan  1 00:00:00 1970
  Image Type:   PowerPC Linux Multi-File Image (gzip compressed)
  Data Size:    17 Bytes = 0.02 KiB = 0.00 MiB
  Load Address: 00000000
  Entry Point:  00000000
  Contents:
     Image 0: 3 Bytes = 0.00 KiB = 0.00 MiB
  uimg: L7 part outside
  [1]
  $ uimg dumpimage -l "$files/part-outside.img" > text 2>&1
  [1]
  $ tail -n 2 text
     Image 0: 3 Bytes = 0.00 KiB = 0.00 MiB
  uimg: L7 part outside

A line for each of 200 parts:

  $ printf x > x
  $ word=x$(printf '%0199d' 0 | sed 's/0/:x/g')
  $ uimg mkimage -T multi -d "$word" many.img > many
  $ seq 0 199 | sed 's/.*/   Image &: 1 Bytes = 0.00 KiB = 0.00 MiB/' > wanted
  $ tail -n +8 many | cmp - wanted

No part of 300 is lost, and a part's number is printed in full:

  $ word=x$(printf '%0299d' 0 | sed 's/0/:x/g')
  $ uimg mkimage -T multi -d "$word" many.img | tail -n 1
     Image 299: 1 Bytes = 0.00 KiB = 0.00 MiB
  $ uimg mkimage -T multi -d "$word:none" many.img
  uimg: cannot read none
  [3]
  $ uimg dumpimage -p 65536 -o out many.img
  uimg: L8 no such part
  [1]
  $ uimg dumpimage -p 00000000000 -o out many.img && cat out
  x (no-eol)
