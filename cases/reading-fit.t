Listings, reports and extractions of FIT images
===============================================

  $ files="$TESTDIR/files"

`cell FILE AT BYTE..` sets bytes of a file at an offset:

  $ cell() {
  >     to=$1 at=$2; shift 2
  >     printf "$(printf '\\%03o' "$@")" | dd of=$to bs=1 seek=$at conv=notrunc status=none
  > }

`payload POSITION IMAGE` extracts, and prints the outfile in brackets:

  $ payload() {
  >     uimg dumpimage -p "$1" -o out "$2"
  >     echo "$? [$(cat out)]"
  >     rm -f out
  > }

four-hash-fit, with its type and without:

  $ uimg dumpimage -l -T flat_dt "$files/four-hash-fit.itb"
  FIT description: demo
  Created:         Thu Jan  1 00:00:00 1970
   Image 0 (kernel)
    Description:  k
    Created:      Thu Jan  1 00:00:00 1970
    Type:         Kernel Image
    Compression:  uncompressed
    Data Size:    3 Bytes = 0.00 KiB = 0.00 MiB
    Architecture: AArch64
    OS:           Linux
    Load Address: 0x00080000
    Entry Point:  0x00080000
    Hash algo:    crc32
    Hash value:   352441c2
    Hash algo:    md5
    Hash value:   900150983cd24fb0d6963f7d28e17f72
    Hash algo:    sha1
    Hash value:   a9993e364706816aba3e25717850c26c9cd0d89d
    Hash algo:    sha256
    Hash value:   ba7816bf8f01cfea414140de5dae2223b00361a396177a9cb410ff61f20015ad
   Default Configuration: 'conf'
   Configuration 0 (conf)
    Description:  c
    Kernel:       kernel
  $ uimg dumpimage -l "$files/four-hash-fit.itb"
  FIT description: demo
  Created:         Thu Jan  1 00:00:00 1970
   Image 0 (kernel)
    Description:  k
    Created:      Thu Jan  1 00:00:00 1970
    Type:         Kernel Image
    Compression:  uncompressed
    Data Size:    3 Bytes = 0.00 KiB = 0.00 MiB
    Architecture: AArch64
    OS:           Linux
    Load Address: 0x00080000
    Entry Point:  0x00080000
    Hash algo:    crc32
    Hash value:   352441c2
    Hash algo:    md5
    Hash value:   900150983cd24fb0d6963f7d28e17f72
    Hash algo:    sha1
    Hash value:   a9993e364706816aba3e25717850c26c9cd0d89d
    Hash algo:    sha256
    Hash value:   ba7816bf8f01cfea414140de5dae2223b00361a396177a9cb410ff61f20015ad
   Default Configuration: 'conf'
   Configuration 0 (conf)
    Description:  c
    Kernel:       kernel
  $ uimg mkimage -l "$files/four-hash-fit.itb"
  FIT description: demo
  Created:         Thu Jan  1 00:00:00 1970
   Image 0 (kernel)
    Description:  k
    Created:      Thu Jan  1 00:00:00 1970
    Type:         Kernel Image
    Compression:  uncompressed
    Data Size:    3 Bytes = 0.00 KiB = 0.00 MiB
    Architecture: AArch64
    OS:           Linux
    Load Address: 0x00080000
    Entry Point:  0x00080000
    Hash algo:    crc32
    Hash value:   352441c2
    Hash algo:    md5
    Hash value:   900150983cd24fb0d6963f7d28e17f72
    Hash algo:    sha1
    Hash value:   a9993e364706816aba3e25717850c26c9cd0d89d
    Hash algo:    sha256
    Hash value:   ba7816bf8f01cfea414140de5dae2223b00361a396177a9cb410ff61f20015ad
   Default Configuration: 'conf'
   Configuration 0 (conf)
    Description:  c
    Kernel:       kernel
  $ uimg verify "$files/four-hash-fit.itb"
  kernel hash-1 crc32 ok
  kernel hash-2 md5 ok
  kernel hash-3 sha1 ok
  kernel hash-4 sha256 ok
  $ uimg dumpimage -T flat_dt -o out "$files/four-hash-fit.itb" && cat out
  abc (no-eol)
  $ payload 0 "$files/four-hash-fit.itb"
  0 [abc]
  $ payload 1 "$files/four-hash-fit.itb"
  uimg: F4 no such image
  1 []

external-fit and position-fit:

  $ for fit in external-fit position-fit; do uimg dumpimage -l "$files/$fit.itb" > $fit; uimg verify "$files/$fit.itb"; done
  kernel hash-1 crc32 ok
  kernel hash-2 md5 ok
  kernel hash-3 sha1 ok
  kernel hash-4 sha256 ok
  kernel hash-1 crc32 ok
  kernel hash-2 md5 ok
  kernel hash-3 sha1 ok
  kernel hash-4 sha256 ok
  $ cat external-fit
  FIT description: demo
  Created:         Thu Jan  1 00:00:00 1970
   Image 0 (kernel)
    Description:  k
    Created:      Thu Jan  1 00:00:00 1970
    Type:         Kernel Image
    Compression:  uncompressed
    Data Size:    3 Bytes = 0.00 KiB = 0.00 MiB
    Architecture: AArch64
    OS:           Linux
    Load Address: 0x00080000
    Entry Point:  0x00080000
    Hash algo:    crc32
    Hash value:   352441c2
    Hash algo:    md5
    Hash value:   900150983cd24fb0d6963f7d28e17f72
    Hash algo:    sha1
    Hash value:   a9993e364706816aba3e25717850c26c9cd0d89d
    Hash algo:    sha256
    Hash value:   ba7816bf8f01cfea414140de5dae2223b00361a396177a9cb410ff61f20015ad
   Default Configuration: 'conf'
   Configuration 0 (conf)
    Description:  c
    Kernel:       kernel
  $ cmp external-fit position-fit
  $ payload 0 "$files/external-fit.itb"
  0 [abc]
  $ payload 1 "$files/external-fit.itb"
  uimg: F4 no such image
  1 []
  $ payload 0 "$files/position-fit.itb"
  0 [abc]
  $ payload 1 "$files/position-fit.itb"
  uimg: F4 no such image
  1 []

five-hash-fit:

  $ uimg verify "$files/five-hash-fit.itb"
  kernel hash-1 crc32 ok
  kernel hash-2 md5 ok
  kernel hash-3 sha1 ok
  kernel hash-4 sha256 ok
  kernel hash-5 sha512 ok

changed-payload: the listing is as before.

  $ cp "$files/four-hash-fit.itb" changed.itb
  $ cell changed.itb 168 0x62
  $ uimg dumpimage -l changed.itb
  FIT description: demo
  Created:         Thu Jan  1 00:00:00 1970
   Image 0 (kernel)
    Description:  k
    Created:      Thu Jan  1 00:00:00 1970
    Type:         Kernel Image
    Compression:  uncompressed
    Data Size:    3 Bytes = 0.00 KiB = 0.00 MiB
    Architecture: AArch64
    OS:           Linux
    Load Address: 0x00080000
    Entry Point:  0x00080000
    Hash algo:    crc32
    Hash value:   352441c2
    Hash algo:    md5
    Hash value:   900150983cd24fb0d6963f7d28e17f72
    Hash algo:    sha1
    Hash value:   a9993e364706816aba3e25717850c26c9cd0d89d
    Hash algo:    sha256
    Hash value:   ba7816bf8f01cfea414140de5dae2223b00361a396177a9cb410ff61f20015ad
   Default Configuration: 'conf'
   Configuration 0 (conf)
    Description:  c
    Kernel:       kernel
  $ uimg verify changed.itb
  kernel hash-1 crc32 bad
  kernel hash-2 md5 bad
  kernel hash-3 sha1 bad
  kernel hash-4 sha256 bad
  [1]
  $ payload 0 changed.itb
  0 [bbc]

changed-five-hash:

  $ cp "$files/five-hash-fit.itb" changed.itb
  $ cell changed.itb 168 0x62
  $ uimg verify changed.itb
  kernel hash-1 crc32 bad
  kernel hash-2 md5 bad
  kernel hash-3 sha1 bad
  kernel hash-4 sha256 bad
  kernel hash-5 sha512 bad
  [1]

payload-outside: the listing is complete, and nothing is reported on or extracted.

  $ cp "$files/external-fit.itb" outside.itb
  $ cell outside.itb 184 0 0 0 5
  $ uimg dumpimage -l outside.itb | grep 'Data Size'
    Data Size:    5 Bytes = 0.00 KiB = 0.00 MiB
  $ uimg verify outside.itb
  uimg: F3 data outside
  [1]
  $ payload 0 outside.itb
  uimg: F3 data outside
  1 []

Of two faults the blob's comes first:

  $ cell outside.itb 116 0 0 0 7
  $ uimg verify outside.itb
  uimg: B5 bad token at 116
  [1]

far-payload:

  $ cp "$files/external-fit.itb" far.itb
  $ cell far.itb 168 255 255 255 255
  $ cell far.itb 184 255 255 255 255
  $ uimg dumpimage -l far.itb | grep 'Data Size'
    Data Size:    4294967295 Bytes = 4194304.00 KiB = 4096.00 MiB
  $ uimg verify far.itb
  uimg: F3 data outside
  [1]
  $ payload 0 far.itb
  uimg: F3 data outside
  1 []

two-cell-addresses:

  $ uimg dumpimage -l "$files/two-cell-addresses.itb" | grep -A 1 'Load Address'
    Load Address: 0x180000000
    Entry Point:  0x00080000

no-images: the blob of mixed-values, and a blob of a root alone.

  $ uimg dumpimage -l "$files/mixed-values.dtb"
  FIT description: unavailable
  Created:         unavailable
  uimg: F1 no images
  [1]
  $ uimg verify "$files/mixed-values.dtb"
  uimg: F1 no images
  [1]
  $ payload 0 "$files/mixed-values.dtb"
  uimg: F1 no images
  1 []
  $ uimg dumpimage -l "$files/no-images.itb"
  FIT description: unavailable
  Created:         unavailable
  uimg: F1 no images
  [1]
  $ uimg verify "$files/no-images.itb"
  uimg: F1 no images
  [1]
  $ payload 0 "$files/no-images.itb"
  uimg: F1 no images
  1 []

sha3-node:

  $ uimg verify "$files/sha3-node.itb"
  a - none unhashed
  b hash-1 sha3 unsupported
  [1]

Of two nodes with the same name the first counts as `images`, and all images are reported on:

  $ uimg verify "$files/equal-names.itb"
  a - none unhashed
  a hash-1 sha3 unsupported
  [1]

Images without hash nodes are not wrong:

  $ uimg verify "$files/offset-first.itb"
  a - none unhashed

The words of hash nodes: a missing name comes first, then an unknown one, then a value that is missing or too short.

  $ uimg verify "$files/hash-words.itb"
  a hash - malformed
  a hash@2 crc16 unsupported
  a hash3 md5 malformed
  a hash4 sha256 malformed
  a hash5 crc32 ok
  a hash6 crc32 bad
  [1]
  $ uimg verify "$files/one-bad-hash.itb"
  a hash crc32 bad
  [1]

Lists of texts are cut after each NUL, and a text may end without one:

  $ uimg dumpimage -l "$files/lists-and-texts.itb"
  FIT description: no NUL
  Created:         unavailable
   Image 0 (i)
    Type:         Kernel Image
    Data Size:    unavailable
    Architecture: Unknown Architecture
    Load Address: unavailable
   Configuration 0 (c)
    Description:  first
    Init Ramdisk: 
    Loadables:    a
                  
                  b

data-position: the payload is the first that is complete of data-position, data-offset and data.

  $ uimg dumpimage -o out "$files/position-first.itb" && od -An -tx1 out
   d0 0d fe ed
  $ uimg dumpimage -o out "$files/offset-first.itb" && od -An -tx1 out
   78 79 7a 00
  $ payload 0 "$files/no-size.itb"
  0 [abc]
  $ payload 0 "$files/size-alone.itb"
  0 [abc]
  $ payload 0 "$files/no-data.itb"
  uimg: F2 no data
  1 []
  $ uimg verify "$files/no-data.itb"
  uimg: F2 no data
  [1]

wrong-forms: a FIT is no legacy image, and a legacy image no FIT.

  $ uimg dumpimage -T kernel -l "$files/four-hash-fit.itb"
  uimg: L2 bad magic
  [1]
  $ uimg dumpimage -T flat_dt -l "$files/abc-kernel.img"
  uimg: B2 bad magic at 0
  [1]
  $ uimg dumpimage "$files/four-hash-fit.itb"
  uimg: no -l or -o
  [2]
  $ uimg dumpimage -T flat_dt -o out "$files/abc-kernel.img"; wc -c < out
  uimg: B2 bad magic at 0
  0

cut-files:

  $ for length in 759 39 3; do head -c $length "$files/four-hash-fit.itb" > cut.itb; uimg verify cut.itb; done
  uimg: B4 block outside at 4
  uimg: B1 too short at 0
  uimg: L1 too short
  [1]
  $ uimg dumpimage -T flat_dt -l cut.itb
  uimg: B1 too short at 0
  [1]

Bytes after the image are accepted:

  $ { cat "$files/four-hash-fit.itb"; echo more; } > longer.itb
  $ uimg verify longer.itb
  kernel hash-1 crc32 ok
  kernel hash-2 md5 ok
  kernel hash-3 sha1 ok
  kernel hash-4 sha256 ok
