The facts of an image, an object of JSON on one line
====================================================

  $ files="$TESTDIR/files"

`cell FILE AT BYTE..` sets bytes of a file at an offset:

  $ cell() {
  >     to=$1 at=$2; shift 2
  >     printf "$(printf '\\%03o' "$@")" | dd of=$to bs=1 seek=$at conv=notrunc status=none
  > }

`fit ROOT OPTION..` makes a FIT image k.itb with this in its root:

  $ fit() {
  >     echo "/dts-v1/; / { description = \"d\"; $1 };" > k.its; shift
  >     SOURCE_DATE_EPOCH=1700000000 uimg mkimage -f k.its "$@" k.itb > /dev/null
  > }

A FIT image with two images and a configuration. Addresses have one cell or two; missing facts are left out. A string has its NUL, so the first payload has four bytes.

  $ fit 'images {
  >     kernel { description = "k"; data = "abc"; type = "kernel"; arch = "arm64"; os = "linux"; compression = "none";
  >         load = <0x80000>; entry = <0x1 0x80000000>; hash-1 { algo = "crc32"; }; hash-2 { algo = "md5"; }; };
  >     dtb { data = [00 01]; type = "flat_dt"; };
  > };
  > configurations { default = "one";
  >     one { description = "c"; kernel = "kernel"; ramdisk = "initrd"; fdt = "dtb", "overlay"; loadables = "a", "", "b"; };
  > };'
  $ uimg info --json k.itb
  {"path":"k.itb","status":0,"format":"fit","size":708,"totalsize":708,"description":"d","timestamp":1700000000,"default":"one","reservations":[],"images":[{"name":"kernel","description":"k","type":"kernel","arch":"arm64","os":"linux","compression":"none","load":524288,"entry":6442450944,"offset":148,"data-size":4,"hashes":[{"name":"hash-1","algo":"crc32","value":"a75d6850"},{"name":"hash-2","algo":"md5","value":"147a664a2ca9410911e61986d3f0d52a"}]},{"name":"dtb","type":"flat_dt","offset":404,"data-size":2,"hashes":[]}],"configurations":[{"name":"one","description":"c","kernel":"kernel","ramdisk":"initrd","fdt":["dtb","overlay"],"loadables":["a","","b"],"nodes":[],"properties":[{"name":"description","size":2},{"name":"kernel","size":7},{"name":"ramdisk","size":7},{"name":"fdt","size":12},{"name":"loadables","size":5}]}],"signatures":[]}
  $ uimg info k.itb > plain && uimg info --json k.itb | cmp - plain
  $ dd if=k.itb bs=1 skip=148 count=4 status=none | od -An -c
     a   b   c  \0
  $ printf 'abc\0' | md5sum
  147a664a2ca9410911e61986d3f0d52a  -

Payloads after the blob, and from a position on:

  $ fit 'images { a { data = "abc"; }; b { data = "defgh"; }; };' -E
  $ uimg info k.itb
  {"path":"k.itb","status":0,"format":"fit","size":264,"totalsize":252,"description":"d","timestamp":1700000000,"reservations":[],"images":[{"name":"a","offset":252,"data-size":4,"hashes":[]},{"name":"b","offset":256,"data-size":6,"hashes":[]}],"configurations":[],"signatures":[]}
  $ tail -c 12 k.itb | od -An -c
     a   b   c  \0   d   e   f   g   h  \0  \0  \0
  $ fit 'images { a { data = "abc"; }; };' -E -p 1000
  $ uimg info k.itb
  {"path":"k.itb","status":0,"format":"fit","size":4100,"totalsize":212,"description":"d","timestamp":1700000000,"reservations":[],"images":[{"name":"a","offset":4096,"data-size":4,"hashes":[]}],"configurations":[],"signatures":[]}

No payload, and one that ends after the file:

  $ uimg info "$files/no-data.itb" | sed "s|$files/||"
  {"path":"no-data.itb","status":1,"verdict":"refused","format":"fit","fault":"F2","message":"F2 no data"}
  $ fit 'images { a { data = "abcd"; hash-1 { algo = "crc32"; }; }; };' -E
  $ head -c -4 k.itb > cut.itb && uimg info cut.itb
  {"path":"cut.itb","status":1,"verdict":"refused","format":"fit","fault":"F3","message":"F3 data outside"}
  [1]
  $ uimg check cut.itb
  cut.itb: refused F3 data outside
  [1]

Hashes are printed and not compared:

  $ fit 'images { a { data = "abcd"; hash-1 { algo = "crc32"; }; }; };'
  $ at=$(grep -abo abcd k.itb | cut -d: -f 1) && cell k.itb $at 65
  $ uimg info k.itb && uimg check k.itb
  {"path":"k.itb","status":0,"format":"fit","size":244,"totalsize":244,"description":"d","timestamp":1700000000,"reservations":[],"images":[{"name":"a","offset":128,"data-size":5,"hashes":[{"name":"hash-1","algo":"crc32","value":"b85f4db2"}]}],"configurations":[],"signatures":[]}
  k.itb: bad a hash-1
  [1]

Texts: up to the first NUL, escaped by RFC 8259. A text that is not UTF-8 has U+FFFD in place of what is not, and its bytes in base64 beside it; a list with such a text has a list of the bytes of all its texts beside it:

  $ printf 'say "no" \\ \n\t\033/\177\0more\0' > text
  $ fit 'images { k { data = "a"; description = /incbin/("text"); type = [00]; arch = [61 e4 ff]; os; }; };
  > configurations { c { fdt = [61 00 62 ff 00 00]; loadables = [61 00 00 62]; kernel = [c3]; ramdisk = [e2 80 a8]; }; };'
  $ uimg info k.itb
  {"path":"k.itb","status":0,"format":"fit","size":404,"totalsize":404,"description":"d","timestamp":1700000000,"reservations":[],"images":[{"name":"k","description":"say \\"no\\" \\\\ \\n\\t\\u001b/\\u007f","type":"","arch":"a\xef\xbf\xbd\xef\xbf\xbd","arch_base64":"YeT/","os":"","offset":128,"data-size":2,"hashes":[]}],"configurations":[{"name":"c","kernel":"\xef\xbf\xbd","kernel_base64":"ww==","ramdisk":"\xe2\x80\xa8","fdt":["a","b\xef\xbf\xbd",""],"fdt_base64":["YQ==","Yv8=",""],"loadables":["a","","b"],"nodes":[],"properties":[{"name":"fdt","size":6},{"name":"loadables","size":4},{"name":"kernel","size":1},{"name":"ramdisk","size":3}]}],"signatures":[]} (esc)

A name that is not UTF-8, or has control characters:

  $ fit 'images { kernel { data = "a"; }; };'
  $ python3 - <<'END'
  > image = open("k.itb", "rb").read()
  > open("name.itb", "wb").write(image.replace(b"kernel\0", b"\"\n\\\x7f\x1b/\0", 1))
  > open("bytes.itb", "wb").write(image.replace(b"kernel\0", b"k\xe4\xff\xfen\t\0", 1))
  > END
  $ uimg info name.itb
  {"path":"name.itb","status":0,"format":"fit","size":180,"totalsize":180,"description":"d","timestamp":1700000000,"reservations":[],"images":[{"name":"\"\n\\\u007f\u001b/","offset":132,"data-size":2,"hashes":[]}],"configurations":[],"signatures":[]}
  $ uimg info bytes.itb
  {"path":"bytes.itb","status":0,"format":"fit","size":180,"totalsize":180,"description":"d","timestamp":1700000000,"reservations":[],"images":[{"name":"k\xef\xbf\xbd\xef\xbf\xbd\xef\xbf\xbdn\\t","name_base64":"a+T//m4J","offset":132,"data-size":2,"hashes":[]}],"configurations":[],"signatures":[]} (esc)

Configurations may name images in nine properties, and the nodes below them, their hashes and signatures, are printed by name. The blob's memory reservations are printed up to the entry of zeros; here the block is moved to a payload with two entries, then so that the blob ends before the list:

  $ fit 'images { a { data = <0 0x1000 0 0x200 0x1 0x80000000 0xffffffff 0xffffffff 0 0 0 0>; }; };
  > configurations { c { firmware = "a"; fpga = "b"; setup = "s"; standalone = "t"; script = "u", "v"; other = "x";
  >     signature-1 { algo = "sha256,rsa2048"; }; hash-1 { algo = "sha1"; }; }; };'
  $ uimg info k.itb | grep -o '"configurations.*'
  "configurations":[{"name":"c","firmware":"a","fpga":"b","setup":"s","standalone":"t","script":"u","nodes":[{"name":"signature-1"},{"name":"hash-1"}],"properties":[{"name":"firmware","size":2},{"name":"fpga","size":2},{"name":"setup","size":2},{"name":"standalone","size":2},{"name":"script","size":4},{"name":"other","size":2}]}],"signatures":[{"configuration":"c","node":"signature-1","algo":"sha256,rsa2048"}]}
  $ at=$(uimg info k.itb | grep -o '"offset":[0-9]*' | cut -d: -f 2) && cell k.itb 16 0 0 0 $at && uimg info k.itb | grep -o '"reservations.*}],"images'
  "reservations":[{"address":4096,"size":512},{"address":6442450944,"size":18446744073709551615}],"images
  $ cell k.itb 16 0 0 0 $((at + 40)) && uimg info k.itb | grep -c reservations
  0
  [1]
  $ cell k.itb 16 255 255 255 255 && uimg info k.itb | grep -c reservations
  0
  [1]

Numbers of a wrong length are left out, and of properties with the same name the first counts:

  $ fit 'timestamp = <1 2>; images { a { data = "a"; load = [01]; entry = <1 2 3>; }; };'
  $ uimg info k.itb
  {"path":"k.itb","status":0,"format":"fit","size":228,"totalsize":228,"description":"d","timestamp":1700000000,"reservations":[],"images":[{"name":"a","offset":128,"data-size":2,"hashes":[]}],"configurations":[],"signatures":[]}
  $ uimg info "$files/two-cell-addresses.itb" | sed "s|$files/||"
  {"path":"two-cell-addresses.itb","status":0,"format":"fit","size":768,"totalsize":768,"description":"demo","timestamp":0,"default":"conf","reservations":[],"images":[{"name":"kernel","description":"k","type":"kernel","arch":"arm64","os":"linux","compression":"none","load":6442450944,"entry":524288,"offset":168,"data-size":3,"hashes":[{"name":"hash-1","algo":"crc32","value":"352441c2"},{"name":"hash-2","algo":"md5","value":"900150983cd24fb0d6963f7d28e17f72"},{"name":"hash-3","algo":"sha1","value":"a9993e364706816aba3e25717850c26c9cd0d89d"},{"name":"hash-4","algo":"sha256","value":"ba7816bf8f01cfea414140de5dae2223b00361a396177a9cb410ff61f20015ad"}]}],"configurations":[{"name":"conf","description":"c","kernel":"kernel","nodes":[],"properties":[{"name":"description","size":2},{"name":"kernel","size":7}]}],"signatures":[]}

Of a configuration all properties are printed, also those without a meaning, in the order of the file and repeated ones one by one, with the lengths of their values in bytes; a name is spelled like any other:

  $ fit 'images { k { data = "a"; }; };
  > configurations { c { compatible = "a,b", "c"; kernel = "k"; own,flag; lengths = <1 2>; kernel = "other"; hash-1 { algo = "sha1"; }; }; d { }; };'
  $ uimg info k.itb | grep -o '"configurations":.*'
  "configurations":[{"name":"c","kernel":"k","nodes":[{"name":"hash-1"}],"properties":[{"name":"compatible","size":6},{"name":"kernel","size":2},{"name":"own,flag","size":0},{"name":"lengths","size":8},{"name":"kernel","size":6}]},{"name":"d","nodes":[],"properties":[]}],"signatures":[]}
  $ python3 - <<'END'
  > image = open("k.itb", "rb").read()
  > open("named.itb", "wb").write(image.replace(b"compatible\0", b"c\xe4mpatibl\n\0", 1))
  > END
  $ uimg info named.itb | grep -ao '"properties":[^}]*}' | head -n 1
  "properties":[{"name":"c\xef\xbf\xbdmpatibl\\n","name_base64":"Y+RtcGF0aWJsCg==","size":6} (esc)

A value of more than 65536 bytes is printed as its length alone, one of 65536 in full:

  $ head -c 65536 /dev/zero | tr '\0' x > most && cp most more && echo >> more
  $ fit 'images { a { data = "a"; description = /incbin/("most"); type = /incbin/("more"); load = /incbin/("more"); hash-1 { algo = "crc32"; }; }; };
  > configurations { c { fdt = /incbin/("more"); loadables = /incbin/("most"); }; };'
  $ uimg info k.itb | python3 -c 'import sys; sys.stdout.write(sys.stdin.read().replace("x" * 65536, "(65536 times x)"))'
  {"path":"k.itb","status":0,"format":"fit","size":328052,"totalsize":328052,"description":"d","timestamp":1700000000,"reservations":[],"images":[{"name":"a","description":"(65536 times x)","type_length":65537,"offset":128,"data-size":2,"hashes":[{"name":"hash-1","algo":"crc32","value":"3d3f4819"}]}],"configurations":[{"name":"c","fdt_length":65537,"loadables":["(65536 times x)"],"nodes":[],"properties":[{"name":"fdt","size":65537},{"name":"loadables","size":65536}]}],"signatures":[]}

Refused images have the line and the status of a check:

  $ cp k.itb version.itb && cell version.itb 23 16
  $ uimg info version.itb
  {"path":"version.itb","status":1,"verdict":"refused","format":"fit","fault":"B3","message":"B3 bad version at 20","offset":20}
  [1]
  $ uimg check --json version.itb
  {"path":"version.itb","status":1,"verdict":"refused","format":"fit","fault":"B3","message":"B3 bad version at 20","offset":20}
  [1]
  $ head -c 20 k.itb > short.itb && uimg info short.itb
  {"path":"short.itb","status":1,"verdict":"refused","format":"fit","fault":"B1","message":"B1 too short at 0","offset":0}
  [1]
  $ uimg info "$files/no-images.itb" | sed "s|$files/||"
  {"path":"no-images.itb","status":1,"verdict":"refused","format":"fit","fault":"F1","message":"F1 no images"}

Legacy images, of one part, of several and of a script; an unknown name and unknown codes:

  $ cp "$files/abc-kernel.img" kernel.img && uimg info kernel.img
  {"path":"kernel.img","status":0,"format":"legacy","size":67,"name":"01234567890123456789012345678901","time":1700000000,"load":524288,"entry":524288,"header-crc":4193337822,"data-crc":891568578,"os":"Linux","os-code":5,"arch":"AArch64","arch-code":22,"type":"Kernel Image","type-code":2,"compression":"uncompressed","compression-code":0,"data-size":3,"parts":[{"offset":64,"size":3}]}
  $ cp "$files/three-part-multi.img" multi.img && uimg info multi.img
  {"path":"multi.img","status":0,"format":"legacy","size":93,"name":"","time":0,"load":0,"entry":0,"header-crc":863670919,"data-crc":2471540458,"os":"Linux","os-code":5,"arch":"PowerPC","arch-code":7,"type":"Multi-File Image","type-code":4,"compression":"gzip compressed","compression-code":1,"data-size":29,"parts":[{"offset":80,"size":3},{"offset":84,"size":4},{"offset":88,"size":5}]}
  $ uimg dumpimage -l multi.img
  Image Name:   
  Created:      Thu Jan  1 00:00:00 1970
  Image Type:   PowerPC Linux Multi-File Image (gzip compressed)
  Data Size:    29 Bytes = 0.03 KiB = 0.00 MiB
  Load Address: 00000000
  Entry Point:  00000000
  Contents:
     Image 0: 3 Bytes = 0.00 KiB = 0.00 MiB
     Image 1: 4 Bytes = 0.00 KiB = 0.00 MiB
     Image 2: 5 Bytes = 0.00 KiB = 0.00 MiB
  $ printf 'echo hello\n' > boot.cmd && SOURCE_DATE_EPOCH=0 uimg mkimage -A arm -T script -C none -n boot -d boot.cmd boot.scr > /dev/null
  $ uimg info boot.scr
  {"path":"boot.scr","status":0,"format":"legacy","size":83,"name":"boot","time":0,"load":0,"entry":0,"header-crc":3577849271,"data-crc":1035296367,"os":"Linux","os-code":5,"arch":"ARM","arch-code":2,"type":"Script","type-code":6,"compression":"uncompressed","compression-code":0,"data-size":19,"parts":[{"offset":72,"size":11}]}
  $ python3 - <<'END'
  > import struct, zlib
  > image = bytearray(open("kernel.img", "rb").read())
  > image[28:32], image[32:64] = b"\xff\xfe\xfd\xfc", b"k\xe4\xff\x1b".ljust(32, b"\0")
  > image[4:8] = struct.pack(">I", zlib.crc32(image[:4] + bytes(4) + image[8:64]))
  > open("codes.img", "wb").write(image)
  > END
  $ uimg info codes.img
  {"path":"codes.img","status":0,"format":"legacy","size":67,"name":"k\xef\xbf\xbd\xef\xbf\xbd\\u001b","name_base64":"a+T/Gw==","time":1700000000,"load":524288,"entry":524288,"header-crc":2078800056,"data-crc":891568578,"os":"Unknown OS","os-code":255,"arch":"Unknown Architecture","arch-code":254,"type":"Unknown Image","type-code":253,"compression":"Unknown Compression","compression-code":252,"data-size":3,"parts":[{"offset":64,"size":3}]} (esc)

The checksum of the data is printed and not compared; that of the header has to be right:

  $ cp kernel.img data.img && printf b | dd of=data.img bs=1 seek=64 conv=notrunc status=none
  $ uimg info data.img | tail -c 60 && uimg check data.img
  ion-code":0,"data-size":3,"parts":[{"offset":64,"size":3}]}
  data.img: bad checksum
  [1]
  $ cp kernel.img head.img && cell head.img 40 1 && uimg info head.img
  {"path":"head.img","status":1,"verdict":"refused","format":"legacy","fault":"L3","message":"L3 bad header CRC"}
  [1]
  $ head -c 63 kernel.img > short.img && uimg info short.img
  {"path":"short.img","status":1,"verdict":"refused","format":"legacy","fault":"L1","message":"L1 too short"}
  [1]
  $ head -c 66 kernel.img > cut.img && uimg info cut.img
  {"path":"cut.img","status":1,"verdict":"refused","format":"legacy","fault":"L4","message":"L4 truncated"}
  [1]
  $ for name in no-table-end part-outside; do cp "$files/$name.img" . && uimg info $name.img; done
  {"path":"no-table-end.img","status":1,"verdict":"refused","format":"legacy","fault":"L6","message":"L6 no table end"}
  {"path":"part-outside.img","status":1,"verdict":"refused","format":"legacy","fault":"L7","message":"L7 part outside"}
  [1]

A directory, a missing file, a pipe that nobody writes to, and an empty file; a path is escaped like a text:

  $ mkdir folder && uimg info folder
  {"path":"folder","status":3,"verdict":"failed","message":"cannot read: Is a directory (os error 21)"}
  [3]
  $ uimg info none
  {"path":"none","status":3,"verdict":"failed","message":"cannot read: No such file or directory (os error 2)"}
  [3]
  $ mkfifo pipe && uimg info pipe
  {"path":"pipe","status":3,"verdict":"failed","message":"cannot read: it is a pipe"}
  [3]
  $ : > empty && uimg info empty
  {"path":"empty","status":1,"verdict":"refused","format":"legacy","fault":"L1","message":"L1 too short"}
  [1]
  $ cp kernel.img "$(printf 'a"\n}')" && uimg info "$(printf 'a"\n}')" | head -c 40; echo
  {"path":"a\"\n}","status":0,"format":"le

A line that cannot be written, and one that nobody reads:

  $ uimg info kernel.img > /dev/full
  uimg: cannot write standard output: No space left on device (os error 28)
  [3]
  $ (sleep 0.5; uimg info kernel.img 2> said; echo "status $?" >> said) | true
  $ cat said
  status 3

Wrong command lines:

  $ uimg info
  error: the following required arguments were not provided:
    <image>
  
  Usage: uimg info <image>
  
  For more information, try '--help'.
  [2]
  $ uimg info --json
  error: the following required arguments were not provided:
    <image>
  
  Usage: uimg info --json <image>
  
  For more information, try '--help'.
  [2]
  $ uimg info --text kernel.img
  error: unexpected argument '--text' found
  
  Usage: uimg info [OPTIONS] <image>
  
  For more information, try '--help'.
  [2]
  $ uimg info kernel.img kernel.img
  error: unexpected argument 'kernel.img' found
  
  Usage: uimg info [OPTIONS] <image>
  
  For more information, try '--help'.
  [2]
  $ uimg info --help
  Print the facts of an image as JSON, for scripts
  
  Usage: uimg info [OPTIONS] <image>
  
  Arguments:
    <image>  The image, - for standard input
  
  Options:
        --json                Print a JSON object (the default)
        --max-input <number>  Read at most this many bytes of standard input (4 GiB)
    -h, --help                Print help
  
  Prints one line, a JSON object. For a FIT image it has path, status, format, size,
  totalsize, description, timestamp, default, reservations, images and
  configurations. An image has name, description, type, arch, os, compression, load,
  entry, offset and data-size of its payload, and hashes. A configuration has the
  names that its properties give, nodes and properties. Of a legacy image the object
  has path, status, format, size, name, time, load, entry, header-crc, data-crc, os,
  arch, type and compression (each with its code), data-size and parts. What the image
  lacks is left out. An image that is refused or cannot be read has the line of check
  --json.
  Hashes and the checksum of a legacy image's data are printed, not checked. The
  image - is read from standard input to a file without a name in TMPDIR or /tmp.
  
  Examples:
    uimg info kernel.itb
    uimg info kernel.itb | jq -r '.images[] | select(.type == "kernel") | .load'
  
  Exit status:
    0  The facts were printed
    1  The image is refused
    2  The command line is wrong
    3  A file cannot be opened, a read or write failed, or memory ran out
