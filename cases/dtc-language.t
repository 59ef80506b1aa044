Sources in the whole language of dtc, by the name mkimage
=========================================================

The expected trees are those of dtc 1.6.1.

  $ export SOURCE_DATE_EPOCH=1700000000
  $ for name in mkimage dumpimage; do ln -s "$(command -v uimg)" $name; done
  $ PATH=$PWD:$PATH && printf 'abc\n' > abc.bin

Included files, roots and nodes given again, references, expressions, other widths, deletions, and a range of a file:

  $ mkdir parts && echo '/ { description = "of a part"; };' > parts/part.dtsi
  $ cat > whole.its << 'END'
  > /dts-v1/;
  > /include/ "parts/part.dtsi"
  > / {
  >   #address-cells = <(2 - 1)>;
  >   images {
  >     k: kernel { description = "k"; data = /incbin/("abc.bin", 1, 2); type = "kernel"; arch = "arm"; os = "linux";
  >       compression = "none"; load = <(0x1000 << 4)>; entry = <'a'>; hash-1 { algo = "crc32"; }; };
  >     gone { description = "gone"; };
  >   };
  >   configurations { default = "c"; c { description = "c"; kernel = "kernel"; by-path = &k; by-number = <&k>; }; };
  > };
  > &k { description = "changed"; wide = /bits/ 64 <0x123456789>; };
  > / { images { /delete-node/ gone; }; };
  > END
  $ mkimage -f whole.its whole.itb
  FIT description: of a part
  Created:         Tue Nov 14 22:13:20 2023
   Image 0 (kernel)
    Description:  changed
    Created:      Tue Nov 14 22:13:20 2023
    Type:         Kernel Image
    Compression:  uncompressed
    Data Size:    2 Bytes = 0.00 KiB = 0.00 MiB
    Architecture: ARM
    OS:           Linux
    Load Address: 0x00010000
    Entry Point:  0x00000061
    Hash algo:    crc32
    Hash value:   c2a92b38
   Default Configuration: 'c'
   Configuration 0 (c)
    Description:  c
    Kernel:       kernel
  $ mkimage -q -f whole.its /dev/null
  mkimage: /dev/null: L1 too short
  [1]
  $ dumpimage -p 0 -o part whole.itb && cat part; echo
  bc
  $ python3 - << 'END'
  > image = open("whole.itb", "rb").read()
  > print(b"/images/kernel\0" in image, bytes.fromhex("0000000123456789") in image, b"gone" in image)
  > END
  True True False

Reserved memory is in the blob, which is otherwise the same, also with payloads after it:

  $ printf '/dts-v1/;\n/memreserve/ 0x1000 (2 * 256);\na: b: /memreserve/ 0x123456789abcdef0 0xfedcba9876543210;\n' > reserved.its
  $ tail -n +2 whole.its >> reserved.its && mkimage -q -f reserved.its reserved.itb
  $ uimg info reserved.itb | grep -o '"reservations.*}],"images'
  "reservations":[{"address":4096,"size":512},{"address":1311768467463790320,"size":18364758544493064720}],"images
  $ od -An -v -tx1 -j8 -N12 reserved.itb && od -An -v -tx1 -j40 -N52 reserved.itb
   00 00 00 58 00 00 02 2c 00 00 00 28
   00 00 00 00 00 00 10 00 00 00 00 00 00 00 02 00
   12 34 56 78 9a bc de f0 fe dc ba 98 76 54 32 10
   00 00 00 00 00 00 00 00 00 00 00 00 00 00 00 00
   00 00 00 01
  $ cmp -i 56:88 whole.itb reserved.itb && uimg check reserved.itb
  reserved.itb: ok 1 payload, 1 hash
  $ for more in -E '-E -p 2000' '-E -B 40'; do mkimage -q $more -f whole.its plain.itb && mkimage -q $more -f reserved.its more.itb
  >   cmp -n 48 -i 40 more.itb reserved.itb && cmp -n 400 -i 56:88 plain.itb more.itb && uimg verify more.itb; done
  kernel hash-1 crc32 ok
  kernel hash-1 crc32 ok
  kernel hash-1 crc32 ok

The profile takes none of these, and its faults are as before:

  $ uimg mkimage -f whole.its other.itb
  uimg: I3 out of profile: directive at line 2
  [1]

A fault has the line of the source, and leaves what is there:

  $ printf '/dts-v1/;\n/ {\n  a = &nothing;\n};\n' > bad.its && mkimage -f bad.its whole.itb
  mkimage: bad.its: no such node at line 3
  [1]
  $ printf '/dts-v1/;\n/ {\n  a = <(1)>;\n  a = <2>;\n  b;\n};\n' > bad.its && mkimage -f bad.its whole.itb
  mkimage: bad.its: duplicate name at line 4
  [1]
  $ printf '/dts-v1/;\n/ {\n  x: a { y = <(1)>; };\n  x: b { };\n\n};\n' > bad.its && mkimage -f bad.its whole.itb
  mkimage: bad.its: duplicate name at line 4
  [1]
  $ printf '/dts-v1/;\n/ {\n  x: c { a@1; };\n  d { y = <&x>; };\n};\n' > bad.its && mkimage -f bad.its whole.itb
  mkimage: bad.its: bad name at line 3
  [1]
  $ printf '/dts-v1/;\n/ {\n  a { phandle = <(1)>; };\n  b { phandle = <1>; };\n};\n' > bad.its && mkimage -f bad.its whole.itb
  mkimage: bad.its: bad phandle at line 4
  [1]
  $ printf '/dts-v1/;\n/ {\n  z = <(1)>;\n  x: a {\n    p = <x: 1>;\n  };\n  x: d { };\n};\n' > bad.its && mkimage -f bad.its whole.itb
  mkimage: bad.its: duplicate name at line 5
  [1]
  $ printf '/dts-v1/;\n/ {\n  a { phandle = <(1)>; };\n  b {\n    c;\n    phandle = <1>; };\n};\n' > bad.its && mkimage -f bad.its whole.itb
  mkimage: bad.its: bad phandle at line 6
  [1]
  $ printf '/dts-v1/;\n/memreserve/ 0;\n/ { };\n' > bad.its && mkimage -f bad.its whole.itb
  mkimage: bad.its: bad syntax at line 2
  [1]
  $ printf '/dts-v1/;\n/include/ "self.its"\n' > self.its && mkimage -f self.its whole.itb
  mkimage: self.its: too many includes at line 2
  [1]
  $ { echo '/dts-v1/;'; for i in $(seq 200); do echo '/include/ "empty.dtsi"'; done; cat whole.its; } > many.its && : > empty.dtsi
  $ mkimage -f many.its whole.itb
  mkimage: many.its: too many includes at line 201
  [1]
  $ sed -i 2,3d many.its && mkimage -q -f many.its whole.itb; rm many.its empty.dtsi
  $ printf '/dts-v1/;\n/include/ "nothing.dtsi"\n/ { };\n' > lost.its && mkimage -f lost.its whole.itb
  mkimage: lost.its: cannot read nothing.dtsi, which line 2 names
  [3]
  $ printf '/dts-v1/;\n/include/ "whole.itb"\n/ { };\n' > own.its && mkimage -f own.its whole.itb
  mkimage: whole.itb would be written while it is read
  [2]
  $ cp whole.its input.its && mkimage -q -f - input.its < input.its
  mkimage: input.its would be written while it is read
  [2]
  $ cmp input.its whole.its && rm input.its

Files in other folders, and what would be looked for in another order than dtc's:

  $ mkdir more && echo '/include/ "b.dtsi"' > more/a.dtsi && echo '/ { };' > more/b.dtsi
  $ printf '/dts-v1/;\n/include/ "a.dtsi"\n' > search.its && mkimage -D '-i more' -q -f search.its found.itb
  mkimage: warning: /: it has no description
  mkimage: warning: /: it has no #address-cells
  mkimage: search.its: F1 no images
  [1]
  $ cp more/b.dtsi . && mkimage -D '-i more' -q -f search.its found.itb
  mkimage: search.its: a file that it includes is in several folders of -D -i
  [1]
  $ rm more/b.dtsi && mkimage -D '-i . -i more' -q -f search.its found.itb
  mkimage: warning: /: it has no description
  mkimage: warning: /: it has no #address-cells
  mkimage: search.its: F1 no images
  [1]
  $ mkimage -D '-@ -i more' -q -f search.its found.itb
  mkimage: -D: -@ is not supported for a source with labels; use mkimage of u-boot-tools
  [2]
  $ mkdir -p d inc/d && printf good > inc/p.bin && printf evil > inc/d/p.bin
  $ cat > d/a.dtsi << 'END'
  > / { images { k { description = "k"; data = /incbin/("p.bin"); type = "kernel"; arch = "arm"; os = "linux";
  >   compression = "none"; load = <0>; entry = <0>; }; };
  >   configurations { default = "c"; c { description = "c"; kernel = "k"; }; }; };
  > END
  $ printf '/dts-v1/;\n/ { description = "x"; #address-cells = <1>; };\n/include/ "d/a.dtsi"\n' > top.its
  $ mkimage -D '-i inc' -q -f top.its found.itb && dumpimage -p 0 -o part found.itb && cat part; echo
  good
  $ printf near > d/p.bin && mkimage -D '-i inc' -q -f top.its found.itb && dumpimage -p 0 -o part found.itb && cat part; echo
  near
  $ rm d/p.bin inc/p.bin && mkimage -D '-i inc' -q -f top.its found.itb
  mkimage: top.its: cannot read p.bin, which line 3 names
  [3]
  $ mkimage -q -f top.its /dev/null
  mkimage: top.its: cannot read p.bin, which line 3 names
  [3]
  $ rm -r d inc found.itb top.its more b.dtsi search.its
  $ mkimage -l whole.itb | head -n 1 && ls
  FIT description: of a part
  abc.bin
  bad.its
  dumpimage
  lost.its
  mkimage
  more.itb
  own.its
  part
  parts
  plain.itb
  reserved.itb
  reserved.its
  self.its
  whole.itb
  whole.its
