Making of FIT images
====================

  $ files="$TESTDIR/files"
  $ printf abc > abc.bin
  $ SOURCE_DATE_EPOCH=0
  $ export SOURCE_DATE_EPOCH
  $ cat > k.its <<'EOF'
  > /dts-v1/;
  > / {
  > 	description = "demo";
  > 	#address-cells = <1>;
  > 	images {
  > 		kernel {
  > 			description = "k";
  > 			data = /incbin/("abc.bin");
  > 			type = "kernel";
  > 			arch = "arm64";
  > 			os = "linux";
  > 			compression = "none";
  > 			load = <0x80000>;
  > 			entry = <0x80000>;
  > 			hash-1 { algo = "crc32"; };
  > 			hash-2 { algo = "md5"; };
  > 			hash-3 { algo = "sha1"; };
  > 			hash-4 { algo = "sha256"; };
  > 		};
  > 	};
  > 	configurations {
  > 		default = "conf";
  > 		conf {
  > 			description = "c";
  > 			kernel = "kernel";
  > 		};
  > 	};
  > };
  > EOF

four-hash-fit:

  $ uimg mkimage -f k.its k.itb
  FIT description: demo
  Created:         Thu Jan  1 00:00:00 1970
   Image 0 (kernel)
    Description:  k
    Created:      Thu Jan  1 00:00:00 1970
    Type:         Kernel Image
    Compression:  uncompressed
    Data Size:    3 Bytes = 0.00 KiB = 0.00 MiB
    Architecture: AArch64
    OS:           Linux
    Load Address: 0x00080000
    Entry Point:  0x00080000
    Hash algo:    crc32
    Hash value:   352441c2
    Hash algo:    md5
    Hash value:   900150983cd24fb0d6963f7d28e17f72
    Hash algo:    sha1
    Hash value:   a9993e364706816aba3e25717850c26c9cd0d89d
    Hash algo:    sha256
    Hash value:   ba7816bf8f01cfea414140de5dae2223b00361a396177a9cb410ff61f20015ad
   Default Configuration: 'conf'
   Configuration 0 (conf)
    Description:  c
    Kernel:       kernel
  $ cmp k.itb "$files/four-hash-fit.itb"
  $ wc -c < k.itb
  760
  $ od -An -v -tx1 -N 40 k.itb
   d0 0d fe ed 00 00 02 f8 00 00 00 38 00 00 02 90
   00 00 00 28 00 00 00 11 00 00 00 10 00 00 00 00
   00 00 00 68 00 00 02 58
  $ uimg verify k.itb
  kernel hash-1 crc32 ok
  kernel hash-2 md5 ok
  kernel hash-3 sha1 ok
  kernel hash-4 sha256 ok
  $ uimg dumpimage -p 0 -o out k.itb && cat out
  abc (no-eol)
  $ uimg dumpimage -p 1 -o out k.itb
  uimg: F4 no such image
  [1]

-p without -E, and options of -d, have no effect:

  $ uimg mkimage -p 400 -f k.its same.itb > listing && cmp same.itb k.itb
  $ uimg mkimage -A x -T flat_dt -a x -f k.its same.itb > listing && cmp same.itb k.itb

external-fit:

  $ uimg mkimage -f k.its -E e.itb
  FIT description: demo
  Created:         Thu Jan  1 00:00:00 1970
   Image 0 (kernel)
    Description:  k
    Created:      Thu Jan  1 00:00:00 1970
    Type:         Kernel Image
    Compression:  uncompressed
    Data Size:    3 Bytes = 0.00 KiB = 0.00 MiB
    Architecture: AArch64
    OS:           Linux
    Load Address: 0x00080000
    Entry Point:  0x00080000
    Hash algo:    crc32
    Hash value:   352441c2
    Hash algo:    md5
    Hash value:   900150983cd24fb0d6963f7d28e17f72
    Hash algo:    sha1
    Hash value:   a9993e364706816aba3e25717850c26c9cd0d89d
    Hash algo:    sha256
    Hash value:   ba7816bf8f01cfea414140de5dae2223b00361a396177a9cb410ff61f20015ad
   Default Configuration: 'conf'
   Configuration 0 (conf)
    Description:  c
    Kernel:       kernel
  $ cmp e.itb "$files/external-fit.itb"
  $ wc -c < e.itb
  800
  $ uimg verify e.itb
  kernel hash-1 crc32 ok
  kernel hash-2 md5 ok
  kernel hash-3 sha1 ok
  kernel hash-4 sha256 ok
  $ uimg dumpimage -o out e.itb && cat out
  abc (no-eol)
  $ tail -c 4 e.itb | od -An -tx1
   61 62 63 00
  $ uimg mkimage -f k.its -E -p 0 same.itb > listing && cmp same.itb e.itb

position-fit:

  $ uimg mkimage -f k.its -E -p 400 p.itb
  FIT description: demo
  Created:         Thu Jan  1 00:00:00 1970
   Image 0 (kernel)
    Description:  k
    Created:      Thu Jan  1 00:00:00 1970
    Type:         Kernel Image
    Compression:  uncompressed
    Data Size:    3 Bytes = 0.00 KiB = 0.00 MiB
    Architecture: AArch64
    OS:           Linux
    Load Address: 0x00080000
    Entry Point:  0x00080000
    Hash algo:    crc32
    Hash value:   352441c2
    Hash algo:    md5
    Hash value:   900150983cd24fb0d6963f7d28e17f72
    Hash algo:    sha1
    Hash value:   a9993e364706816aba3e25717850c26c9cd0d89d
    Hash algo:    sha256
    Hash value:   ba7816bf8f01cfea414140de5dae2223b00361a396177a9cb410ff61f20015ad
   Default Configuration: 'conf'
   Configuration 0 (conf)
    Description:  c
    Kernel:       kernel
  $ cmp p.itb "$files/position-fit.itb"
  $ wc -c < p.itb
  1028
  $ uimg verify p.itb
  kernel hash-1 crc32 ok
  kernel hash-2 md5 ok
  kernel hash-3 sha1 ok
  kernel hash-4 sha256 ok
  $ uimg dumpimage -o out p.itb && cat out
  abc (no-eol)
  $ uimg mkimage -p 0x400 -E -f k.its same.itb > listing && cmp same.itb p.itb
  $ uimg mkimage -f k.its -E -p 31c low.itb > listing && wc -c < low.itb
  800
  $ uimg verify low.itb
  kernel hash-1 crc32 ok
  kernel hash-2 md5 ok
  kernel hash-3 sha1 ok
  kernel hash-4 sha256 ok
  $ for position in 1 300 31b; do uimg mkimage -f k.its -E -p $position none.itb; done
  uimg: F6 position too low
  uimg: F6 position too low
  uimg: F6 position too low
  [1]
  $ uimg mkimage -f k.its -E -p ffffffff none.itb
  uimg: F7 too large
  [1]
  $ test -e none.itb
  [1]

configurations-first: the listing is the same, byte for byte.

  $ { sed -n '1,4p' k.its; sed -n '21,27p' k.its; sed -n '5,20p' k.its; echo '};'; } > first.its
  $ sed -n '5,8p' first.its
  \tconfigurations { (esc)
  \t\tdefault = "conf"; (esc)
  \t\tconf { (esc)
  \t\t\tdescription = "c"; (esc)
  $ uimg mkimage -f first.its first.itb
  FIT description: demo
  Created:         Thu Jan  1 00:00:00 1970
   Image 0 (kernel)
    Description:  k
    Created:      Thu Jan  1 00:00:00 1970
    Type:         Kernel Image
    Compression:  uncompressed
    Data Size:    3 Bytes = 0.00 KiB = 0.00 MiB
    Architecture: AArch64
    OS:           Linux
    Load Address: 0x00080000
    Entry Point:  0x00080000
    Hash algo:    crc32
    Hash value:   352441c2
    Hash algo:    md5
    Hash value:   900150983cd24fb0d6963f7d28e17f72
    Hash algo:    sha1
    Hash value:   a9993e364706816aba3e25717850c26c9cd0d89d
    Hash algo:    sha256
    Hash value:   ba7816bf8f01cfea414140de5dae2223b00361a396177a9cb410ff61f20015ad
   Default Configuration: 'conf'
   Configuration 0 (conf)
    Description:  c
    Kernel:       kernel
  $ wc -c < first.itb
  760
  $ uimg verify first.itb
  kernel hash-1 crc32 ok
  kernel hash-2 md5 ok
  kernel hash-3 sha1 ok
  kernel hash-4 sha256 ok

five-hash-fit, and changed-five-hash:

  $ sed '/hash-4/ a hash-5 { algo = "sha512"; };' k.its > five.its
  $ uimg mkimage -f five.its five.itb | grep -A 1 sha512
    Hash algo:    sha512
    Hash value:   ddaf35a193617abacc417349ae20413112e6fa4e89a97ea20a9eeee64b55d39a2192992a274fc1a836ba3c23a3feebbd454d4423643ce80e2a9ac94fa54ca49f
  $ cmp five.itb "$files/five-hash-fit.itb"
  $ wc -c < five.itb
  872
  $ printf b | dd of=five.itb bs=1 seek=168 conv=notrunc status=none
  $ uimg verify five.itb
  kernel hash-1 crc32 bad
  kernel hash-2 md5 bad
  kernel hash-3 sha1 bad
  kernel hash-4 sha256 bad
  kernel hash-5 sha512 bad
  [1]

changed-payload:

  $ printf b | dd of=k.itb bs=1 seek=168 conv=notrunc status=none
  $ uimg verify k.itb
  kernel hash-1 crc32 bad
  kernel hash-2 md5 bad
  kernel hash-3 sha1 bad
  kernel hash-4 sha256 bad
  [1]

two-cell-addresses:

  $ sed 's/load = .*/load = <0x1 0x80000000>;/; s/entry = .*/entry = <0 0x80000>;/' k.its > two.its
  $ uimg mkimage -f two.its two.itb | grep -A 1 'Load Address'
    Load Address: 0x180000000
    Entry Point:  0x00080000
  $ cmp two.itb "$files/two-cell-addresses.itb"
  $ printf b | dd of=two.itb bs=1 seek=168 conv=notrunc status=none
  $ uimg verify two.itb
  kernel hash-1 crc32 bad
  kernel hash-2 md5 bad
  kernel hash-3 sha1 bad
  kernel hash-4 sha256 bad
  [1]

sha384, by sha384sum:

  $ sed 's/sha256/sha384/' k.its > sha384.its
  $ uimg mkimage -f sha384.its sha384.itb | grep -c "Hash value:   $(sha384sum abc.bin | cut -d ' ' -f 1)"
  1

Payloads of about a window's length, written in each way, come back with each placement. The source
and its files are in another folder:

  $ mkdir payloads
  $ seq 1 3000 > numbers
  $ for length in 0 3 8191 8192 8193; do head -c $length numbers > payloads/$length.bin; done
  $ cat > payloads/all.its <<'EOF'
  > /dts-v1/;
  > / {
  >     images {
  >         empty { data = /incbin/("0.bin"); hash { algo = "crc32"; }; };
  >         under { data = /incbin/("8191.bin"); hash { algo = "md5"; }; };
  >         full { data = /incbin/("8192.bin"); hash { algo = "sha1"; }; };
  >         over { data = /incbin/("8193.bin"); hash { algo = "sha256"; }; };
  >         again { data = /incbin/("8193.bin");
  >             hash-1 { algo = "crc32"; }; hash-2 { algo = "md5"; }; hash-3 { algo = "sha1"; };
  >             hash-4 { algo = "sha256"; }; hash-5 { algo = "sha384"; }; hash-6 { algo = "sha512"; };
  >             hash-7 { algo = "crc32"; }; hash-8 { algo = "md5"; }; hash-9 { algo = "sha512"; };
  >         };
  >         none { data = /incbin/("8193.bin"); };
  >         root { data = /incbin/("/dev/null"); hash { algo = "crc32"; }; };
  >         cells { data = <0x61626364 1>; hash { algo = "crc32"; }; };
  >         bytes { data = [61 6263]; hash { value = [00]; algo = "crc32"; }; };
  >         text { data = "ab", "c"; other { algo = "x"; }; };
  >         mixed { data = [61], /incbin/("3.bin"); hash { algo = "crc32"; }; };
  >         twice { data = [61]; data = /incbin/("3.bin"); hash { algo = "crc32"; }; };
  >         placed { data-offset = <1>; data-size = <2>; data = [61]; data-position = <3>; hash { algo = "crc32"; }; };
  >     };
  > };
  > EOF
  $ cat > report <<'EOF'
  > empty hash crc32 ok
  > under hash md5 ok
  > full hash sha1 ok
  > over hash sha256 ok
  > again hash-1 crc32 ok
  > again hash-2 md5 ok
  > again hash-3 sha1 ok
  > again hash-4 sha256 ok
  > again hash-5 sha384 ok
  > again hash-6 sha512 ok
  > again hash-7 crc32 ok
  > again hash-8 md5 ok
  > again hash-9 sha512 ok
  > none - none unhashed
  > root hash crc32 ok
  > cells hash crc32 ok
  > bytes hash crc32 ok
  > text - none unhashed
  > mixed hash crc32 ok
  > twice hash crc32 ok
  > placed hash crc32 ok
  > EOF
  $ cells() { printf 'abcd\0\0\0\1'; }
  $ text() { printf 'ab\0c\0'; }
  $ mixed() { printf a; cat payloads/3.bin; }
  $ unpacks() {
  >     uimg verify all.itb | cmp - report
  >     part=0
  >     for length in 0 8191 8192 8193 8193 8193 0; do
  >         uimg dumpimage -p $part -o out all.itb && cmp out payloads/$length.bin
  >         part=$((part + 1))
  >     done
  >     uimg dumpimage -p 7 -o out all.itb && cells | cmp - out
  >     uimg dumpimage -p 8 -o out all.itb && printf abc | cmp - out
  >     uimg dumpimage -p 9 -o out all.itb && text | cmp - out
  >     uimg dumpimage -p 10 -o out all.itb && mixed | cmp - out
  >     uimg dumpimage -p 11 -o out all.itb && printf a | cmp - out
  >     uimg dumpimage -p 12 -o out all.itb && printf a | cmp - out
  > }
  $ uimg mkimage -f payloads/all.its all.itb > listing && unpacks
  $ uimg mkimage -f payloads/all.its -E all.itb > listing && unpacks
  $ uimg mkimage -f payloads/all.its -E -p 10000 all.itb > listing && unpacks

mixed-values is no FIT image, but it compiles to the same blob as with dtc: its values are in an image's data.

  $ cat > mixed.its <<'EOF'
  > /dts-v1/;
  > // sample
  > / {
  >     /* mixed */
  >     images { a { lab: data = "a", <1 0x2>, [00 ff]; e; }; };
  > };
  > EOF
  $ uimg mkimage -f mixed.its mixed.itb > listing && uimg dumpimage -o out mixed.itb && od -An -tx1 out
   61 00 00 00 00 01 00 00 00 02 00 ff

Numbers and strings of a source:

  $ cells() {
  >     printf '%s\n' "/dts-v1/; / { images { a { data = $1; }; }; };" > cells.its
  >     uimg mkimage -f cells.its cells.itb > listing && uimg dumpimage -o out cells.itb && od -An -tx1 out
  > }
  $ cells '<0xffffffff 010>'
   ff ff ff ff 00 00 00 08
  $ cells '<>, [], "\0"'
   00 00
  $ cells '"\\\"\n\t\r\x41"'
   5c 22 0a 09 0d 41 00

file-values: a value that is one file, and the same file before other bytes:

  $ cells '/incbin/("abc.bin")'
   61 62 63
  $ cells '/incbin/("abc.bin"), [00]'
   61 62 63 00
