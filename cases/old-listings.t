Listings of FIT images by the names of mkimage and dumpimage
============================================================

The listings are those of mkimage 2023.01. Some types have no architecture, system or addresses, and a property that
mkimage always prints is unavailable if it is missing.

  $ export SOURCE_DATE_EPOCH=1700000000
  $ for name in mkimage dumpimage; do ln -s "$(command -v uimg)" $name; done
  $ PATH=$PWD:$PATH && printf 'abc\n' > abc.bin

  $ cat > all.its << 'END'
  > /dts-v1/;
  > / {
  >   description = "all";
  >   images {
  >     kernel { description = "k"; data = /incbin/("abc.bin"); type = "kernel"; arch = "arm"; os = "linux"; compression = "none"; load = <0x1000>; entry = <0x2000>;
  >       hash-1 { algo = "crc32"; };
  >       signature-1 { algo = "sha256,rsa2048"; key-name-hint = "dev"; required = "image"; padding = "pss"; };
  >       signature-2 { algo = "sha1,rsa2048"; }; };
  >     standalone { description = "s"; data = /incbin/("abc.bin"); type = "standalone"; arch = "arm"; os = "linux"; compression = "none"; load = <0x1000>; entry = <0x2000>; };
  >     ramdisk { data = /incbin/("abc.bin"); type = "ramdisk"; arch = "arm"; os = "linux"; compression = "gzip"; };
  >     firmware { description = "f"; data = /incbin/("abc.bin"); type = "firmware"; arch = "arm64"; os = "arm-trusted-firmware"; compression = "none"; load = <0x0 0x1000>; };
  >     fdt-1 { description = "d"; data = /incbin/("abc.bin"); type = "flat_dt"; arch = "arm"; compression = "none"; };
  >     fdt-2 { description = "d"; data = /incbin/("abc.bin"); type = "flat_dt"; arch = "arm"; compression = "none"; load = <0x3000>; };
  >     fpga { description = "g"; data = /incbin/("abc.bin"); type = "fpga"; arch = "arm"; compression = "none"; load = <0x4000>; };
  >     script { description = "b"; data = /incbin/("abc.bin"); type = "script"; arch = "arm"; os = "linux"; compression = "none"; load = <0x4000>; hash-1 { algo = "sha1"; }; };
  >     noload { description = "n"; data = /incbin/("abc.bin"); type = "kernel_noload"; arch = "arm"; os = "linux"; compression = "none"; load = <0>; entry = <0>; };
  >     odd { data = /incbin/("abc.bin"); type = "Foo"; };
  >     none { data = /incbin/("abc.bin"); };
  >   };
  >   configurations {
  >     default = "c-1";
  >     c-1 { description = "c"; kernel = "kernel"; ramdisk = "ramdisk"; firmware = "firmware"; fdt = "fdt-1", "fdt-2"; fpga = "fpga"; loadables = "standalone", "script"; script = "script";
  >       hash-1 { algo = "sha256"; };
  >       signature-1 { algo = "sha256,rsa2048"; key-name-hint = "dev"; sign-images = "kernel"; }; };
  >     c-2 { fdt = "fdt-1"; };
  >   };
  > };
  > END
  $ mkimage -q -f all.its all.itb 2> /dev/null && mkimage -l all.itb
  FIT description: all
  Created:         Tue Nov 14 22:13:20 2023
   Image 0 (kernel)
    Description:  k
    Created:      Tue Nov 14 22:13:20 2023
    Type:         Kernel Image
    Compression:  uncompressed
    Data Size:    4 Bytes = 0.00 KiB = 0.00 MiB
    Architecture: ARM
    OS:           Linux
    Load Address: 0x00001000
    Entry Point:  0x00002000
    Hash algo:    crc32
    Hash value:   4788814e
    Sign algo:    sha256,rsa2048:dev (required)
    Sign padding: pss
    Sign value:   unavailable
    Timestamp:    unavailable
    Sign algo:    sha1,rsa2048
    Sign value:   unavailable
   Image 1 (standalone)
    Description:  s
    Created:      Tue Nov 14 22:13:20 2023
    Type:         Standalone Program
    Compression:  uncompressed
    Data Size:    4 Bytes = 0.00 KiB = 0.00 MiB
    Architecture: ARM
    Load Address: 0x00001000
    Entry Point:  0x00002000
   Image 2 (ramdisk)
    Description:  unavailable
    Created:      Tue Nov 14 22:13:20 2023
    Type:         RAMDisk Image
    Compression:  gzip compressed
    Data Size:    4 Bytes = 0.00 KiB = 0.00 MiB
    Architecture: ARM
    OS:           Linux
    Load Address: unavailable
    Entry Point:  unavailable
   Image 3 (firmware)
    Description:  f
    Created:      Tue Nov 14 22:13:20 2023
    Type:         Firmware
    Compression:  uncompressed
    Data Size:    4 Bytes = 0.00 KiB = 0.00 MiB
    Architecture: AArch64
    OS:           ARM Trusted Firmware
    Load Address: 0x00001000
   Image 4 (fdt-1)
    Description:  d
    Created:      Tue Nov 14 22:13:20 2023
    Type:         Flat Device Tree
    Compression:  uncompressed
    Data Size:    4 Bytes = 0.00 KiB = 0.00 MiB
    Architecture: ARM
   Image 5 (fdt-2)
    Description:  d
    Created:      Tue Nov 14 22:13:20 2023
    Type:         Flat Device Tree
    Compression:  uncompressed
    Data Size:    4 Bytes = 0.00 KiB = 0.00 MiB
    Architecture: ARM
    Load Address: 0x00003000
   Image 6 (fpga)
    Description:  g
    Created:      Tue Nov 14 22:13:20 2023
    Type:         FPGA Image
    Compression:  uncompressed
    Data Size:    4 Bytes = 0.00 KiB = 0.00 MiB
    Load Address: 0x00004000
   Image 7 (script)
    Description:  b
    Created:      Tue Nov 14 22:13:20 2023
    Type:         Script
    Compression:  uncompressed
    Data Size:    4 Bytes = 0.00 KiB = 0.00 MiB
    Hash algo:    sha1
    Hash value:   03cfd743661f07975fa2f1220c5194cbaff48451
   Image 8 (noload)
    Description:  n
    Created:      Tue Nov 14 22:13:20 2023
    Type:         Kernel Image (no loading done)
    Compression:  uncompressed
    Data Size:    4 Bytes = 0.00 KiB = 0.00 MiB
   Image 9 (odd)
    Description:  unavailable
    Created:      Tue Nov 14 22:13:20 2023
    Type:         Unknown Image
    Compression:  uncompressed
    Data Size:    4 Bytes = 0.00 KiB = 0.00 MiB
   Image 10 (none)
    Description:  unavailable
    Created:      Tue Nov 14 22:13:20 2023
    Type:         Unknown Image
    Compression:  uncompressed
    Data Size:    4 Bytes = 0.00 KiB = 0.00 MiB
   Default Configuration: 'c-1'
   Configuration 0 (c-1)
    Description:  c
    Kernel:       kernel
    Init Ramdisk: ramdisk
    Firmware:     firmware
    FDT:          fdt-1
                  fdt-2
    FPGA:         fpga
    Loadables:    standalone
                  script
    Hash algo:    sha256
    Hash value:   unavailable
    Sign algo:    sha256,rsa2048:dev
    Sign value:   unavailable
    Timestamp:    unavailable
   Configuration 1 (c-2)
    Description:  unavailable
    Kernel:       unavailable
    FDT:          fdt-1
  $ dumpimage -l all.itb > listed && mkimage -l all.itb | cmp - listed

The profile names no signature, and prints each property that an image has:

  $ uimg dumpimage -l all.itb | grep -c 'Sign\|Firmware:\|FPGA:\|unavailable'
  0
  [1]
  $ uimg dumpimage -l all.itb | grep -c 'OS:\|Load Address:'
  13
