Names and codes
===============

  $ printf abc > abc.bin
  $ SOURCE_DATE_EPOCH=0
  $ export SOURCE_DATE_EPOCH

`made OPTION NAME AT` prints the code in the header at an offset, and its listing:

  $ made() {
  >     uimg mkimage $1 $2 -d abc.bin k.img > listing || return
  >     echo $2 $(od -An -v -tu1 -j $3 -N 1 k.img) "$(sed -n 's/^Image Type:   //p' listing)"
  > }

Operating systems:

  $ for os in netbsd linux vxworks qnx u-boot rtems plan9 arm-trusted-firmware tee opensbi efi; do made -O $os 28; done
  netbsd 2 PowerPC NetBSD Kernel Image (gzip compressed)
  linux 5 PowerPC Linux Kernel Image (gzip compressed)
  vxworks 14 PowerPC VxWorks Kernel Image (gzip compressed)
  qnx 16 PowerPC QNX Kernel Image (gzip compressed)
  u-boot 17 PowerPC U-Boot Kernel Image (gzip compressed)
  rtems 18 PowerPC RTEMS Kernel Image (gzip compressed)
  plan9 23 PowerPC Plan 9 Kernel Image (gzip compressed)
  arm-trusted-firmware 25 PowerPC ARM Trusted Firmware Kernel Image (gzip compressed)
  tee 26 PowerPC Trusted Execution Environment Kernel Image (gzip compressed)
  opensbi 27 PowerPC RISC-V OpenSBI Kernel Image (gzip compressed)
  efi 28 PowerPC EFI Firmware Kernel Image (gzip compressed)

Architectures:

  $ for arch in arm x86 mips mips64 ppc powerpc sandbox arm64 x86_64 riscv; do made -A $arch 29; done
  arm 2 ARM Linux Kernel Image (gzip compressed)
  x86 3 Intel x86 Linux Kernel Image (gzip compressed)
  mips 5 MIPS Linux Kernel Image (gzip compressed)
  mips64 6 MIPS 64 Bit Linux Kernel Image (gzip compressed)
  ppc 7 PowerPC Linux Kernel Image (gzip compressed)
  powerpc 7 PowerPC Linux Kernel Image (gzip compressed)
  sandbox 19 Sandbox Linux Kernel Image (gzip compressed)
  arm64 22 AArch64 Linux Kernel Image (gzip compressed)
  x86_64 24 AMD x86_64 Linux Kernel Image (gzip compressed)
  riscv 26 RISC-V Linux Kernel Image (gzip compressed)

Types:

  $ for type in standalone kernel ramdisk multi firmware script filesystem kernel_noload; do made -T $type 30; done
  standalone 1 PowerPC Linux Standalone Program (gzip compressed)
  kernel 2 PowerPC Linux Kernel Image (gzip compressed)
  ramdisk 3 PowerPC Linux RAMDisk Image (gzip compressed)
  multi 4 PowerPC Linux Multi-File Image (gzip compressed)
  firmware 5 PowerPC Linux Firmware (gzip compressed)
  script 6 PowerPC Linux Script (gzip compressed)
  filesystem 7 PowerPC Linux Filesystem Image (gzip compressed)
  kernel_noload 14 PowerPC Linux Kernel Image (no loading done) (gzip compressed)

Compressions:

  $ for comp in none gzip bzip2 lzma lzo lz4 zstd; do made -C $comp 31; done
  none 0 PowerPC Linux Kernel Image (uncompressed)
  gzip 1 PowerPC Linux Kernel Image (gzip compressed)
  bzip2 2 PowerPC Linux Kernel Image (bzip2 compressed)
  lzma 3 PowerPC Linux Kernel Image (lzma compressed)
  lzo 4 PowerPC Linux Kernel Image (lzo compressed)
  lz4 5 PowerPC Linux Kernel Image (lz4 compressed)
  zstd 6 PowerPC Linux Kernel Image (zstd compressed)

The notes of the help have exactly these names: each is accepted, and their number is the same.

  $ notes() { uimg mkimage --help | sed -n "/^  <$1> /,/^  <$2>\|^\$/p" | grep -v "^  <$2>" | sed 's/<[a-z]*>//; s/(not for -d)//'; }
  $ for arch in $(notes arch os); do uimg mkimage -A $arch -d abc.bin k.img > /dev/null && echo $arch; done | wc -l
  10
  $ for os in $(notes os type); do uimg mkimage -O $os -d abc.bin k.img > /dev/null && echo $os; done | wc -l
  11
  $ for type in $(notes type comp); do uimg mkimage -T $type -d abc.bin k.img > /dev/null && echo $type; done | wc -l
  uimg: flat_dt needs -f
  8
  $ for comp in $(notes comp none); do uimg mkimage -C $comp -d abc.bin k.img > /dev/null && echo $comp; done | wc -l
  7
  $ echo $(notes type comp)
  standalone kernel ramdisk multi firmware script filesystem flat_dt kernel_noload
  $ echo $(uimg dumpimage --help | sed -n '/^  <type>/,/^$/p' | sed 's/<type>//')
  standalone kernel ramdisk multi firmware script filesystem flat_dt kernel_noload

Codes outside the tables are listed as unknown. The checksum of this header is zlib's:

  $ printf '\047\005\031\126\246\340\136\077\0\0\0\0\0\0\0\0\0\0\0\0\0\0\0\0\0\0\0\0\377\377\377\377' > unknown.img
  $ head -c 32 /dev/zero >> unknown.img
  $ uimg dumpimage -l unknown.img
  Image Name:   
  Created:      Thu Jan  1 00:00:00 1970
  Image Type:   Unknown Architecture Unknown OS Unknown Image (Unknown Compression)
  Data Size:    0 Bytes = 0.00 KiB = 0.00 MiB
  Load Address: 00000000
  Entry Point:  00000000
