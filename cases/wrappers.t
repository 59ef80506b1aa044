The wrappers mkimage and dumpimage
==================================

They call uimg by its old names, and U-Boot's own tools for what uimg does not do. Here these are scripts.

  $ export SOURCE_DATE_EPOCH=1700000000 UIMG_WRAPPER_LOG=$PWD/log
  $ mkdir names original && for name in mkimage dumpimage; do ln -s "$(command -v uimg)" names/uimg-$name; done
  $ cat > original/mkimage << 'EOF'
  > #!/bin/sh
  > # Signs the last word by appending a line, or fails.
  > for image; do :; done
  > echo "original: $*" | sed 's/uimg-sign[0-9A-Za-z]*/uimg-signN/'
  > test ! -e failing || exit 255
  > case " $* " in *' -F '*) echo signed >> "$image" && echo "Signature written to '$image'" ;; esac
  > EOF
  $ cp original/mkimage original/dumpimage && chmod 755 original/*
  $ PATH=$TESTDIR/../wrappers:$PWD/names:$PWD/original:$PATH
  $ way() { : > log; "$@" > output 2>&1; status=$?; grep -a original: output; cut -f 1 log; return $status; }
  $ printf 'hello world\n' > d && printf 'no image of uimg\n' > other
  $ cp "$TESTDIR/../examples/kernel.its" "$TESTDIR/../examples/abc.bin" .

What needs no key and no board's format is made, listed and extracted by uimg:

  $ way mkimage -A arm -T kernel -d d uimage
  uimg
  $ way mkimage -f kernel.its image.itb
  uimg
  $ way mkimage -r -o sha256,rsa2048 -g none -E -f kernel.its external.itb
  uimg
  $ way mkimage -k keys -A arm -d d uimage
  uimg
  $ way mkimage -l uimage && way mkimage -l -T kernel uimage && way dumpimage -l image.itb
  uimg
  uimg
  uimg
  $ way dumpimage -T kernel -o payload uimage && cmp payload d
  uimg
  $ mkimage -V
  mkimage version 2023.01
  uimg 0.1.0

So is what is no command line, or names no file:

  $ way mkimage -k; cat output
  uimg
  mkimage: option '-k' needs a value
  $ way mkimage --nosuch -k keys -f kernel.its out; cat output
  uimg
  mkimage: unknown option '--nosuch'
  $ way mkimage -T nosuch -d d out; tail -n 1 output
  uimg
  mkimage: -T: unknown image type 'nosuch'; mkimage -T list prints all names
  $ way dumpimage -l nothing; cat output
  uimg
  dumpimage: cannot read nothing: No such file or directory (os error 2)

Board formats go to the original whole:

  $ way mkimage -T imximage -n 'a b' -d d out
  original: -T imximage -n a b -d d out
  original
  $ way mkimage --type=RKSD -d d out
  original: --type=RKSD -d d out
  original
  $ way mkimage -l other
  original: -l other
  original
  $ way mkimage -lT kwbimage uimage
  original: -lT kwbimage uimage
  original
  $ way dumpimage -T stm32image -o out other
  original: -T stm32image -o out other
  original
  $ way dumpimage -l other
  original: -l other
  original
  $ way mkimage -T imximage -f kernel.its out
  uimg

A source with crc16-ccitt, and an update of its image, are uimg's:

  $ sed 's/"crc32"/"crc16-ccitt"/' kernel.its > crc16.its && way mkimage -q -f crc16.its crc16.itb
  uimg
  $ way mkimage -q -F crc16.itb && rm crc16.its crc16.itb
  uimg

An image with signatures is made by uimg without placement, then signed and placed by the original under a temporary
name. What that prints has the image's name:

  $ way mkimage -D '-i none' -f kernel.its -E -p 1000 -B40 -k 'my keys' -K keys.dtb -r -c "it's" -N pkcs11 signed.itb
  original: -F -E -p 1000 -B 40 -k my keys -K keys.dtb -r -c it's -N pkcs11 -- ./signed.itb.uimg-signN/image
  split
  $ tail -n 1 output
  Signature written to 'signed.itb'
  $ cp image.itb wanted && echo signed >> wanted && cmp signed.itb wanted && rm wanted
  $ way mkimage --key-file=key --fit kernel.its -- signed.itb
  original: -F -G key -- ./signed.itb.uimg-signN/image
  split
  $ touch key && way mkimage -g key -f kernel.its signed.itb
  original: -F -g key -- ./signed.itb.uimg-signN/image
  split
  $ way mkimage -k keys -f - signed.itb < kernel.its
  original: -F -k keys -- ./signed.itb.uimg-signN/image
  split
  $ cat log
  split\tmkimage -k keys -f - signed.itb (esc)

An image that exists is signed by the original, and so is one of -f auto whose nodes name a key:

  $ cp image.itb again.itb && way mkimage -F -k keys again.itb
  original: -F -k keys again.itb
  original
  $ way mkimage -f auto -g dev -o sha256,rsa2048 -k keys -d d out
  original: -f auto -g dev -o sha256,rsa2048 -k keys -d d out
  original

If a step fails, the image is what it was, and no other file is left:

  $ touch failing && ls > before
  $ cp signed.itb kept && way mkimage -k keys -f kernel.its signed.itb
  original: -F -k keys -- ./signed.itb.uimg-signN/image
  split
  [255]
  $ cmp signed.itb kept && rm kept
  $ way mkimage -k keys -f nothing signed.itb; cat output
  split
  mkimage: cannot read nothing: No such file or directory (os error 2)
  $ way mkimage -k keys -f kernel.its new.itb
  original: -F -k keys -- ./new.itb.uimg-signN/image
  split
  [255]
  $ way mkimage -k keys -f kernel.its /dev/null; cat output
  split
  mkimage: cannot write /dev/null: it is no regular file
  $ ls | diff before - && rm failing

The original is the next one on PATH that is neither the wrapper nor uimg, or the one that is named:

  $ ln -s "$(command -v uimg)" names/mkimage && way mkimage -T rksd -d d out
  original: -T rksd -d d out
  original
  $ printf '#!/bin/sh\necho original: named\n' > other-tool && chmod 755 other-tool
  $ UIMG_ORIGINAL_MKIMAGE=$PWD/other-tool way mkimage -T rksd -d d out
  original: named
  original

An image that is one of the files that it is made of is refused, and a name may begin with a dash:

  $ cp kernel.its own.its && mkimage -q -k keys -f own.its own.its
  mkimage: own.its would be written while it is read
  [2]
  $ mkimage -q -k keys -f kernel.its abc.bin
  mkimage: abc.bin would be written while it is read
  [2]
  $ cmp own.its kernel.its && wc -c < abc.bin && ls -d *uimg-sign*
  3
  ls: cannot access '*uimg-sign*': No such file or directory
  [2]
  $ mkimage -q -k keys -f kernel.its -- -o.itb > /dev/null && tail -c 7 ./-o.itb
  signed
  $ mkimage -q -k keys -f kernel.its full.itb > /dev/full; echo $?; tail -c 7 full.itb
  mkimage: write failed
  3
  signed

Without U-Boot's tools, by a name that is none of theirs, and with wrappers in two folders, none calls the other:

  $ (PATH=$TESTDIR/../wrappers:$PWD/names:/usr/bin:/bin; rm -rf second; cp -r "$TESTDIR/../wrappers" second
  >  UIMG_ORIGINAL_MKIMAGE=$PWD/nothing mkimage -q -k keys -f kernel.its new.itb)
  mkimage: cannot run */nothing (glob)
  [3]
  $ (mkdir -p only && for it in sh readlink dirname sed od tr awk; do ln -sf "$(command -v $it)" only/$it; done
  >  PATH=$TESTDIR/../wrappers:$PWD/second:$PWD/names:$PWD/only; mkimage -l other; mkimage -q -k keys -f kernel.its new.itb)
  mkimage: other: L1 too short
  mkimage: signing needs mkimage of u-boot-tools, which is not on PATH
  [3]
