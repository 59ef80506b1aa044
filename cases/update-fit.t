The update of a FIT image by the name of mkimage
================================================

The trees are those that mkimage 2023.01 makes; the digests are those of coreutils and of the standards.

  $ export SOURCE_DATE_EPOCH=1700000000
  $ for name in mkimage dumpimage; do ln -s "$(command -v uimg)" $name; done
  $ PATH=$PWD:$PATH
  $ cp "$TESTDIR/../examples/kernel.its" "$TESTDIR/../examples/abc.bin" .
  $ mkimage -q -f kernel.its image.itb && cp image.itb old.itb
  $ printf xyz > abc.bin && mkimage -q -f kernel.its wanted.itb

The payload is another one now, so the hashes are wrong:

  $ printf xyz | dd of=image.itb bs=1 seek=168 conv=notrunc status=none
  $ uimg verify image.itb
  kernel hash-1 crc32 bad
  kernel hash-2 md5 bad
  kernel hash-3 sha1 bad
  kernel hash-4 sha256 bad
  [1]

-F sets them, and nothing else:

  $ mkimage -F image.itb | grep -A1 'sha1\|sha256'
    Hash algo:    sha1
    Hash value:   66b27417d37e024c46526c2f6d358a754fc552f3
    Hash algo:    sha256
    Hash value:   3608bca1e44ea6c4d268eb6db02260269892c0b42b86bbf1e77a6fa16c3c9282
  $ printf xyz | sha1sum; printf xyz | sha256sum
  66b27417d37e024c46526c2f6d358a754fc552f3  -
  3608bca1e44ea6c4d268eb6db02260269892c0b42b86bbf1e77a6fa16c3c9282  -
  $ cmp image.itb wanted.itb

-t sets the timestamp too, which is kept otherwise:

  $ SOURCE_DATE_EPOCH=1 mkimage -t -F image.itb | sed -n 2p
  Created:         Thu Jan  1 00:00:01 1970
  $ SOURCE_DATE_EPOCH=2 mkimage -F image.itb | sed -n 2p
  Created:         Thu Jan  1 00:00:01 1970
  $ mkimage -q --update --touch image.itb && cmp image.itb wanted.itb

The payloads come after the blob:

  $ mkimage -q -E -f kernel.its after.itb && mkimage -q -E -p 1000 -f kernel.its at.itb
  $ mkimage -q -E -B 40 -f kernel.its aligned.itb
  $ mkimage -q -E -F image.itb && cmp image.itb after.itb
  $ cp wanted.itb image.itb && mkimage -q -E -p 1000 -F image.itb && cmp image.itb at.itb
  $ cp wanted.itb image.itb && mkimage -q -E -B 40 -F image.itb && cmp image.itb aligned.itb

Or into it again, each in its old place:

  $ cp after.itb image.itb && mkimage -F image.itb | sed -n 8p
    Data Size:    3 Bytes = 0.00 KiB = 0.00 MiB
  $ cmp image.itb wanted.itb
  $ cp after.itb image.itb && mkimage -q -E -F image.itb && cmp image.itb after.itb
  $ mkimage -q -E -p 1000 -F image.itb && cmp image.itb at.itb
  $ cp aligned.itb image.itb && mkimage -q -F image.itb && cmp image.itb wanted.itb

A blob that needs more bytes gets 1024, as mkimage gives them. What does not need them is packed:

  $ sed 's/value/valux/' wanted.itb > bare.itb && wc -c < bare.itb
  760
  $ mkimage -q -F bare.itb && wc -c < bare.itb && head -c 8 bare.itb | od -An -tx1
  1784
   d0 0d fe ed 00 00 06 f8
  $ tail -c 896 bare.itb | tr -d '\0' | wc -c
  0
  $ mkimage -q -F bare.itb && wc -c < bare.itb && uimg verify bare.itb
  888
  kernel hash-1 crc32 ok
  kernel hash-2 md5 ok
  kernel hash-3 sha1 ok
  kernel hash-4 sha256 ok

All other properties and nodes stay, in their order, and signature nodes as they are:

  $ sed 's/hash-1 { algo = "crc32"; };/odd,one = <1 2>; hash-1 { odd; algo = "crc32"; value = [00]; last = "x"; };/
  >   s/hash-2 .*/signature-1 { algo = "sha256,rsa2048"; key-name-hint = "dev"; value = [01 02]; };/' kernel.its > odd.its
  $ mkimage -q -f odd.its odd.itb 2> /dev/null && cp odd.itb odd-old.itb
  $ printf abc | dd of=odd.itb bs=1 seek=168 conv=notrunc status=none
  $ cmp -s odd.itb odd-old.itb
  [1]
  $ mkimage -q -F odd.itb && printf abc > abc.bin
  $ mkimage -q -f odd.its odd-wanted.itb 2> /dev/null && cmp odd.itb odd-wanted.itb

Reserved memory stays reserved, with the payloads in the blob and after it:

  $ printf '/dts-v1/;\n/memreserve/ 0x1000 0x200;\n/memreserve/ 0x123456789abcdef0 0x10;\n' > reserves.its
  $ tail -n +2 kernel.its >> reserves.its && mkimage -q -f reserves.its reserves.itb && cp reserves.itb kept.itb
  $ mkimage -q -F reserves.itb && cmp reserves.itb kept.itb
  $ mkimage -q -E -f reserves.its kept.itb && mkimage -q -E -F reserves.itb && cmp reserves.itb kept.itb
  $ mkimage -q -F reserves.itb && uimg info reserves.itb | grep -o '"reservations.*}],"images'
  "reservations":[{"address":4096,"size":512},{"address":1311768467463790320,"size":16}],"images

What is refused stays as it is:

  $ refused() { cp "$1" kept && mkimage -F "$1"; echo "[$?]"; cmp "$1" kept; }
  $ refused at.itb
  mkimage: at.itb: F2 no data
  [1]
  $ refused kernel.its
  mkimage: kernel.its: B2 bad magic at 0
  [1]
  $ head -c -4 after.itb > short.itb && refused short.itb
  mkimage: short.itb: F3 data outside
  [1]
  $ cp old.itb reserved.itb && printf '\001' | dd of=reserved.itb bs=1 seek=55 conv=notrunc status=none
  $ refused reserved.itb
  mkimage: reserved.itb: the reservation block has no end
  [1]
  $ cp old.itb unknown.itb && printf 'crc16' | dd of=unknown.itb bs=1 seek=$(grep -obUa crc32 old.itb | cut -d: -f1) conv=notrunc status=none
  $ refused unknown.itb
  mkimage: unknown.itb: F5 unknown algorithm
  [1]
  $ mkimage -F nothing
  mkimage: cannot read nothing: No such file or directory (os error 2)
  [3]
  $ mkimage -F -d abc.bin old.itb
  mkimage: -d is given with -F
  [2]
  $ mkimage -F -l old.itb
  mkimage: -l is given with -F
  [2]
  $ mkimage -F
  mkimage: no image given
  [2]
  $ ls | grep uimg-new
  [1]

With a source -F has no effect:

  $ printf xyz > abc.bin && mkimage -q -F -f kernel.its made.itb && cmp made.itb wanted.itb
