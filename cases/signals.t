What a signal leaves
====================

A limit of the size of a file ends a command by SIGXFSZ (25) in the middle of one. `limited BLOCKS COMMAND` sets it, in blocks of
512 bytes:

  $ limited() { sh -c 'ulimit -c 0; ulimit -f "$1"; shift; "$@"; exit "$?"' sh "$@" 2> /dev/null; }
  $ head -c 100000 /dev/zero > zeros
  $ echo '/dts-v1/; / { images { a { data = "abc"; hash-1 { algo = "crc32"; }; }; b { data = /incbin/("zeros"); }; }; };' > k.its
  $ SOURCE_DATE_EPOCH=0 uimg mkimage -f k.its k.itb > /dev/null

unpack leaves its temporary folder, and no name changes. --clean removes that folder:

  $ mkdir out && echo old > out/b
  $ limited 100 uimg unpack --force -C out k.itb
  [153]
  $ ls -A out out/.uimg-new1 && cat out/b
  out:
  .uimg-new1
  b
  
  out/.uimg-new1:
  new-0
  new-1
  old
  $ uimg unpack --clean -C out && ls -A out
  .uimg-new1: removed
  b

map leaves a temporary file, and no picture that is half; unpack's --clean does not remove it:

  $ echo old > out/map.svg
  $ limited 1 uimg map --force --svg out/map.svg k.itb
  [153]
  $ limited 1 uimg map --svg out/new.svg k.itb
  [153]
  $ uimg unpack --clean -C out && ls -A out && cat out/map.svg && rm out/*
  b
  map.svg
  map.svg.uimg-new1
  new.svg.uimg-new1
  old

So do the old names:

  $ for name in mkimage dumpimage; do ln -s "$(command -v uimg)" $name; done
  $ left() { ls -A out && cat out/image && rm out/*; }
  $ echo old > out/image && limited 100 ./mkimage -d zeros out/image > /dev/null
  [153]
  $ left
  image
  image.uimg-new1
  old
  $ echo old > out/image && limited 100 ./mkimage -f auto -d zeros out/image > /dev/null
  [153]
  $ left
  image
  image.uimg-new1
  old
  $ echo old > out/image && limited 100 ./dumpimage -T flat_dt -p 1 -o out/image k.itb
  [153]
  $ left
  image
  image.uimg-new1
  old

`uimg mkimage` and `uimg dumpimage` write to the outfile itself, which holds what was written so far:

  $ limited 100 uimg mkimage -d zeros out/image > /dev/null
  [153]
  $ limited 100 uimg dumpimage -p 1 -o out/payload k.itb
  [153]
  $ wc -c < out/image && wc -c < out/payload && ls -A out && rm out/*
  51200
  51200
  image
  payload

If the signal is ignored, the write fails as on a full disk, and nothing is left:

  $ (trap '' XFSZ; ulimit -f 100; uimg unpack -C out k.itb 2> /dev/null)
  [3]
  $ (trap '' XFSZ; ulimit -f 1; uimg map --svg out/map.svg k.itb 2> /dev/null)
  [3]
  $ (trap '' XFSZ; ulimit -f 100; ./mkimage -d zeros out/image 2> /dev/null)
  [3]
  $ ls -A out
