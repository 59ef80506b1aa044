Refused memory
==============

The program may have this many KiB in all, with its own code; each fault exits with status 3.

  $ within() { (ulimit -v $1; shift; uimg "$@"); }

No memory for the text of an image source:

  $ truncate -s 64M large.its
  $ within 40000 mkimage -f large.its none.itb
  uimg: out of memory
  [3]

No memory for the table of a blob's 200000 nodes; the offset is that of a node:

  $ repeat() { head -c $1 /dev/zero | sed "s/\x00/$2/g"; }
  $ {
  >     printf '\320\015\376\355\0\044\237\074\0\0\0\070\0\044\237\074\0\0\0\050'
  >     printf '\0\0\0\021\0\0\0\020\0\0\0\0\0\0\0\0\0\044\237\004\0\0\0\0\0\0\0\0\0\0\0\0\0\0\0\0'
  >     repeat 200000 '\x00\x00\x00\x01\x00\x00\x00\x00'
  >     repeat 200000 '\x00\x00\x00\x02'
  >     printf '\0\0\0\011'
  > } > deep.itb
  $ within 20000 dumpimage -l deep.itb
  uimg: B11 out of memory at \d+ (re)
  [3]
  $ within 20000 verify deep.itb
  uimg: B11 out of memory at \d+ (re)
  [3]
  $ within 20000 dumpimage -o out deep.itb
  uimg: B11 out of memory at \d+ (re)
  [3]
  $ wc -c < out
  0
  $ within 80000 dumpimage -l deep.itb
  FIT description: unavailable
  Created:         unavailable
  uimg: F1 no images
  [1]

No memory for the tree of a source of 50000 images, and with a little more none for the values of its hashes:

  $ {
  >     echo '/dts-v1/;'
  >     echo '/ { images {'
  >     repeat 50000 'n{data;hash{algo="md5";};};'
  >     echo '}; };'
  > } > many.its
  $ within 20000 mkimage -f many.its none.itb
  uimg: I7 out of memory at line 3
  [3]
  $ test -e none.itb
  [1]
  $ size=20000
  $ until within $size mkimage -f many.its made.itb > listing 2> fault; do
  >     echo "$? $(cat fault)"
  >     size=$((size * 102 / 100))
  > done | sort -u
  3 uimg: F8 out of memory
  3 uimg: I7 out of memory at line 3
  $ uimg verify made.itb | sort -u
  n hash md5 ok
