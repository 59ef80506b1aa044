Long sources
============

A source of more than 4 MiB, and a payload of 32 MiB inside the blob:

  $ head -c 33554432 /dev/zero > zeros
  $ { echo '/dts-v1/; / { images { k { data = /incbin/("zeros"); hash { algo = "crc32"; }; }; }; };'; yes '/* nothing */' | head -c 4300000; } > long.its
  $ { echo; echo '*/'; } >> long.its
  $ uimg mkimage -f long.its long.itb > listing
  $ uimg verify long.itb
  k hash crc32 ok
