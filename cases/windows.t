Hash nodes and windows of FIT images
====================================

`cell FILE AT BYTE..` sets bytes of a file at an offset:

  $ cell() {
  >     to=$1 at=$2; shift 2
  >     printf "$(printf '\\%03o' "$@")" | dd of=$to bs=1 seek=$at conv=notrunc status=none
  > }

nine-crc-nodes, and also eight and seventeen hash nodes, whose payload is read once:

  $ head -c 20000 /dev/zero > zeros
  $ hashes() { for number in $(seq $1); do echo 'hash { algo = "crc32"; };'; done; }
  $ for count in 8 9 17; do
  >     echo "/dts-v1/; / { images { a { data = /incbin/(\"zeros\"); $(hashes $count) }; }; };" > many.its
  >     uimg mkimage -f many.its many.itb | sort | uniq -c | grep 'Hash value'
  >     uimg verify many.itb | sort | uniq -c
  > done
        8   Hash value:   972f5302
        8 a hash crc32 ok
        9   Hash value:   972f5302
        9 a hash crc32 ok
       17   Hash value:   972f5302
       17 a hash crc32 ok

last-short-window: the last window of the payload has one byte, and the value is that of the bytes before it.

  $ head -c 8192 /dev/zero > zeros
  $ echo '/dts-v1/; / { images { a { data = /incbin/("zeros"); hash { algo = "crc32"; }; }; }; };' > window.its
  $ uimg mkimage -f window.its -E window.itb | grep value
    Hash value:   d8f49994
  $ uimg verify window.itb
  a hash crc32 ok
  $ head -c 4 /dev/zero >> window.itb
  $ cell window.itb 128 0 0 0x20 1
  $ uimg dumpimage -l window.itb | grep 'Data Size'
    Data Size:    8193 Bytes = 8.00 KiB = 0.01 MiB
  $ uimg verify window.itb
  a hash crc32 bad
  [1]
