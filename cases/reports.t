Reports on legacy images
========================

  $ files="$TESTDIR/files"

Right images have two lines:

  $ uimg verify "$files/abc-kernel.img"
  header crc32 ok
  data crc32 ok
  $ uimg verify "$files/three-part-multi.img"
  header crc32 ok
  data crc32 ok

The table of sizes is not checked:

  $ uimg verify "$files/part-outside.img"
  header crc32 ok
  data crc32 ok
  $ uimg verify "$files/no-table-end.img"
  header crc32 ok
  data crc32 ok

changed-name has one line, and no line of a fault:

  $ cp "$files/abc-kernel.img" changed.img
  $ printf 1 | dd of=changed.img bs=1 seek=32 conv=notrunc status=none
  $ uimg verify changed.img
  header crc32 bad
  [1]

Other data:

  $ cp "$files/abc-kernel.img" data.img
  $ printf b | dd of=data.img bs=1 seek=64 conv=notrunc status=none
  $ uimg verify data.img
  header crc32 ok
  data crc32 bad
  [1]
  $ uimg verify data.img > /dev/null
  [1]

A file that is no image is refused, without text:

  $ head -c 63 "$files/abc-kernel.img" > short.img
  $ uimg verify short.img
  uimg: L1 too short
  [1]
  $ head -c 100 /dev/zero | tr '\0' '\7' > sevens.img
  $ uimg verify sevens.img
  uimg: L2 bad magic
  [1]

size-too-large is refused after the line of the header:

  $ uimg verify "$files/size-too-large.img"
  header crc32 ok
  uimg: L4 truncated
  [1]
  $ uimg verify "$files/size-too-large.img" 2> /dev/null
  header crc32 ok
  [1]
