Parts of legacy images
======================

  $ files="$TESTDIR/files"

`part POSITION IMAGE` extracts, and prints the outfile in brackets:

  $ part() {
  >     uimg dumpimage -p "$1" -o out "$files/$2"
  >     echo "$? [$(cat out)]"
  >     rm -f out
  > }

single-positions: the outfile of a refused part exists, and is empty.

  $ part 0 abc-kernel.img
  0 [abc]
  $ part 00 abc-kernel.img
  0 [abc]
  $ part 1 abc-kernel.img
  uimg: L8 no such part
  1 []

Position 0 if none is given, and with the type:

  $ uimg dumpimage -o out "$files/abc-kernel.img" && cat out
  abc (no-eol)
  $ uimg dumpimage -T kernel -o out "$files/abc-kernel.img" && cat out
  abc (no-eol)

three-part-multi:

  $ part 0 three-part-multi.img
  0 [abc]
  $ part 1 three-part-multi.img
  0 [defg]
  $ part 2 three-part-multi.img
  0 [hijkl]
  $ part 3 three-part-multi.img
  uimg: L8 no such part
  1 []
  $ part 4294967295 three-part-multi.img
  uimg: L8 no such part
  1 []

part-outside:

  $ part 0 part-outside.img
  0 [abc]
  $ part 1 part-outside.img
  uimg: L7 part outside
  1 []
  $ part 2 part-outside.img
  uimg: L8 no such part
  1 []

no-table-end:

  $ part 0 no-table-end.img
  uimg: L6 no table end
  1 []

short-file, changed-name and size-too-large: the outfile is created, and stays empty.

  $ head -c 63 "$files/abc-kernel.img" > short.img
  $ uimg dumpimage -o out short.img; echo "[$(cat out)]"
  uimg: L1 too short
  []
  $ cp "$files/abc-kernel.img" changed.img
  $ printf 1 | dd of=changed.img bs=1 seek=32 conv=notrunc status=none
  $ uimg dumpimage -o out changed.img; echo "[$(cat out)]"
  uimg: L3 bad header CRC
  []
  $ part 0 size-too-large.img
  uimg: L4 truncated
  1 []

Other data are refused before the first byte:

  $ cp "$files/abc-kernel.img" data.img
  $ printf b | dd of=data.img bs=1 seek=64 conv=notrunc status=none
  $ uimg dumpimage -o out data.img; echo "[$(cat out)]"
  uimg: L5 bad data CRC
  []

An existing outfile is emptied:

  $ echo before > out
  $ uimg dumpimage -p 1 -o out "$files/abc-kernel.img"
  uimg: L8 no such part
  [1]
  $ wc -c < out
  0
