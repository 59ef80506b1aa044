The differences of two images
=============================

  $ files="$TESTDIR/files"

`image NAME TEXT LOAD TIME` makes a FIT image of the file kernel:

  $ image() {
  >     cat > $1.its <<END
  > /dts-v1/;
  > / {
  >     description = "$2";
  >     images {
  >         kernel-1 {
  >             description = "k"; data = /incbin/("kernel"); type = "kernel"; arch = "arm";
  >             os = "linux"; compression = "none"; load = <$3>; entry = <0x80008000>;
  >             hash-1 { algo = "crc32"; };
  >         };
  >     };
  >     configurations { default = "conf-1"; conf-1 { kernel = "kernel-1"; }; };
  > };
  > END
  >     SOURCE_DATE_EPOCH=$4 uimg mkimage $5 -f $1.its $1.itb > /dev/null
  > }

Images that mean the same have no differences, wherever their payloads are:

  $ head -c 200 /dev/zero > kernel
  $ image one text 0x80000000 1 && image inside text 0x80000000 1 && image after text 0x80000000 1 -E
  $ uimg diff one.itb inside.itb
  $ cmp -s one.itb after.itb || uimg diff one.itb after.itb

Each difference is a line. Long values are given by their size and SHA-256, which is that of sha256sum:

  $ head -c 201 /dev/zero > kernel && image two text 0x81000000 2
  $ sha256sum < kernel
  ab3df617aaa3140f04dc53f65b5446f34a6b2bdbb1f7b78db8db4d067ba14db9  -
  $ uimg diff one.itb two.itb
  /timestamp: 0x00000001 -> 0x00000002
  /images/kernel-1/data: 200 bytes sha256 6d9c54dee5660c46886f32d80e57e9dd0ffa57ee0cd2a762b036d9c8e0c3a33a -> 201 bytes sha256 ab3df617aaa3140f04dc53f65b5446f34a6b2bdbb1f7b78db8db4d067ba14db9
  /images/kernel-1/load: 0x80000000 -> 0x81000000
  /images/kernel-1/hash-1/value: 0xc971a876 -> 0x6bad4a2c
  [1]

What only one image states, the first or the second:

  $ sed 's/os = "linux"; //; s/hash-1/hash-2/' one.its > other.its
  $ head -c 200 /dev/zero > kernel && SOURCE_DATE_EPOCH=1 uimg mkimage -f other.its other.itb > /dev/null
  $ uimg diff one.itb other.itb
  - /images/kernel-1/os: "linux"
  - /images/kernel-1/hash-1/
  - /images/kernel-1/hash-1/algo: "crc32"
  - /images/kernel-1/hash-1/value: 0xc971a876
  + /images/kernel-1/hash-2/
  + /images/kernel-1/hash-2/algo: "crc32"
  + /images/kernel-1/hash-2/value: 0xc971a876
  [1]

The order of nodes and of properties does not count:

  $ sed 's/load = <0x80000000>; entry = <0x80008000>;/entry = <0x80008000>; load = <0x80000000>;/' one.its > order.its
  $ SOURCE_DATE_EPOCH=1 uimg mkimage -f order.its order.itb > /dev/null
  $ cmp -s one.itb order.itb || uimg diff one.itb order.itb

Quotation marks and backslashes in texts are escaped:

  $ sed 's/"text"/"a \\"b\\" \\\\ c"/' one.its > marks.its
  $ SOURCE_DATE_EPOCH=1 uimg mkimage -f marks.its marks.itb > /dev/null; uimg diff one.itb marks.itb
  /description: "text" -> "a \x22b\x22 \x5c c"
  [1]

A value of a hash, an empty value, an address of two cells:

  $ sed 's/load = <0x80000000>/load = <0x1 0x80000000>/; s/"linux"/<>/; s/crc32/sha1/' one.its > wide.its
  $ SOURCE_DATE_EPOCH=1 uimg mkimage -f wide.its wide.itb > /dev/null; uimg diff one.itb wide.itb
  /images/kernel-1/os: "linux" -> []
  /images/kernel-1/load: 0x80000000 -> 0x0000000180000000
  /images/kernel-1/hash-1/algo: "crc32" -> "sha1"
  /images/kernel-1/hash-1/value: 0xc971a876 -> [c45d01b195decd87a0bf097784fba6734005b8ea]
  [1]

Legacy images by the fields of their header and their parts; another format has nothing in common with them:

  $ cp "$files/abc-kernel.img" "$files/three-part-multi.img" .
  $ uimg diff abc-kernel.img abc-kernel.img
  $ uimg diff abc-kernel.img three-part-multi.img
  name: [3031323334353637383930313233343536373839303132333435363738393031] -> [00]
  time: 0x6553f100 -> 0x00000000
  load: 0x00080000 -> 0x00000000
  entry: 0x00080000 -> 0x00000000
  arch: [16] -> [07]
  type: [02] -> [04]
  compression: [00] -> [01]
  + part 1: 0x64656667
  + part 2: [68696a6b6c]
  [1]
  $ uimg diff abc-kernel.img one.itb | grep "description\|part"
  - part 0: [616263]
  + /description: "text"
  + /images/kernel-1/description: "k"

A refused image is named on standard error, and nothing is printed:

  $ head -c 100 one.itb > short.itb; head -c 63 abc-kernel.img > short.img
  $ uimg diff one.itb short.itb
  uimg: short.itb: B4 block outside at 4
  [1]
  $ uimg diff short.img short.itb
  uimg: short.img: L1 too short
  [1]
  $ cp after.itb cut.itb && truncate -s -1 cut.itb && uimg diff cut.itb one.itb
  uimg: cut.itb: F3 data outside
  [1]
  $ cp "$files/no-images.itb" . && uimg diff one.itb no-images.itb
  uimg: no-images.itb: F1 no images
  [1]

Each difference as a JSON object; what an image does not state is left out:

  $ uimg diff --json one.itb other.itb
  {"key":"/images/kernel-1/os","old":"\"linux\""}
  {"key":"/images/kernel-1/hash-1/","old":""}
  {"key":"/images/kernel-1/hash-1/algo","old":"\"crc32\""}
  {"key":"/images/kernel-1/hash-1/value","old":"0xc971a876"}
  {"key":"/images/kernel-1/hash-2/","new":""}
  {"key":"/images/kernel-1/hash-2/algo","new":"\"crc32\""}
  {"key":"/images/kernel-1/hash-2/value","new":"0xc971a876"}
  [1]
  $ uimg diff --json one.itb marks.itb
  {"key":"/description","old":"\"text\"","new":"\"a \\x22b\\x22 \\x5c c\""}
  [1]
  $ uimg diff --json one.itb inside.itb

Files that cannot be read, and wrong command lines:

  $ uimg diff one.itb none
  uimg: cannot read none: No such file or directory (os error 2)
  [3]
  $ uimg diff none one.itb
  uimg: cannot read none: No such file or directory (os error 2)
  [3]
  $ uimg diff one.itb > out.txt 2>&1 || echo "status $?"
  status 2

An image with two nodes of a name, which the source cannot have: hash-1 becomes hash-2 twice

  $ sed 's/hash-1 { algo = "crc32"; };/hash-1 { algo = "crc32"; }; hash-2 { algo = "crc32"; };/' one.its > twice.its
  $ SOURCE_DATE_EPOCH=1 uimg mkimage -f twice.its twice.itb > /dev/null
  $ LC_ALL=C sed -i 's/hash-2/hash-1/' twice.itb && uimg diff one.itb twice.itb
  uimg: twice.itb: two nodes or properties have the same name
  [1]
