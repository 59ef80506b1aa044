Files that cannot be read or written
====================================

  $ files="$TESTDIR/files"
  $ printf abc > abc.bin
  $ SOURCE_DATE_EPOCH=0
  $ export SOURCE_DATE_EPOCH

Images that cannot be opened:

  $ uimg verify none.img
  uimg: cannot read none.img
  [3]
  $ uimg verify ''
  uimg: cannot read 
  [3]
  $ uimg dumpimage -l .
  uimg: cannot read .
  [3]
  $ uimg mkimage -l none.img
  uimg: cannot read none.img
  [3]
  $ echo before > untouched
  $ uimg dumpimage -o untouched none.img
  uimg: cannot read none.img
  [3]
  $ cat untouched
  before
  $ uimg dumpimage -o new none.img
  uimg: cannot read none.img
  [3]
  $ test -e new
  [1]

A pipe has no known size:

  $ mkfifo pipe
  $ exec 4<> pipe
  $ uimg verify pipe
  uimg: cannot read pipe
  [3]

Nobody writes to this one, and nobody waits for it; nor is a socket an image:

  $ mkfifo silent && python3 -c 'import socket; socket.socket(socket.AF_UNIX).bind("socket")'
  $ refused() { timeout 20 uimg "$@"; echo "$1: status $?"; }
  $ for command in verify 'dumpimage -l' 'dumpimage -o new' 'mkimage -l' map unpack; do refused $command silent; done
  uimg: cannot read silent
  verify: status 3
  uimg: cannot read silent
  dumpimage: status 3
  uimg: cannot read silent
  dumpimage: status 3
  uimg: cannot read silent
  mkimage: status 3
  uimg: cannot read silent: it is a pipe
  map: status 3
  uimg: cannot read silent: it is a pipe
  unpack: status 3
  $ for command in verify 'dumpimage -l' 'dumpimage -o new' 'mkimage -l' map unpack; do refused $command socket; done
  uimg: cannot read socket
  verify: status 3
  uimg: cannot read socket
  dumpimage: status 3
  uimg: cannot read socket
  dumpimage: status 3
  uimg: cannot read socket
  mkimage: status 3
  uimg: cannot read socket: it is not a regular file
  map: status 3
  uimg: cannot read socket: it is not a regular file
  unpack: status 3
  $ for image in silent socket; do refused check $image; refused info $image; done | cut -c 1-27
  silent: failed cannot read:
  check: status 3
  {"path":"silent","status":3
  info: status 3
  socket: failed cannot read:
  check: status 3
  {"path":"socket","status":3
  info: status 3
  $ test -e new
  [1]

mkimage -l refuses an empty image like any other command:

  $ : > empty
  $ uimg mkimage -l empty
  uimg: L1 too short
  [1]

Outfiles of an extraction that cannot be written:

  $ uimg dumpimage -o no/folder "$files/abc-kernel.img"
  uimg: cannot write no/folder
  [3]
  $ uimg dumpimage -o . "$files/abc-kernel.img"
  uimg: cannot write .
  [3]
  $ uimg dumpimage -o /dev/full "$files/abc-kernel.img"
  uimg: write failed
  [3]

A file that is read is not written, whatever its path; nothing is changed:

  $ cp "$files/abc-kernel.img" own.img
  $ uimg dumpimage -o own.img own.img
  uimg: own.img would be written while it is read
  [2]
  $ ln -s own.img link.img
  $ ln own.img hard.img
  $ uimg dumpimage -o link.img own.img
  uimg: link.img would be written while it is read
  [2]
  $ uimg dumpimage -o ./hard.img link.img
  uimg: ./hard.img would be written while it is read
  [2]
  $ cmp own.img "$files/abc-kernel.img"
  $ uimg mkimage -d abc.bin abc.bin
  uimg: abc.bin would be written while it is read
  [2]
  $ cp abc.bin part.bin
  $ uimg mkimage -T multi -d abc.bin:part.bin ./part.bin
  uimg: ./part.bin would be written while it is read
  [2]
  $ echo '/dts-v1/; / { images { k { data = /incbin/("abc.bin"); }; }; };' > own.its
  $ uimg mkimage -f own.its own.its
  uimg: own.its would be written while it is read
  [2]
  $ uimg mkimage -f own.its abc.bin
  uimg: abc.bin would be written while it is read
  [2]
  $ cat own.its
  /dts-v1/; / { images { k { data = /incbin/("abc.bin"); }; }; };
  $ cat abc.bin
  abc (no-eol)
  $ ln -s abc.bin link.bin && ln abc.bin hard.bin
  $ for out in link.bin ./hard.bin "$PWD/abc.bin"; do uimg mkimage -d abc.bin "$out" 2> /dev/null || echo $?; done
  2
  2
  2
  $ mkdir sources && printf abc > sources/name && echo '/dts-v1/; / { images { k { data = /incbin/("name"); }; }; };' > sources/s.its
  $ for out in sources/name sources/s.its "$PWD/sources/name"; do uimg mkimage -f sources/s.its "$out" 2> /dev/null || echo $?; done
  2
  2
  2
  $ cat sources/name abc.bin
  abcabc (no-eol)
  $ rm own.img link.img hard.img part.bin own.its link.bin hard.bin

A file with fewer bytes than its size, like those of sysfs:

  $ uimg verify /sys/devices/system/cpu/online
  uimg: read failed
  [3]

Standard output that cannot be written, and standard error that cannot:

  $ uimg dumpimage -l "$files/abc-kernel.img" > /dev/full
  uimg: write failed
  [3]
  $ uimg verify "$files/abc-kernel.img" > /dev/full
  uimg: write failed
  [3]
  $ uimg --help > /dev/full
  uimg: write failed
  [3]
  $ uimg --version > /dev/full
  uimg: write failed
  [3]
  $ uimg dumpimage -l "$files/part-outside.img" > /dev/full
  uimg: write failed
  [3]
  $ uimg verify none.img 2> /dev/full
  [3]
  $ uimg dumpimage none.img 2> /dev/full
  [2]
  $ uimg mkimage -d abc.bin made.img > /dev/full
  uimg: write failed
  [3]
  $ uimg verify made.img
  header crc32 ok
  data crc32 ok

Files of -d that cannot be read: the path is printed as in the command line, and no outfile is created.

  $ uimg mkimage -d none.bin k.img
  uimg: cannot read none.bin
  [3]
  $ uimg mkimage -d '' k.img
  uimg: cannot read 
  [3]
  $ uimg mkimage -d . k.img
  uimg: cannot read .
  [3]
  $ uimg mkimage -d a:b k.img
  uimg: cannot read a:b
  [3]
  $ uimg mkimage -T multi -d abc.bin:none.b:none.c k.img
  uimg: cannot read none.b
  [3]
  $ uimg mkimage -T multi -d abc.bin: k.img
  uimg: cannot read 
  [3]
  $ uimg mkimage -T script -d :abc.bin k.img
  uimg: cannot read 
  [3]
  $ uimg mkimage -T script -d ./none.a:abc.bin k.img
  uimg: cannot read ./none.a
  [3]
  $ test -e k.img
  [1]

Sources that cannot be read, with any options without effect:

  $ for path in none.its ./none.its no/folder/none.its /none.its '' . no/; do
  >     uimg mkimage -f "$path" -A x -T flat_dt -e x k.itb || echo $?
  > done
  uimg: cannot read none.its
  3
  uimg: cannot read ./none.its
  3
  uimg: cannot read no/folder/none.its
  3
  uimg: cannot read /none.its
  3
  uimg: cannot read 
  3
  uimg: cannot read .
  3
  uimg: cannot read no/
  3
  $ test -e k.itb
  [1]

File names in a source are relative to its folder, unless they begin with a slash:

  $ mkdir folder
  $ printf abc > folder/name
  $ printf def > beside
  $ source() { echo "/dts-v1/; / { images { a { data = /incbin/(\"$1\"); }; }; };" > folder/s.its; }
  $ made() { source "$1"; uimg mkimage -f folder/s.its s.itb > listing && uimg dumpimage -o out s.itb && cat out && echo; }
  $ made name
  abc
  $ made ./name
  abc
  $ made ../beside
  def
  $ made beside
  uimg: I5 no file at line 1
  [3]
  $ made "$PWD/beside"
  def
  $ made /none/beside
  uimg: I5 no file at line 1
  [3]
  $ source name; cd folder && uimg mkimage -f s.its ../s.itb > ../listing; uimg mkimage -f ./s.its ../s.itb > ../listing; cd ..
  $ uimg dumpimage -o out s.itb && cat out
  abc (no-eol)

Images that cannot be written:

  $ for image in no/folder.img . '' /dev/full; do uimg mkimage -d abc.bin "$image" || echo $?; done
  uimg: write failed
  3
  uimg: write failed
  3
  uimg: write failed
  3
  uimg: write failed
  3
  $ source name
  $ for image in no/folder.img . '' /dev/full; do uimg mkimage -f folder/s.its "$image" || echo $?; done
  uimg: write failed
  3
  uimg: write failed
  3
  uimg: write failed
  3
  uimg: write failed
  3

An outfile that does not keep the image is reported:

  $ uimg mkimage -f sources/s.its /dev/null
  uimg: L1 too short
  [1]
  $ uimg mkimage -d abc.bin /dev/null
  uimg: L1 too short
  [1]
  $ mkfifo outpipe
  $ exec 3<> outpipe
  $ uimg mkimage -d abc.bin outpipe
  uimg: cannot read outpipe
  [3]
  $ head -c 67 <&3 | od -An -tx1 -N 4
   27 05 19 56
