Wrong command lines
===================

The program's own checks: each prints one line, before any file is opened, to standard error alone.

  $ uimg dumpimage none.img
  uimg: no -l or -o
  [2]
  $ uimg dumpimage -T x none.img
  uimg: no -l or -o
  [2]
  $ uimg dumpimage none.img 2> /dev/null
  [2]
  $ uimg dumpimage none.img > /dev/null
  uimg: no -l or -o
  [2]

`all LINE..` runs the program with each word in place of @ in a line, and counts its messages and the status:

  $ all() {
  >     line=$1; shift
  >     for word; do
  >         eval "set -- $(echo "$line" | sed 's/@/"$word"/g')"
  >         uimg "$@" 2>&1; echo "status $?"
  >     done | sort | uniq -c
  > }
  $ all 'dumpimage -l -T @ none.img' '' Kernel flat-dt list
        4 status 2
        4 uimg: unknown name
  $ all 'dumpimage -p x -o none.out -T @ none.img' '' Kernel flat-dt list
        4 status 2
        4 uimg: unknown name
  $ all 'dumpimage -p @ -o none.out none.img' '' x +1 1x 0x1 4294967296 ' 1' '1 ' a ١ 99999999999999999999
       11 status 2
       11 uimg: bad number
  $ all 'dumpimage -p=@ -o none.out none.img' -1
        1 status 2
        1 uimg: bad number
  $ test -e none.out
  [1]

mkimage with neither data nor source:

  $ SOURCE_DATE_EPOCH=x
  $ export SOURCE_DATE_EPOCH
  $ uimg mkimage none.img
  uimg: no -d or -f
  [2]
  $ uimg mkimage -A x -T flat_dt -a x none.img
  uimg: no -d or -f
  [2]
  $ uimg mkimage -E -p x none.img
  uimg: no -d or -f
  [2]

Data with source:

  $ uimg mkimage -d none.bin -f none.its none.img
  uimg: -d with -f
  [2]
  $ uimg mkimage -f '' -A x -T flat_dt -a x -d '' none.img
  uimg: -d with -f
  [2]
  $ uimg mkimage -f none.its -d a -p x none.img
  uimg: -d with -f
  [2]

Unknown names come before wrong numbers, and before flat_dt:

  $ uimg mkimage -d none.bin -A x -a x none.img
  uimg: unknown name
  [2]
  $ uimg mkimage -d none.bin -O Linux -e x none.img
  uimg: unknown name
  [2]
  $ uimg mkimage -d none.bin -T '' -a x none.img
  uimg: unknown name
  [2]
  $ uimg mkimage -d none.bin -C list -a x none.img
  uimg: unknown name
  [2]
  $ uimg mkimage -d none.bin -T flat_dt -C x none.img
  uimg: unknown name
  [2]
  $ uimg mkimage -d none.bin -T flat_dt -A x none.img
  uimg: unknown name
  [2]
  $ uimg mkimage -d none.bin -T flat_dt -O x none.img
  uimg: unknown name
  [2]

A FIT from data:

  $ uimg mkimage -d none.bin -T flat_dt none.img
  uimg: flat_dt needs -f
  [2]
  $ uimg mkimage -d none.bin -T flat_dt -a x -e x none.img
  uimg: flat_dt needs -f
  [2]

Wrong addresses:

  $ all 'mkimage -d none.bin -a @ none.img' '' x 0x 0X1 +1 '1 ' 0x+1 100000000 0x100000000 1g x1 0x0x1 ' 1' g
       14 status 2
       14 uimg: bad number
  $ all 'mkimage -d none.bin -e @ none.img' '' x 0x 0X1 +1 '1 ' 0x+1 100000000 0x100000000 1g x1 0x0x1 ' 1' g
       14 status 2
       14 uimg: bad number
  $ all 'mkimage -d none.bin -a 0 -e @ none.img' '' x 0x 0X1 +1 '1 ' 0x+1 100000000 0x100000000 1g
       10 status 2
       10 uimg: bad number
  $ all 'mkimage -d none.bin -a=@ none.img' -1
        1 status 2
        1 uimg: bad number

A wrong position with -f comes before a wrong time, also without -E:

  $ all 'mkimage -f none.its -E -p @ none.img' '' x 0x +1 100000000
        5 status 2
        5 uimg: bad number
  $ all 'mkimage -f none.its -nx -p @ none.img' '' x 0x +1 100000000
        5 status 2
        5 uimg: bad number
  $ uimg mkimage -f none.its -E -p 400 none.img
  uimg: bad SOURCE_DATE_EPOCH
  [2]

Wrong times:

  $ for SOURCE_DATE_EPOCH in '' x -1 +1 ' 1' '1 ' 0x1 4294967296 "$(printf '\377')"; do
  >     uimg mkimage -d none.bin none.img 2>&1; echo "status $?"
  > done | sort | uniq -c
        9 status 2
        9 uimg: bad SOURCE_DATE_EPOCH
  $ test -e none.img
  [1]

With -l other options have no effect and are not checked:

  $ SOURCE_DATE_EPOCH=x uimg mkimage -l -A x -O x -T flat_dt -C x -a x -e x -n x -d none.bin -f none.its -E -p x "$TESTDIR/files/abc-kernel.img"
  Image Name:   01234567890123456789012345678901
  Created:      Tue Nov 14 22:13:20 2023
  Image Type:   AArch64 Linux Kernel Image (uncompressed)
  Data Size:    3 Bytes = 0.00 KiB = 0.00 MiB
  Load Address: 00080000
  Entry Point:  00080000
  $ unset SOURCE_DATE_EPOCH

A word that is not UTF-8:

  $ uimg dumpimage -l "$(printf '\377')"
  uimg: a word of the command line is not UTF-8
  [2]

The messages of the library for command lines:

  $ first() { uimg "$@" > out 2> err; echo "$? $(wc -c < out) $(head -n 1 err)"; }
  $ first frob none.img -l
  2 0 error: unrecognized subcommand 'frob'
  $ first verify
  2 0 error: the following required arguments were not provided:
  $ first verify a b
  2 0 error: unexpected argument 'b' found
  $ first help frob
  2 0 error: unrecognized subcommand 'frob'
  $ first -V
  2 0 error: unexpected argument '-V' found
  $ first verify -V a
  2 0 error: unexpected argument '-V' found
  $ first dumpimage -l -l a
  2 0 error: the argument '-l' cannot be used multiple times
  $ first dumpimage a -o
  2 0 error: a value is required for '-o <outfile>' but none was supplied
  $ first mkimage
  2 0 error: the following required arguments were not provided:
  $ first mkimage -d none.bin
  2 0 error: the following required arguments were not provided:
  $ first mkimage -d a -d b none.img
  2 0 error: the argument '-d <data>' cannot be used multiple times
  $ first mkimage none.img -a
  2 0 error: a value is required for '-a <load>' but none was supplied
  $ first mkimage -d a none.img more.img
  2 0 error: unexpected argument 'more.img' found
  $ first mkimage -x -d a none.img
  2 0 error: unexpected argument '-x' found

The tip to put such a word after a `--` is left out: a word there is the image, never the value of an option.

  $ uimg mkimage -n -x -d none.bin none.img
  error: unexpected argument '-x' found
  
  Usage: uimg mkimage [OPTIONS] <image>
  
  For more information, try '--help'.
  [2]
  $ uimg verify --xy none.img
  error: unexpected argument '--xy' found
  
  Usage: uimg verify <image>
  
  For more information, try '--help'.
  [2]

A tip that helps is kept:

  $ uimg verify --hepl none.img
  error: unexpected argument '--hepl' found
  
    tip: a similar argument exists: '--help'
  
  Usage: uimg verify --help <image>
  
  For more information, try '--help'.
  [2]
  $ uimg verfy none.img
  error: unrecognized subcommand 'verfy'
  
    tip: a similar subcommand exists: 'verify'
  
  Usage: uimg <COMMAND>
  
  For more information, try '--help'.
  [2]
