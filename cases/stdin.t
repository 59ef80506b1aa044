Images on standard input
========================

  $ files="$TESTDIR/files"
  $ SOURCE_DATE_EPOCH=0
  $ export SOURCE_DATE_EPOCH
  $ mkdir tmp out
  $ TMPDIR=$PWD/tmp
  $ export TMPDIR
  $ echo '/dts-v1/; / { description = "d"; images { a { data = [61 62 63]; hash-1 { algo = "sha256"; }; }; b { data = [64]; hash-1 { algo = "crc32"; }; }; }; };' > k.its
  $ uimg mkimage -f k.its k.itb > /dev/null

The image `-` is what arrives there, from a pipe or a file:

  $ cat k.itb | uimg check -
  -: ok 2 payloads, 2 hashes
  $ uimg check --json - < k.itb
  {"path":"-","status":0,"verdict":"ok","format":"fit","images":2,"hashes":2}
  $ cat k.itb | uimg unpack -C out -
  a: 3 bytes, sha256 ba7816bf8f01cfea414140de5dae2223b00361a396177a9cb410ff61f20015ad
  b: 1 byte, crc32 98dd4acc
  $ ls -A out && cat out/* && echo && rm out/*
  a
  b
  abcd
  $ cat k.itb | uimg unpack -C out --need sha256 -
  b: weak
  [1]
  $ ls -A out
  $ cat "$files/three-part-multi.img" | uimg unpack -C out - && ls out && rm out/*
  image-0: 3 bytes, data crc32 9350b6ea
  image-1: 4 bytes, data crc32 9350b6ea
  image-2: 5 bytes, data crc32 9350b6ea
  image-0
  image-1
  image-2
  $ cat "$files/two-signed.itb" | uimg check --key "$files/signer.pem" - | cut -c1-6
  -: ok 

Each command prints the same as over a file:

  $ told() { uimg "$@" 2>&1; echo "status $?"; rm -f out/*; }
  $ same() { told "$@" "$image" | sed "s|$image|-|g" > file; cat "$image" | told "$@" - | cmp - file; }
  $ for image in k.itb "$files/abc-kernel.img" "$files/three-part-multi.img" "$files/one-bad-hash.itb" "$files/part-outside.img" "$files/no-images.itb" k.its; do
  >     for words in check 'check --strict' 'check --json' 'check --recursive' info map 'unpack -C out' 'unpack -C out --json'; do same $words; done
  > done
  $ uimg map --svg file.svg k.itb && uimg map --svg input.svg - < k.itb && sed 's/k\.itb/-/g' file.svg | cmp - input.svg

A stream that is cut keeps nothing:

  $ size=$(wc -c < k.itb)
  $ for length in 0 1 3 4 39 40 56 100 200 300 $((size - 100)) $((size - 40)); do head -c $length k.itb | uimg unpack -C out - > lines 2>&1; echo $?; ls -A out; done | sort | uniq -c
       12 1
  $ : | uimg check -
  -: refused L1 too short
  [1]
  $ : | uimg unpack -C out -
  uimg: L1 too short
  [1]

No more bytes are read than are allowed:

  $ uimg check --max-input $size - < k.itb
  -: ok 2 payloads, 2 hashes
  $ for command in check info map 'unpack -C out'; do uimg $command --max-input 99 - < k.itb; echo "status $?"; done
  -: failed cannot read: more than 99 bytes; see --max-input
  status 3
  {"path":"-","status":3,"verdict":"failed","message":"cannot read: more than 99 bytes; see --max-input"}
  status 3
  uimg: cannot read -: more than 99 bytes; see --max-input
  status 3
  uimg: cannot read -: more than 99 bytes; see --max-input
  status 3
  $ uimg map --max-input 99 --svg new.svg - < k.itb; echo "status $?"; test -e new.svg
  uimg: cannot read -: more than 99 bytes; see --max-input
  status 3
  [1]
  $ yes | uimg check --max-input 1000000 -
  -: failed cannot read: more than 1000000 bytes; see --max-input
  [3]
  $ uimg check --max-input 0 - < /dev/null
  -: refused L1 too short
  [1]
  $ for command in check info map unpack; do uimg $command --max-input 4G - < k.itb; echo "status $?"; done
  uimg: --max-input: '4G' is not a decimal number below 2^64
  status 2
  uimg: --max-input: '4G' is not a decimal number below 2^64
  status 2
  uimg: --max-input: '4G' is not a decimal number below 2^64
  status 2
  uimg: --max-input: '4G' is not a decimal number below 2^64
  status 2
  $ ls -A out && ls -A tmp

It is read once:

  $ uimg check - - < k.itb
  uimg: - is given twice, but standard input is read once
  [2]
  $ uimg check k.itb - k.itb - < k.itb
  uimg: - is given twice, but standard input is read once
  [2]
  $ echo k.itb | uimg check --files-from - -
  uimg: - is given twice, but standard input is read once
  [2]
  $ echo k.itb > list && uimg check --files-from list "$files/abc-kernel.img" - < k.itb | sed 's|.*/||'
  abc-kernel.img: ok 2 checksums
  -: ok 2 payloads, 2 hashes
  k.itb: ok 2 payloads, 2 hashes

A file of that name is ./-, and - in a list. The commands of the profile and diff know no other:

  $ cp "$files/abc-kernel.img" ./- && uimg check ./- < /dev/null
  ./-: ok 2 checksums
  $ printf '%s\n' - > list && uimg check --files-from list < k.itb
  -: ok 2 checksums
  $ uimg check - < k.itb
  -: ok 2 payloads, 2 hashes
  $ uimg check -- - < k.itb
  -: ok 2 payloads, 2 hashes
  $ uimg verify - < k.itb
  header crc32 ok
  data crc32 ok
  $ uimg diff - "$files/abc-kernel.img" < k.itb
  $ rm ./- && uimg verify - < k.itb
  uimg: cannot read -
  [3]
  $ uimg diff - k.itb < k.itb
  uimg: cannot read -: No such file or directory (os error 2)
  [3]

No folder has that name either:

  $ mkdir ./- && cp k.itb ./-/k.itb && uimg check --recursive - < "$files/abc-kernel.img"
  -: ok 2 checksums
  $ uimg check --recursive ./- < /dev/null
  ./-/k.itb: ok 2 payloads, 2 hashes
  $ rm -r ./-

Standard input that cannot be read:

  $ uimg check - <&-
  -: failed cannot read: No such file or directory (os error 2)
  [3]
  $ uimg unpack -C out - <&-
  uimg: cannot read -: No such file or directory (os error 2)
  [3]
  $ uimg unpack --json -C out - < .
  {"path":"-","status":3,"verdict":"failed","message":"cannot read: Is a directory (os error 21)"}
  [3]
  $ uimg check - k.itb < .
  -: failed cannot read: Is a directory (os error 21)
  k.itb: ok 2 payloads, 2 hashes
  [3]

What arrives is kept in the folder of unpack, and else in TMPDIR or /tmp:

  $ TMPDIR=missing uimg check - < k.itb
  -: failed cannot read: its copy in TMPDIR: No such file or directory (os error 2)
  [3]
  $ TMPDIR=missing uimg map - < k.itb
  uimg: cannot read -: its copy in TMPDIR: No such file or directory (os error 2)
  [3]
  $ TMPDIR= uimg check - < k.itb
  -: ok 2 payloads, 2 hashes
  $ TMPDIR=missing uimg unpack -C out - < k.itb > lines && ls out && rm out/*
  a
  b
  $ uimg unpack -C missing - < k.itb
  uimg: cannot read -: its copy in the folder: No such file or directory (os error 2)
  [3]
  $ mkdir out/.uimg-new1 tmp/.uimg-new1 && uimg unpack -C out - < k.itb > lines && uimg check - < k.itb && ls -A out tmp
  -: ok 2 payloads, 2 hashes
  out:
  .uimg-new1
  a
  b
  
  tmp:
  .uimg-new1
  $ rm out/a out/b && uimg unpack --clean -C out - < k.itb | cut -c1-20 && ls -A out
  .uimg-new1: removed
  a: 3 bytes, sha256 b
  b: 1 byte, crc32 98d
  a
  b
  $ rm out/*

A full disk:

  $ head -c 100000 /dev/zero > zeros
  $ sh -c 'trap "" XFSZ; ulimit -f 1; exec uimg check -' < zeros
  -: failed cannot read: its copy in TMPDIR: File too large (os error 27)
  [3]
  $ sh -c 'trap "" XFSZ; ulimit -f 1; exec uimg unpack -C out -' < zeros
  uimg: cannot read -: its copy in the folder: File too large (os error 27)
  [3]
  $ ls -A out

Nobody else can open it, and it has no name while it is written. So a killed command leaves nothing:

  $ rmdir tmp/.uimg-new1 && mkfifo pipe && exec 4<> pipe
  $ kept() { find -L /proc/$pid/fd -maxdepth 1 -type f -links 0 -perm 600 -size +0 2> /dev/null | wc -l; }
  $ killed() {
  >     uimg "$@" - < pipe > /dev/null 2>&1 &
  >     pid=$!; head -c 5000 /dev/zero >&4
  >     for turn in $(seq 600); do test "$(kept)" -eq 1 && break; sleep 0.1; done; kept; ls -A out; ls -A tmp; kill -9 $pid; wait $pid; ls -A out; ls -A tmp
  > }
  $ killed check 2> /dev/null
  1
  $ killed unpack -C out 2> /dev/null
  1
