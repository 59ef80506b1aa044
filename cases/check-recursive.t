Checks of all images below a folder
===================================

  $ files="$TESTDIR/files"
  $ mkdir -p fw/b/deep fw/a-c fw/a
  $ cp "$files/abc-kernel.img" fw/b/deep/kernel.img
  $ cp "$files/four-hash-fit.itb" fw/a/x.itb && cp "$files/one-bad-hash.itb" fw/a-c/y.itb
  $ cp "$files/no-images.itb" fw/z.itb && echo text > fw/README && : > fw/empty

A folder stands for the files below it that begin as a FIT or legacy image does. Names are in the order of bytes, and what
is in a folder is in its place; the other files are counted:

  $ uimg check --recursive fw
  fw/a/x.itb: ok 1 payload, 4 hashes
  fw/a-c/y.itb: bad a hash
  fw/b/deep/kernel.img: ok 2 checksums
  fw/z.itb: refused F1 no images
  fw: skipped 2 files
  [1]
  $ uimg check --recursive fw/a/ fw/b/deep/kernel.img fw/b
  fw/a/x.itb: ok 1 payload, 4 hashes
  fw/b/deep/kernel.img: ok 2 checksums
  fw/b/deep/kernel.img: ok 2 checksums
  $ (cd fw/a && uimg check --recursive .)
  ./x.itb: ok 1 payload, 4 hashes

The same images in the same order as find and sort give them, if no name has a byte below /:

  $ rm -r fw/a-c
  $ find fw -type f | LC_ALL=C sort | while read -r it; do
  >     case $(head -c 4 "$it" | od -An -tx1) in " d0 0d fe ed" | " 27 05 19 56") echo "$it";; esac
  > done | uimg check --files-from - > expected
  [1]
  $ uimg check --recursive fw > actual
  [1]
  $ grep -v ': skipped' actual | cmp - expected && wc -l < expected
  3

A file that is given is checked, whatever it begins with, and a folder without the option is refused as before:

  $ uimg check --recursive fw/README
  fw/README: refused L1 too short
  [1]
  $ uimg check fw
  fw: failed cannot read: Is a directory (os error 21)
  [3]
  $ echo fw > names && uimg check --recursive --files-from names
  fw: failed cannot read: Is a directory (os error 21)
  [3]

Symbolic links and what is no regular file are skipped; one that is given is followed only with a / after it:

  $ ln -s b/deep fw/folder-link && ln -s b/deep/kernel.img fw/file-link && ln -s . fw/loop && mkfifo fw/pipe
  $ ln -s none fw/broken && uimg check --recursive fw
  fw/a/x.itb: ok 1 payload, 4 hashes
  fw/b/deep/kernel.img: ok 2 checksums
  fw/z.itb: refused F1 no images
  fw: skipped 7 files
  [1]
  $ uimg check --recursive fw/folder-link
  fw/folder-link: failed cannot read: Is a directory (os error 21)
  [3]
  $ uimg check --recursive fw/folder-link/
  fw/folder-link/kernel.img: ok 2 checksums
  $ rm fw/folder-link fw/file-link fw/loop fw/pipe fw/broken

No line counts files among JSON objects, nor with --quiet:

  $ uimg check --recursive --json fw/b fw/README
  {"path":"fw/b/deep/kernel.img","status":0,"verdict":"ok","format":"legacy","checksums":2}
  {"path":"fw/README","status":1,"verdict":"refused","format":"legacy","fault":"L1","message":"L1 too short"}
  [1]
  $ uimg check --recursive --quiet fw
  fw/z.itb: refused F1 no images
  [1]

A folder without an image is wrong, as a list without a path:

  $ mkdir fw/none && uimg check --recursive fw/none
  uimg: no image
  [2]
  $ echo text > fw/none/notes && uimg check --recursive fw/none
  fw/none: skipped 1 file
  uimg: no image
  [2]
  $ uimg check --recursive --allow-empty fw/none
  fw/none: skipped 1 file
  $ uimg check --recursive fw/none fw/a
  fw/none: skipped 1 file
  fw/a/x.itb: ok 1 payload, 4 hashes

Names with any bytes:

  $ mkdir names.d && cp fw/a/x.itb "names.d/$(printf 'a\tb\nc')" && cp fw/a/x.itb "names.d/$(printf 'k\344')"
  $ cp fw/a/x.itb names.d/.hidden && cp fw/a/x.itb names.d/...
  $ uimg check --recursive names.d
  names.d/...: ok 1 payload, 4 hashes
  names.d/.hidden: ok 1 payload, 4 hashes
  names.d/a\x09b\x0ac: ok 1 payload, 4 hashes
  names.d/k\xe4: failed cannot read: the path is not UTF-8
  [3]

Many names in one folder, and many folders in one another:

  $ mkdir many && i=0; while [ $i -lt 3000 ]; do : > many/name-$i; i=$((i + 1)); done
  $ cp fw/a/x.itb many/name-2999 && uimg check --recursive many
  many/name-2999: ok 1 payload, 4 hashes
  many: skipped 2999 files
  $ deep=d; i=0; while [ $i -lt 300 ]; do deep=$deep/d; i=$((i + 1)); done
  $ mkdir -p $deep && cp fw/a/x.itb $deep/x.itb && uimg check --recursive d | sed 's/.*d\/x.itb/x.itb/'
  x.itb: ok 1 payload, 4 hashes
