Paths on standard error, by the rule of names in lines
======================================================

  $ for name in mkimage dumpimage; do ln -s "$(command -v uimg)" $name; done
  $ PATH=$PWD:$PATH && path=$(printf 'a\033[31mb') && cp "$TESTDIR/../examples/three-part.img" k.img

A path with characters that a terminal obeys is printed without them:

  $ uimg map "$path"
  uimg: cannot read a\x1b[31mb: No such file or directory (os error 2)
  [3]
  $ uimg unpack "$path"
  uimg: cannot read a\x1b[31mb: No such file or directory (os error 2)
  [3]
  $ uimg check --files-from "$path"
  uimg: cannot read a\x1b[31mb: No such file or directory (os error 2)
  [3]
  $ uimg map --svg "none/$path" k.img
  uimg: cannot write none/a\x1b[31mb: No such file or directory (os error 2)
  [3]
  $ cp k.img "$path" && uimg map --svg "$path" k.img
  uimg: a\x1b[31mb exists; use --force to replace it
  [3]
  $ uimg map --svg "$path" "$path"
  uimg: a\x1b[31mb would be written while it is read
  [2]
  $ uimg unpack -C "none/$path" k.img
  uimg: cannot create none/a\x1b[31mb/image-0: No such file or directory (os error 2)
  [3]
  $ rm "$path" && dumpimage -l "$path"
  dumpimage: cannot read a\x1b[31mb: No such file or directory (os error 2)
  [3]
  $ mkimage -A arm -d k.img "none/$path"
  mkimage: cannot write none/a\x1b[31mb: No such file or directory (os error 2)
  [3]
  $ head -c 70 k.img > "$path" && dumpimage -l "$path"
  dumpimage: a\x1b[31mb: L4 truncated
  [1]

A path that is not UTF-8 cannot be read, but a symbolic link to the file can:

  $ cp k.img "$(printf 'a\377')" && ln -s "$(printf 'a\377')" link.img && printf 'a\377\n' > names
  $ uimg check --files-from names link.img
  link.img: ok 2 checksums
  a\xff: failed cannot read: the path is not UTF-8
  [3]
