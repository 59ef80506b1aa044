Refused image sources
=====================

  $ printf abc > abc.bin
  $ printf abc > a
  $ SOURCE_DATE_EPOCH=0
  $ export SOURCE_DATE_EPOCH

`refused TEXT` makes an image of a source, and says if an outfile exists then:

  $ refused() {
  >     printf '%s' "$1" > r.its
  >     uimg mkimage -f r.its r.itb
  >     set $?
  >     test ! -e r.itb || echo there is an outfile
  >     return $1
  > }

refused-sources, one by one. The empty text, and an open comment:

  $ refused ''
  uimg: I2 bad syntax at line 1
  [1]
  $ refused '/* open'
  uimg: I1 bad token at line 1
  [1]
  $ refused '/dts-v1/;
  > / { };
  > /* open'
  uimg: I1 bad token at line 3
  [1]

An open string, and a byte that begins no word:

  $ refused '/dts-v1/; / { v = "a; };'
  uimg: I1 bad token at line 1
  [1]
  $ refused '/dts-v1/;
  > / { v = !; };'
  uimg: I1 bad token at line 2
  [1]

Constructs outside the profile:

  $ refused '/dts-v1/;
  > // sample
  > / {
  >     /* mixed */
  >     lab: v = &ref;
  >     e;
  > };'
  uimg: I3 out of profile: reference at line 5
  [1]
  $ refused '#include "x"'
  uimg: I3 out of profile: preprocessor at line 1
  [1]
  $ refused '/dts-v1/; /memreserve/ 0 1; / { };'
  uimg: I3 out of profile: directive at line 1
  [1]
  $ refused '/dts-v1/; / { }; / { };'
  uimg: I3 out of profile: second root at line 1
  [1]
  $ refused '/dts-v1/; / { v = <(1)>; };'
  uimg: I3 out of profile: expression at line 1
  [1]
  $ refused "/dts-v1/; / { v = 'a'; };"
  uimg: I3 out of profile: character literal at line 1
  [1]
  $ refused '/dts-v1/; / { v = "\q"; };'
  uimg: I3 out of profile: escape at line 1
  [1]
  $ refused '/dts-v1/; / { v = /incbin/("a", 0, 1); };'
  uimg: I3 out of profile: incbin range at line 1
  [1]

64 levels, 65 levels:

  $ levels() { echo "/dts-v1/; / {$(printf "%0$1d" 0 | sed 's/0/ n {/g')$(printf "%0$1d" 0 | sed 's/0/ };/g') };"; }
  $ refused "$(levels 63)"
  uimg: F1 no images
  [1]
  $ refused "$(levels 64)"
  uimg: I3 out of profile: depth at line 1
  [1]

Syntax:

  $ refused '/dts-v1/; / { a { }; v; };'
  uimg: I2 bad syntax at line 1
  [1]
  $ refused '/dts-v1/;
  > / { v = "a"'
  uimg: I2 bad syntax at line 2
  [1]
  $ refused "/dts-v1/; / { $(printf '%0256d' 0 | tr 0 a); };"
  uimg: I2 bad syntax at line 1
  [1]
  $ refused "/dts-v1/; / { $(printf '%0255d' 0 | tr 0 a); };"
  uimg: F1 no images
  [1]

Numbers:

  $ refused '/dts-v1/;
  > / { v = <08>; };'
  uimg: I4 bad number at line 2
  [1]
  $ refused '/dts-v1/; / { v = <4294967296>; };'
  uimg: I4 bad number at line 1
  [1]
  $ refused '/dts-v1/; / { v = [0]; };'
  uimg: I4 bad number at line 1
  [1]

Files: one that does not exist, a folder, and a name that is not UTF-8.

  $ refused '/dts-v1/;
  > / { images { a {
  >     data = /incbin/("none.bin"); }; }; };'
  uimg: I5 no file at line 3
  [3]
  $ refused '/dts-v1/; / { v = /incbin/("none"); };'
  uimg: I5 no file at line 1
  [3]
  $ refused '/dts-v1/; / { v = /incbin/("."); };'
  uimg: I5 no file at line 1
  [3]
  $ refused '/dts-v1/; / { v = /incbin/("\xff"); };'
  uimg: I5 no file at line 1
  [3]
  $ refused '/dts-v1/; / { v = /incbin/("\0"); };'
  uimg: I5 no file at line 1
  [3]
  $ refused '/dts-v1/; / { v = /incbin/(""); };'
  uimg: I5 no file at line 1
  [3]

Trees: no images, an image without data, a hash node without an algorithm, and one with an unknown algorithm.

  $ refused '/dts-v1/; / { };'
  uimg: F1 no images
  [1]
  $ refused '/dts-v1/; / { images { a { data = []; }; b { hash { algo = "x"; }; }; }; };'
  uimg: F2 no data
  [1]
  $ refused '/dts-v1/; / { images { a { data = []; hash { }; }; }; };'
  uimg: F5 unknown algorithm
  [1]
  $ refused '/dts-v1/; / { images { a { data = /incbin/("abc.bin");
  > hash-1 { algo = "crc32"; }; hash-2 { algo = "sha3"; }; }; }; };'
  uimg: F5 unknown algorithm
  [1]

The file would have more than 4294967295 bytes:

  $ truncate -s 4294967296 huge
  $ refused '/dts-v1/; / { images { a { data = /incbin/("huge"); }; }; };'
  uimg: F7 too large
  [1]
  $ truncate -s 4294967200 large
  $ refused '/dts-v1/; / { images { a { data = /incbin/("large"); }; }; };'
  uimg: F7 too large
  [1]
  $ echo '/dts-v1/; / { images { a { data = /incbin/("large"); }; }; };' > large.its
  $ uimg mkimage -f large.its -E large.itb
  uimg: F7 too large
  [1]
  $ test -e large.itb
  [1]

A file whose size is not the number of its bytes, like those of sysfs, counts as a failed read: in `compile`
if it is among other values, else when it is hashed, else when it is written.

  $ test -r /sys/devices/system/cpu/online
  $ refused '/dts-v1/; / { v = /incbin/("/sys/devices/system/cpu/online"), [00]; };'
  uimg: I6 read failed at line 1
  [3]
  $ refused '/dts-v1/; / { images { a { data = /incbin/("/sys/devices/system/cpu/online"); hash { algo = "md5"; }; }; }; };'
  uimg: F10 read failed
  [3]
  $ echo '/dts-v1/; / { images { a { data = /incbin/("/sys/devices/system/cpu/online"); }; }; };' > sys.its
  $ uimg mkimage -f sys.its sys.itb
  uimg: read failed
  [3]
  $ head -c 4 sys.itb | od -An -tx1
   d0 0d fe ed

files-that-fail: a file can be opened before the image is begun, and not beside it, since only the three streams and the
image may be open. What was written of the image is left:

  $ cat > two.its <<'EOF'
  > /dts-v1/;
  > / { images { a { data = /incbin/("abc.bin"); hash { algo = "md5"; }; }; }; };
  > EOF
  $ (ulimit -n 4; uimg mkimage -f two.its two.itb)
  uimg: F9 no file
  [3]
  $ uimg mkimage -f two.its whole.itb > listing
  $ head -c $(wc -c < two.itb) whole.itb | cmp - two.itb
