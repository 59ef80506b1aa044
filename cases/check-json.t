Checks of many images, an object of JSON for each
=================================================

  $ files="$TESTDIR/files"

`cell FILE AT BYTE..` sets bytes of a file at an offset:

  $ cell() {
  >     to=$1 at=$2; shift 2
  >     printf "$(printf '\\%03o' "$@")" | dd of=$to bs=1 seek=$at conv=notrunc status=none
  > }

`fit IMAGES` makes a FIT image k.itb with these images:

  $ fit() {
  >     echo "/dts-v1/; / { description = \"d\"; images { $1 }; };" > k.its
  >     SOURCE_DATE_EPOCH=0 uimg mkimage -f k.its k.itb > /dev/null
  > }

Legacy images:

  $ cp "$files/abc-kernel.img" kernel.img
  $ cp kernel.img data.img && printf b | dd of=data.img bs=1 seek=64 conv=notrunc status=none
  $ head -c 63 kernel.img > short.img
  $ cp "$files/size-too-large.img" cut.img
  $ cp kernel.img name.img && printf 1 | dd of=name.img bs=1 seek=32 conv=notrunc status=none
  $ cp "$files/no-table-end.img" . && uimg check --json name.img no-table-end.img
  {"path":"name.img","status":1,"verdict":"refused","format":"legacy","fault":"L3","message":"L3 bad header CRC"}
  {"path":"no-table-end.img","status":1,"verdict":"refused","format":"legacy","fault":"L6","message":"L6 no table end"}
  [1]
  $ uimg check --json kernel.img data.img short.img cut.img none.img
  {"path":"kernel.img","status":0,"verdict":"ok","format":"legacy","checksums":2}
  {"path":"data.img","status":1,"verdict":"bad","format":"legacy"}
  {"path":"short.img","status":1,"verdict":"refused","format":"legacy","fault":"L1","message":"L1 too short"}
  {"path":"cut.img","status":1,"verdict":"refused","format":"legacy","fault":"L4","message":"L4 truncated"}
  {"path":"none.img","status":3,"verdict":"failed","message":"cannot read: No such file or directory (os error 2)"}
  [3]
  $ uimg check --json --need md5 kernel.img
  {"path":"kernel.img","status":1,"verdict":"weak","format":"legacy","algo":"crc32"}
  [1]

All control characters of a path are escaped, DEL and U+0085 too, and no other character, such as U+00A0 and U+00E9:

  $ name=$(printf 'd\177e\302\205\302\240\303\251\033.img') && cp kernel.img "$name" && uimg check --json "$name"
  {"path":"d\\u007fe\\u0085\xc2\xa0\xc3\xa9\\u001b.img","status":0,"verdict":"ok","format":"legacy","checksums":2} (esc)
  $ uimg info "$name" | cut -c 1-47
  {"path":"d\\u007fe\\u0085\xc2\xa0\xc3\xa9\\u001b.img","status" (esc)

FIT images:

  $ for name in four-hash-fit one-bad-hash sha3-node no-data no-images; do cp "$files/$name.itb" .; done
  $ uimg check --json four-hash-fit.itb one-bad-hash.itb sha3-node.itb no-data.itb no-images.itb
  {"path":"four-hash-fit.itb","status":0,"verdict":"ok","format":"fit","images":1,"hashes":4}
  {"path":"one-bad-hash.itb","status":1,"verdict":"bad","format":"fit","image":"a","hash":"hash"}
  {"path":"sha3-node.itb","status":1,"verdict":"unsupported","format":"fit","image":"b","hash":"hash-1"}
  {"path":"no-data.itb","status":1,"verdict":"refused","format":"fit","fault":"F2","message":"F2 no data"}
  {"path":"no-images.itb","status":1,"verdict":"refused","format":"fit","fault":"F1","message":"F1 no images"}
  [1]
  $ cp "$files/hash-words.itb" . && uimg check --json hash-words.itb
  {"path":"hash-words.itb","status":1,"verdict":"malformed","format":"fit","image":"a","hash":"hash"}
  [1]
  $ fit 'a { data = "abc"; hash-1 { algo = "crc32"; }; }; b { data = "de"; };'
  $ uimg check --json k.itb
  {"path":"k.itb","status":0,"verdict":"unhashed","format":"fit","image":"b"}
  $ uimg check --json --need md5 k.itb
  {"path":"k.itb","status":1,"verdict":"weak","format":"fit","image":"a"}
  [1]
  $ fit ''
  $ uimg check --json k.itb
  {"path":"k.itb","status":0,"verdict":"ok","format":"fit","images":0,"hashes":0}
  $ uimg check --json --need crc32 k.itb
  {"path":"k.itb","status":1,"verdict":"empty","format":"fit"}
  [1]

With --strict the object of a right image has a count of its configurations' nodes, which are not checked; no other has:

  $ fit2() {
  >     images='a { data = "abc"; hash-1 { algo = "crc32"; }; };'
  >     echo "/dts-v1/; / { description = \"d\"; images { $images }; configurations { $1 }; };" > k.its
  >     SOURCE_DATE_EPOCH=0 uimg mkimage -f k.its k.itb > /dev/null
  > }
  $ fit2 'c { kernel = "a"; hash-1 { algo = "sha1"; }; signature-1 { algo = "sha1,rsa2048"; }; }; d { script = "a"; };'
  $ uimg check --json k.itb && uimg check --json --strict k.itb kernel.img
  {"path":"k.itb","status":0,"verdict":"ok","format":"fit","images":1,"hashes":1}
  {"path":"k.itb","status":0,"verdict":"ok","format":"fit","images":1,"hashes":1,"unchecked":2}
  {"path":"kernel.img","status":0,"verdict":"ok","format":"legacy","checksums":2}
  $ fit2 'c { kernel = "a"; };' && uimg check --json --strict k.itb four-hash-fit.itb
  {"path":"k.itb","status":0,"verdict":"ok","format":"fit","images":1,"hashes":1,"unchecked":0}
  {"path":"four-hash-fit.itb","status":0,"verdict":"ok","format":"fit","images":1,"hashes":4,"unchecked":0}
  $ fit2 'c { kernel = "a"; script = "b"; signature { }; };' && uimg check --json --strict k.itb
  {"path":"k.itb","status":1,"verdict":"missing","format":"fit","configuration":"c","property":"script","name":"b"}
  [1]
  $ fit2 'c { kernel = "a"; signature { }; };' && uimg check --json --strict --need md5 k.itb
  {"path":"k.itb","status":1,"verdict":"weak","format":"fit","image":"a"}
  [1]

A fault of the blob has its offset. The version is at 20, and the first token, after the header of 40 bytes and an empty reservation block of 16, at 56; 5 is no token:

  $ fit 'a { data = "abc"; };' && cp k.itb version.itb && cell version.itb 23 16
  $ uimg check version.itb
  version.itb: refused B3 bad version at 20
  [1]
  $ uimg check --json version.itb
  {"path":"version.itb","status":1,"verdict":"refused","format":"fit","fault":"B3","message":"B3 bad version at 20","offset":20}
  [1]
  $ cell k.itb 59 5
  $ uimg check --json k.itb
  {"path":"k.itb","status":1,"verdict":"refused","format":"fit","fault":"B5","message":"B5 bad token at 56","offset":56}
  [1]

Payloads that overlap, of two images with the same 4000 bytes after the tree:

  $ head -c 4000 /dev/zero > zeros
  $ fit 'a { data = /incbin/("zeros"); hash-1 { algo = "crc32"; }; }; b { data = /incbin/("zeros"); hash-1 { algo = "crc32"; }; };'
  $ uimg mkimage -f k.its -E k.itb > /dev/null
  $ python3 - <<'END'
  > import re
  > image = open("k.itb", "rb").read()
  > _, at, _ = [it.start() for it in re.finditer(rb"\0\0\x0f\xa0", image)]
  > open("shared.itb", "wb").write(image[:at] + bytes(4) + image[at + 4:-4000])
  > END
  $ uimg check --json shared.itb
  {"path":"shared.itb","status":1,"verdict":"overlapping","format":"fit","image":"b"}
  [1]

Names: quotes, backslashes and control characters are escaped by RFC 8259, and all other UTF-8 is unchanged. A name that is not UTF-8 has U+FFFD in place of what is not, and its bytes in base64 beside it:

  $ fit 'kernel { data = "abcd"; hash-2 { algo = "crc32"; }; };'
  $ at=$(grep -abo abcd k.itb | cut -d: -f 1) && cell k.itb $at 65
  $ python3 - <<'END'
  > image = bytearray(open("k.itb", "rb").read())
  > name, hash = image.index(b"kernel\0"), image.index(b"hash-2\0")
  > image[name:name + 6] = b"\"\n\\\x7f\x1b/"
  > open("name.itb", "wb").write(image)
  > image[name:name + 6] = "k\u00e4\u2028".encode()
  > open("text.itb", "wb").write(image)
  > image[name:name + 6] = b"k\xe4\xff\xfen\t"
  > open("bytes.itb", "wb").write(image)
  > image[hash:hash + 6] = b"hash\xc3\""
  > open("both.itb", "wb").write(image)
  > END
  $ uimg check --json name.itb
  {"path":"name.itb","status":1,"verdict":"bad","format":"fit","image":"\"\n\\\u007f\u001b/","hash":"hash-2"}
  [1]
  $ uimg check --json text.itb
  {"path":"text.itb","status":1,"verdict":"bad","format":"fit","image":"k\xc3\xa4\xe2\x80\xa8","hash":"hash-2"} (esc)
  [1]
  $ uimg check --json bytes.itb
  {"path":"bytes.itb","status":1,"verdict":"bad","format":"fit","image":"k\xef\xbf\xbd\xef\xbf\xbd\xef\xbf\xbdn\\t","image_base64":"a+T//m4J","hash":"hash-2"} (esc)
  [1]
  $ uimg check --json both.itb
  {"path":"both.itb","status":1,"verdict":"bad","format":"fit","image":"k\xef\xbf\xbd\xef\xbf\xbd\xef\xbf\xbdn\\t","image_base64":"a+T//m4J","hash":"hash\xef\xbf\xbd\\"","hash_base64":"aGFzaMMi"} (esc)
  [1]
  $ cp kernel.img "$(printf 'a"\n}')" && uimg check --json "$(printf 'a"\n}')"
  {"path":"a\"\n}","status":0,"verdict":"ok","format":"legacy","checksums":2}

Paths from a file, with one that is not UTF-8:

  $ printf 'k\344\nkernel.img\n' | uimg check --json --files-from -
  {"path":"k\xef\xbf\xbd","path_base64":"a+Q=","status":3,"verdict":"failed","message":"cannot read: the path is not UTF-8"} (esc)
  {"path":"kernel.img","status":0,"verdict":"ok","format":"legacy","checksums":2}
  [3]
  $ printf 'kernel.img\0' | uimg check -0 --json --files-from -
  {"path":"kernel.img","status":0,"verdict":"ok","format":"legacy","checksums":2}
  $ uimg check --json kernel.img --files-from none
  {"path":"kernel.img","status":0,"verdict":"ok","format":"legacy","checksums":2}
  uimg: cannot read none: No such file or directory (os error 2)
  [3]

Lines that cannot be written, and that nobody reads:

  $ uimg check --json kernel.img > /dev/full
  uimg: cannot write standard output: No space left on device (os error 28)
  [3]
  $ (sleep 0.5; uimg check --json kernel.img 2> said; echo "status $?" >> said) | true
  $ cat said
  status 3

Wrong command lines:

  $ uimg check --json
  uimg: no image
  [2]
  $ uimg check --json=1 kernel.img > said 2>&1
  [2]
