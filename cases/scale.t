Sources and images of some size
===============================

  $ SOURCE_DATE_EPOCH=0
  $ export SOURCE_DATE_EPOCH
  $ repeat() { yes "$2" | head -n "$1" | tr -d '\n'; }

File names in a source are relative to its folder, also above it:

  $ mkdir -p a/b && printf near > a/b/payload.bin && printf above > a/payload.bin && printf here > payload.bin
  $ cat > a/b/k.its <<'END'
  > /dts-v1/; / { images {
  >     near { data = /incbin/("payload.bin"); };
  >     above { data = /incbin/("../payload.bin"); };
  >     both { data = /incbin/("payload.bin"), /incbin/("../payload.bin"); };
  > }; };
  > END
  $ uimg mkimage -f a/b/k.its k.itb > listing
  $ for i in 0 1 2; do uimg dumpimage -p $i -o out k.itb && cat out && echo; done
  near
  above
  nearabove

An image is read in the format of -T:

  $ uimg dumpimage -T kernel -o out k.itb
  uimg: L2 bad magic
  [1]
  $ wc -c < out
  0
  $ printf abc > abc.bin && uimg mkimage -d abc.bin uImage > listing
  $ uimg dumpimage -T flat_dt -o out uImage
  uimg: B2 bad magic at 0
  [1]

A source of more than 64 KiB, of 300 images; the last has 20 hash nodes and a description of 5000 bytes:

  $ text=$(repeat 500 0123456789)
  $ { echo '/dts-v1/; / { images {'
  >   for i in $(seq 0 298); do echo "    image-$i { description = \"$(repeat 20 0123456789)\"; data = \"$i\"; hash { algo = \"sha256\"; }; };"; done
  >   echo "    last { description = \"$text\"; data = /incbin/(\"abc.bin\");"
  >   for i in $(seq 20); do echo "        hash-$i { algo = \"sha256\"; };"; done
  >   echo '}; }; };'; } > large.its
  $ test $(wc -c < large.its) -gt 65536
  $ uimg mkimage -f large.its large.itb > listing
  $ grep -c '^ Image ' listing
  300
  $ grep -c "^  Description:  $text\$" listing
  1
  $ uimg verify large.itb | sort | uniq -c | sort -rn | head -n 1 | tr -s ' '
   1 last hash-9 sha256 ok
  $ uimg verify large.itb | grep -c 'sha256 ok$'
  319
  $ uimg dumpimage -p 299 -o out large.itb && cmp out abc.bin
  $ grep -c "^  Hash value:   $(sha256sum < abc.bin | cut -d ' ' -f 1)\$" listing
  20
  $ uimg dumpimage -p 298 -o out large.itb && od -An -c out | tr -d ' '
  298\0

A part with a path of 405 bytes, a source with a name of 244, and an address with many leading zeros:

  $ repeat 240 s > name && source=$(cat name).its
  $ mkdir -p "$(repeat 200 d)/$(repeat 200 e)" && cp abc.bin "$(repeat 200 d)/$(repeat 200 e)/abc"
  $ uimg mkimage -a 0x000000000000000080000 -d "$(repeat 200 d)/$(repeat 200 e)/abc" by-path.img | tail -n 1
  Entry Point:  00080000
  $ echo '/dts-v1/; / { images { k { data = "abc"; }; }; };' > "$source" && uimg mkimage -f "$source" by-name.itb > listing
  $ uimg verify by-name.itb
  k - none unhashed
  $ for type in standalone kernel ramdisk multi firmware script filesystem kernel_noload; do uimg dumpimage -T $type -l by-name.itb 2>&1; done | sort | uniq -c | tr -s ' '
   8 uimg: L2 bad magic

60 levels of nodes, and a payload whose name has 3000 bytes:

  $ folder=$(repeat 199 f)
  $ long=$(for i in $(seq 15); do printf %s/ "$folder"; done)
  $ mkdir -p "$long" && cp abc.bin "$long" && printf %s "${long}abc.bin" | wc -c
  3007
  $ { echo "/dts-v1/; / { images { k { data = /incbin/(\"${long}abc.bin\"); hash { algo = \"crc32\"; }; }; };"
  >   repeat 60 'n { '; repeat 60 '}; '; echo '};'; } > deep.its
  $ uimg mkimage -f deep.its deep.itb > listing
  $ uimg verify deep.itb
  k hash crc32 ok
  $ uimg dumpimage -o out deep.itb && cmp out abc.bin
  $ (ulimit -s 256; uimg mkimage -f deep.its small-stack.itb > listing) && cmp deep.itb small-stack.itb
  $ { echo '/dts-v1/; /'; repeat 65 '{ n '; repeat 65 '}; '; } > deeper.its
  $ uimg mkimage -f deeper.its none.itb
  uimg: I3 out of profile: depth at line 2
  [1]

2000 images outside the blob, and an image of 1500 hash nodes:

  $ { echo '/dts-v1/; / { images {'
  >   for i in $(seq 0 1999); do echo "i$i { data = \"$i\"; hash { algo = \"crc32\"; }; };"; done
  >   echo '}; };'; } > many.its
  $ for place in '' -E '-E -p 40000'; do uimg mkimage -f many.its $place many.itb > listing; uimg verify many.itb | grep -c 'crc32 ok$'; done
  2000
  2000
  2000
  $ { echo '/dts-v1/; / { images { k { data = /incbin/("abc.bin");'
  >   for i in $(seq 1500); do echo "hash-$i { algo = \"md5\"; };"; done
  >   echo '}; }; };'; } > hashed.its
  $ uimg mkimage -f hashed.its hashed.itb > listing
  $ uimg verify hashed.itb | grep -c 'md5 ok$'
  1500

2000 images with a configuration, and a value of 70000 bytes with names:

  $ { echo '/dts-v1/; / { description = "d"; images {'
  >   for i in $(seq 0 1999); do echo "i$i { description = \"k\"; type = \"kernel\"; data = \"$i\"; hash { algo = \"crc32\"; }; };"; done
  >   echo "}; configurations { c { loadables = \"i1999\"$(repeat 11666 ', "i1999"'); }; }; };"; } > named.its
  $ uimg mkimage -f named.its named.itb > listing
  $ uimg check named.itb && uimg check --strict named.itb
  named.itb: ok 2000 payloads, 2000 hashes
  named.itb: ok 2000 payloads, 2000 hashes
  $ uimg info named.itb | grep -o '"name":"i[0-9]*"' | wc -l
  2000
  $ uimg map named.itb | grep -c 'payload of i'
  2000
  $ mkdir named && uimg unpack -C named named.itb | tail -n 1 && ls named | wc -l
  i1999: 5 bytes, crc32 f27e82a5
  2000

A file of the source that cannot be read to its end is reported as one (those of sysfs have fewer bytes than their size):

  $ echo '/dts-v1/; / { images { k { data = "x", /incbin/("/sys/kernel/mm/transparent_hugepage/enabled"); }; }; };' > short.its
  $ if test -r /sys/kernel/mm/transparent_hugepage/enabled; then uimg mkimage -f short.its none.itb 2>&1; echo "status $?"; else echo 'uimg: I6 read failed at line 1'; echo 'status 3'; fi
  uimg: I6 read failed at line 1
  status 3
  $ test -e none.itb
  [1]
