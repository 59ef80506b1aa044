The contents of an image's file
===============================

  $ files="$TESTDIR/files" examples="$TESTDIR/../examples"

`patch FILE AT BYTES` sets bytes at an offset of a file:

  $ patch() { printf "$3" | dd of="$1" bs=1 seek="$(($2))" conv=notrunc status=none; }

A payload that is the value of a property is in the structure block:

  $ uimg map "$examples/kernel.itb"
  00000000-00000028        40 #............................... header
  00000028-00000038        16 ##.............................. reservation block
  00000038-00000290       600 .############................... structure
  000000a8-000000ab         3 ...#............................   payload of kernel
  00000290-000002f8       104 ............###................. strings
  000002f8-00000660       872 ..............################## rest

After the blob, from its end on or by its position in the file. An empty payload has its row:

  $ uimg map "$files/external-fit.itb"
  00000000-00000028        40 ##.............................. header
  00000028-00000038        16 .##............................. reservation block
  00000038-000002a0       616 ..#########################..... structure
  000002a0-00000319       121 ..........................###### strings
  00000319-0000031c         3 ...............................# gap
  0000031c-0000031f         3 ...............................# payload of kernel
  0000031f-00000320         1 ...............................# rest
  $ cp "$files/external-fit.itb" empty.itb && patch empty.itb 187 "\0" && uimg map empty.itb
  00000000-00000028        40 ##.............................. header
  00000028-00000038        16 .##............................. reservation block
  00000038-000002a0       616 ..#########################..... structure
  000002a0-00000319       121 ..........................###### strings
  00000319-0000031c         3 ...............................# gap
  0000031c-0000031c         0 ................................ payload of kernel
  0000031c-00000320         4 ...............................# rest

The signature of a configuration covers the payloads of the images that it names; of two such configurations the first is
told. Without its signature node board-1 covers nothing:

  $ uimg map "$files/two-signed.itb"
  00000000-00000028        40 #............................... header
  00000028-00000038        16 #............................... reservation block
  00000038-00000708      1744 ####################............ structure
  0000011c-00000120         4 ...#............................   payload of kernel, covered by board-1
  000001dc-000001e1         5 .....#..........................   payload of board, covered by board-1
  00000708-000007cd       197 ...................###.......... strings
  000007cd-00000bb2       997 .....................########### rest
  $ cp "$files/two-signed.itb" one.itb && patch one.itb $(grep -abo signature-1 one.itb | head -n 1 | cut -d: -f 1) S
  $ uimg map one.itb | grep payload
  0000011c-00000120         4 ...#............................   payload of kernel, covered by rescue
  000001dc-000001e1         5 .....#..........................   payload of board

A row that begins before another has ended says so. An image at a hostile offset covers the header, and two images share
their payload:

  $ uimg map "$files/position-first.itb"
  00000000-00000004         4 #............................... payload of a
  00000000-00000028        40 #######......................... header, overlaps payload of a
  00000028-00000038        16 ......###....................... reservation block
  00000038-000000a4       108 ........#################....... structure
  000000a4-000000cd        41 ........................#######. strings
  000000cd-000000d4         7 ..............................## rest
  $ cp "$files/position-first.itb" over.itb && patch over.itb 131 "\324" && uimg map over.itb
  00000000-00000028        40 #######......................... header
  00000000-000000d4       212 ################################ payload of a, overlaps header
  00000028-00000038        16 ......###....................... reservation block, overlaps payload of a
  00000038-000000a4       108 ........#################....... structure, overlaps payload of a
  000000a4-000000cd        41 ........................#######. strings, overlaps payload of a
  $ uimg map "$files/shared-payload.itb"
  00000000-00000028        40 #####........................... header
  00000028-00000038        16 ....##.......................... reservation block
  00000038-00000118       224 .....########################... structure
  00000118-00000139        33 ............................#### strings
  00000139-0000013c         3 ...............................# gap
  0000013c-0000013f         3 ...............................# payload of a
  0000013c-0000013f         3 ...............................# payload of b, overlaps payload of a

A blob without images, and an image without a payload:

  $ uimg map "$files/no-images.itb"
  00000000-00000028        40 ##################.............. header
  00000028-00000038        16 .................########....... reservation block
  00000038-00000048        16 ........................######## structure
  00000048-00000048         0 ................................ strings
  uimg: F1 no images
  [1]
  $ uimg map "$files/no-data.itb"
  00000000-00000028        40 ########........................ header
  00000028-00000038        16 .......####..................... reservation block
  00000038-00000084        76 ..........################...... structure
  00000084-0000009e        26 .........................######. strings
  0000009e-000000a4         6 ..............................## rest
  uimg: F2 no data
  [1]

A file that was cut short, in the structure block and in the payload:

  $ head -c 100 "$examples/kernel.itb" > cut.itb && uimg map cut.itb
  00000000-00000028        40 #############................... header
  00000004-00000004         0 ................................ fault B4 block outside at 4
  00000028-00000038        16 ............######.............. reservation block
  00000038-00000290       600 .................############### structure, outside the file
  00000290-000002f8       104 ................................ strings, outside the file
  uimg: B4 block outside at 4
  [1]
  $ head -c 797 "$files/external-fit.itb" > cut.itb && uimg map cut.itb
  00000000-00000028        40 ##.............................. header
  00000028-00000038        16 .##............................. reservation block
  00000038-000002a0       616 ..#########################..... structure
  000002a0-00000319       121 ..........................###### strings
  00000319-0000031c         3 ...............................# gap
  0000031c-0000031f         3 ...............................# payload of kernel, outside the file
  uimg: F3 data outside
  [1]

A refused blob has the facts of its header, and the offset of the fault:

  $ cp "$files/external-fit.itb" bad.itb && patch bad.itb 20 "\0\0\0\20" && uimg map bad.itb
  00000000-00000028        40 ##.............................. header
  00000014-00000014         0 ................................ fault B3 bad version at 20
  00000028-00000038        16 .##............................. reservation block
  00000038-000002a0       616 ..#########################..... structure
  000002a0-00000319       121 ..........................###### strings
  00000319-00000320         7 ...............................# rest
  uimg: B3 bad version at 20
  [1]
  $ cp "$files/external-fit.itb" bad.itb && patch bad.itb 56 "\0\0\0\7" && uimg map bad.itb
  00000000-00000028        40 ##.............................. header
  00000028-00000038        16 .##............................. reservation block
  00000038-00000038         0 ................................ fault B5 bad token at 56
  00000038-000002a0       616 ..#########################..... structure
  000002a0-00000319       121 ..........................###### strings
  00000319-00000320         7 ...............................# rest
  uimg: B5 bad token at 56
  [1]
  $ head -c 30 "$examples/kernel.itb" > short.itb && uimg map short.itb
  00000000-00000000         0 ................................ fault B1 too short at 0
  00000000-0000001e        30 ################################ rest
  uimg: B1 too short at 0
  [1]

A reservation block without an entry of zeros before the end of the file:

  $ cp "$files/external-fit.itb" open.itb && patch open.itb 16 "\0\0\3\24" && uimg map open.itb
  00000000-00000028        40 ##.............................. header
  00000028-00000038        16 .##............................. gap
  00000038-000002a0       616 ..#########################..... structure
  000002a0-00000319       121 ..........................###### strings
  00000314-00000330        28 ...............................# reservation block, overlaps strings, outside the file
  0000031c-0000031f         3 ...............................# payload of kernel, overlaps reservation block

No name makes a line of its own:

  $ cp "$files/external-fit.itb" name.itb && patch name.itb 132 "k \n<&," && uimg map name.itb
  00000000-00000028        40 ##.............................. header
  00000028-00000038        16 .##............................. reservation block
  00000038-000002a0       616 ..#########################..... structure
  000002a0-00000319       121 ..........................###### strings
  00000319-0000031c         3 ...............................# gap
  0000031c-0000031f         3 ...............................# payload of k\x20\x0a<&\x2c
  0000031f-00000320         1 ...............................# rest

Legacy images, of parts and of one piece of data:

  $ uimg map "$files/three-part-multi.img"
  00000000-00000040        64 #######################......... header
  00000040-00000050        16 ......................######.... table of sizes
  00000050-00000053         3 ...........................##... part 0
  00000053-00000054         1 ............................#... padding
  00000054-00000058         4 ............................###. part 1
  00000058-0000005d         5 ..............................## part 2
  $ uimg map "$examples/abc-kernel.img"
  00000000-00000040        64 ###############################. header
  00000040-00000043         3 ..............................## data
  $ cp "$files/three-part-multi.img" more.img && echo more >> more.img && uimg map more.img
  00000000-00000040        64 #####################........... header
  00000040-00000050        16 ....................#######..... table of sizes
  00000050-00000053         3 ..........................##.... part 0
  00000053-00000054         1 ...........................#.... padding
  00000054-00000058         4 ...........................##... part 1
  00000058-0000005d         5 ............................###. part 2
  0000005d-00000062         5 ..............................## rest

A part that ends after the data, a table without an end, and data that end after the file:

  $ uimg map "$files/part-outside.img"
  00000000-00000040        64 ##########################...... header
  00000040-0000004c        12 .........................######. table of sizes
  0000004c-0000004f         3 ..............................## part 0
  0000004f-00000050         1 ...............................# padding
  00000050-00000050         0 ................................ fault L7 part outside
  00000050-000000b4       100 ...............................# part 1, outside the file
  uimg: L7 part outside
  [1]
  $ uimg map "$files/no-table-end.img"
  00000000-00000040        64 ###############################. header
  00000040-00000044         4 ..............................## table of sizes
  00000044-00000044         0 ................................ fault L6 no table end
  uimg: L6 no table end
  [1]
  $ uimg map "$files/size-too-large.img"
  00000000-00000040        64 ###############################. header
  00000040-00000044         4 ..............................## data, outside the file
  uimg: L4 truncated
  [1]
  $ head -c 70 "$files/three-part-multi.img" > cut.img && uimg map cut.img
  00000000-00000040        64 ##############################.. header
  00000040-0000005d        29 .............................### table of sizes, outside the file
  uimg: L4 truncated
  [1]
  $ head -c 85 "$files/three-part-multi.img" > cut.img && uimg map cut.img
  00000000-00000040        64 #########################....... header
  00000040-00000050        16 ........................#######. table of sizes
  00000050-00000053         3 ..............................## part 0
  00000053-00000054         1 ...............................# padding
  00000054-00000058         4 ...............................# part 1, outside the file
  00000058-0000005d         5 ................................ part 2, outside the file
  uimg: L4 truncated
  [1]

A refused header, and a file that is no image:

  $ cp "$files/three-part-multi.img" bad.img && patch bad.img 32 x && uimg map bad.img
  00000000-00000040        64 #######################......... header
  00000004-00000004         0 ................................ fault L3 bad header CRC
  00000040-0000005d        29 ......................########## rest
  uimg: L3 bad header CRC
  [1]
  $ printf %064d 0 > zeros && uimg map zeros
  00000000-00000000         0 ................................ fault L2 bad magic
  00000000-00000040        64 ################################ rest
  uimg: L2 bad magic
  [1]
  $ echo hello > hello && uimg map hello
  00000000-00000000         0 ................................ fault L1 too short
  00000000-00000006         6 ################################ rest
  uimg: L1 too short
  [1]
  $ : > none && uimg map none
  00000000-00000000         0 ................................ fault L1 too short
  uimg: L1 too short
  [1]

A picture in place of the lines, one text and one bar for each row, as XML:

  $ cat > look.py << 'END'
  > import sys, xml.dom.minidom
  > picture = xml.dom.minidom.parse(sys.argv[1]).documentElement
  > rows = [row for row in picture.getElementsByTagName("g") if row.getAttribute("class") == "row"]
  > texts, bars = ([row.getElementsByTagName(it)[0] for row in rows] for it in ("text", "rect"))
  > print(picture.tagName, len(texts), len(bars), picture.getElementsByTagName("title")[0].firstChild.data)
  > sys.stdout.writelines(text.firstChild.data + "\n" for text in texts)
  > END
  $ uimg map --svg name.svg name.itb && python3 look.py name.svg
  svg 7 7 name.itb, 800 bytes
  00000000-00000028        40 header
  00000028-00000038        16 reservation block
  00000038-000002a0       616 structure
  000002a0-00000319       121 strings
  00000319-0000031c         3 gap
  0000031c-0000031f         3 payload of k\x20\x0a<&\x2c
  0000031f-00000320         1 rest
  $ uimg map name.itb | cut -c 1-28,62- > lines && python3 look.py name.svg | tail -n +2 | cmp - lines
  $ uimg map --svg cut.svg cut.itb
  uimg: F3 data outside
  [1]
  $ python3 look.py cut.svg | head -n 1
  svg 6 6 cut.itb, 797 bytes
  $ cp name.itb 'a<b&c>.itb' && uimg map --svg odd.svg 'a<b&c>.itb' && python3 look.py odd.svg | head -n 1
  svg 7 7 a<b&c>.itb, 800 bytes
  $ ls *uimg-new*
  ls: cannot access '*uimg-new*': No such file or directory
  [2]

Bars have the colour of what they are: an item is blue, unused bytes are grey, what ends outside the file is purple, the
offset of a fault has a red mark, and a payload that a signature covers is green:

  $ colours() { grep -A 9 '<g' "$1" | grep -o 'fill="#[0-9a-f]*"' | cut -c 7-13 | sort | uniq -c | tr -s ' '; }
  $ colours name.svg && colours cut.svg
   5 #3465a4
   2 #d3d7cf
   4 #3465a4
   1 #75507b
   1 #d3d7cf
  $ uimg map --svg bad.svg bad.img
  uimg: L3 bad header CRC
  [1]
  $ colours bad.svg
   1 #3465a4
   1 #cc0000
   1 #d3d7cf
  $ uimg map --svg one.svg one.itb && colours one.svg
   5 #3465a4
   1 #4e9a06
   1 #d3d7cf

An existing file is replaced with --force alone, when the picture is complete, also through a link:

  $ cp name.itb image.itb && ln -s image.itb link && echo old > old.svg && ln -s old.svg link.svg && ln -s none.svg nothing.svg && uimg map --svg image.svg image.itb
  $ for name in old link nothing; do uimg map --svg $name.svg image.itb; done
  uimg: old.svg exists; use --force to replace it
  uimg: link.svg exists; use --force to replace it
  uimg: nothing.svg exists; use --force to replace it
  [3]
  $ cat old.svg && test ! -e none.svg && uimg map --force --svg nothing.svg image.itb && cmp none.svg image.svg
  old
  $ uimg map --force --svg link.svg image.itb && test -L link.svg && cmp image.svg old.svg

It never replaces the image:

  $ uimg map --force --svg image.itb image.itb
  uimg: image.itb would be written while it is read
  [2]
  $ uimg map --force --svg link image.itb
  uimg: link would be written while it is read
  [2]
  $ cmp name.itb image.itb
  $ uimg map --svg nowhere/a.svg image.itb
  uimg: cannot write nowhere/a.svg: No such file or directory (os error 2)
  [3]
  $ uimg map --svg /dev/full image.itb
  uimg: cannot write /dev/full: No space left on device (os error 28)
  [3]
  $ mkdir -p taken && uimg map --svg taken image.itb
  uimg: cannot write taken: Is a directory (os error 21)
  [3]
  $ uimg map --svg image.itb/a.svg image.itb
  uimg: cannot write image.itb/a.svg: Not a directory (os error 20)
  [3]
  $ uimg map --svg - image.itb
  uimg: --svg -: standard output is not supported; for a file of that name use ./-
  [2]
  $ test ! -e ./- && uimg map --svg ./- image.itb && cmp ./- image.svg && rm ./-
  $ uimg map --svg /dev/stdout image.itb | cmp - image.svg

Texts that are too long are cut, with the whole text as a title; of many rows 1000 are drawn:

  $ long=$(printf 'n%.0s' $(seq 100)) && echo "/dts-v1/; / { images { $long { data = [61 62 63]; }; }; };" > k.its && uimg mkimage -f k.its $long.itb > listing && uimg map --svg long.svg $long.itb
  $ grep -c '…' long.svg && grep -o 'payload of n*…' long.svg | tr -d '\n' | wc -m && grep -c "<title>.*payload of $long</title>" long.svg
  2
  84
  1
  $ python3 - <<'END'
  > import struct, zlib
  > data = struct.pack(">I", 4) * 1200 + bytes(4) + bytes(4) * 1200
  > fields, rest = [0x27051956, 0, 0, len(data), 0, 0, zlib.crc32(data)], bytes([5, 2, 4, 0]) + bytes(32)
  > fields[1] = zlib.crc32(struct.pack(">7I", *fields) + rest)
  > open("many.img", "wb").write(struct.pack(">7I", *fields) + rest + data)
  > END
  $ uimg map --svg many.svg many.img && python3 look.py many.svg | grep svg && tail -n 2 many.svg
  svg 1000 1000 many.img, 9668 bytes
  <text x="10" y="40084">and 202 more rows</text>
  </svg>

A file that cannot be read, a full device, and lines that nobody reads:

  $ mkdir folder && mkfifo pipe && uimg map missing
  uimg: cannot read missing: No such file or directory (os error 2)
  [3]
  $ uimg map folder
  uimg: cannot read folder: Is a directory (os error 21)
  [3]
  $ uimg map pipe
  uimg: cannot read pipe: it is a pipe
  [3]
  $ uimg map image.itb > /dev/full
  uimg: cannot write standard output: No space left on device (os error 28)
  [3]
  $ (sleep 0.5; uimg map image.itb 2> said; echo "status $?" >> said) | true; cat said
  status 3
  $ uimg map
  error: the following required arguments were not provided:
    <image>
  
  Usage: uimg map <image>
  
  For more information, try '--help'.
  [2]
