Values of some size
===================

A value of 18 MiB in memory, on a node with 300 names of properties, and a fault on a line beyond 65536:

  $ head -c 9437184 /dev/zero > zeros
  $ { echo '/dts-v1/; / { images { k { data = /incbin/("zeros"), /incbin/("zeros");'
  >   for i in $(seq 300); do echo "p-$i = <$i>;"; done
  >   echo 'hash { algo = "crc32"; }; }; }; };'; } > wide.its
  $ uimg mkimage -f wide.its wide.itb > listing
  $ uimg verify wide.itb
  k hash crc32 ok
  $ uimg dumpimage -o out wide.itb && wc -c < out
  18874368
  $ for i in $(seq 300); do grep -acF "p-$i" wide.itb; done | sort -u
  1
  $ { yes '' | head -n 70000; echo '/dts-v1/; ;'; } > lines.its
  $ uimg mkimage -f lines.its none.itb
  uimg: I2 bad syntax at line 70001
  [1]
