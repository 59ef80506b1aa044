Images that another program rewrites while they are unpacked
============================================================

A FIT image is written over in place, again and again, by another one of the same length, each with two payloads of 128 KiB. What
`unpack` takes as right is whole, of one image or the other, and one payload may be of the one and the second of the other.
Where a payload is a mixture, or a hash of the other image was read, nothing in the folder has changed:

  $ cat > make.sh <<'END'
  > for name in a b; do
  >     head -c 131072 /dev/zero | tr '\0' $name > kernel.$name
  >     head -c 131072 /dev/zero | tr '\0' $(echo $name | tr ab cd) > ramdisk.$name
  >     cat > $name.its <<ITS
  > /dts-v1/;
  > / { description = "d"; images {
  >     kernel { description = "k"; data = /incbin/("kernel.$name"); hash-1 { algo = "crc32"; }; };
  >     ramdisk { description = "r"; data = /incbin/("ramdisk.$name"); hash-1 { algo = "crc32"; }; }; }; };
  > ITS
  >     SOURCE_DATE_EPOCH=1700000000 uimg mkimage -f $name.its $name.itb > /dev/null || exit
  > done
  > END
  $ sh make.sh && cmp -s a.itb b.itb
  [1]
  $ cat > rewrite.py <<'END'
  > import os, subprocess, sys, threading
  > images = [open(name, "rb").read() for name in ("a.itb", "b.itb")]
  > payloads = {"kernel": ("a", "b"), "ramdisk": ("c", "d")}
  > is_over, seen = threading.Event(), set()
  > def rewrite():
  >     with open("k.itb", "r+b", buffering=0) as file:
  >         while not is_over.is_set():
  >             for image in images:
  >                 for at in range(0, len(image), 16384):
  >                     os.pwrite(file.fileno(), image[at : at + 16384], at)
  > open("k.itb", "wb").write(images[0])
  > os.mkdir("out")
  > open("out/kernel", "w").write("old")
  > writer = threading.Thread(target=rewrite, daemon=True)
  > writer.start()
  > for count in range(40):
  >     before = {name: open(f"out/{name}", "rb").read() for name in os.listdir("out")}
  >     status = subprocess.run(["uimg", "unpack", "--force", "--no-sync", "-C", "out", "k.itb"], capture_output=True).returncode
  >     after = {name: open(f"out/{name}", "rb").read() for name in os.listdir("out")}
  >     seen.add(status)
  >     if status:
  >         assert after == before, (status, sorted(after))
  >         continue
  >     assert sorted(after) == ["kernel", "ramdisk"], sorted(after)
  >     for name, letters in payloads.items():
  >         assert after[name] in [letter.encode() * 131072 for letter in letters], name
  > is_over.set()
  > writer.join()
  > print("never another status:", seen <= {0, 1})
  > END
  $ python3 rewrite.py
  never another status: True
