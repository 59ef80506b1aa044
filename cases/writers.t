Two programs that write one image, and links planted under temporary names
===========================================================================

  $ for name in mkimage dumpimage; do ln -s "$(command -v uimg)" $name; done
  $ PATH=$PWD:$PATH && export SOURCE_DATE_EPOCH=1700000000

Of two programs that write the same file at once, each ends with status 0, and the file is one of the two images; so 40 times,
with images of 300,000 bytes:

  $ python3 - <<'END'
  > import subprocess
  > for name in "ab":
  >     open(name, "w").write(name * 300000)
  >     subprocess.run(["mkimage", "-q", "-A", "arm", "-d", name, name + ".img"], check=True)
  > images = [open(name + ".img", "rb").read() for name in "ab"]
  > for count in range(40):
  >     both = [subprocess.Popen(["mkimage", "-q", "-A", "arm", "-d", name, "out.img"]) for name in "ab"]
  >     assert [it.wait() for it in both] == [0, 0]
  >     assert open("out.img", "rb").read() in images
  >     both = [subprocess.Popen(["dumpimage", "-o", "out", name + ".img"], stdout=subprocess.DEVNULL) for name in "ab"]
  >     assert [it.wait() for it in both] == [0, 0]
  >     assert open("out").read() in ("a" * 300000, "b" * 300000)
  > END
  $ ls *.uimg-new*
  ls: cannot access '*.uimg-new*': No such file or directory
  [2]

Links that another plants under the temporary names all the time are never written through:

  $ python3 - <<'END'
  > import os, subprocess, threading
  > victim, is_over = "victim", threading.Event()
  > open(victim, "w").close()
  > def plant():
  >     while not is_over.is_set():
  >         for name in "planted.img", "planted":
  >             try:
  >                 os.symlink(victim, name + ".uimg-new1")
  >                 os.remove(name + ".uimg-new1")
  >             except OSError:
  >                 pass
  > planter = threading.Thread(target=plant, daemon=True)
  > planter.start()
  > for count in range(40):
  >     subprocess.run(["mkimage", "-q", "-A", "arm", "-d", "a", "planted.img"], check=True)
  >     subprocess.run(["dumpimage", "-o", "planted", "a.img"], stdout=subprocess.DEVNULL, check=True)
  > is_over.set()
  > planter.join()
  > print(os.path.getsize(victim), os.path.islink("planted.img"), os.path.islink("planted"))
  > END
  0 False False
  $ cmp planted.img a.img && cmp planted a

A hundred files that stopped programs left stop nobody:

  $ for number in $(seq 100); do echo > out.img.uimg-new$number; done
  $ mkimage -q -A arm -d a out.img && cmp out.img a.img && rm out.img.uimg-new* && ls out*
  out
  out.img
