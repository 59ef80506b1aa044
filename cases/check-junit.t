Reports of a check for CI, in JUnit's XML
=========================================

  $ files="$TESTDIR/files"
  $ cp "$files/abc-kernel.img" kernel.img && cp "$files/four-hash-fit.itb" "$files/one-bad-hash.itb" "$files/no-images.itb" .

A report has a test case for each image, also for those without a line. What is refused or not right is a failure, what
cannot be read an error. Both have the word and the line of the check:

  $ uimg check --quiet --junit report.xml kernel.img one-bad-hash.itb none.img
  one-bad-hash.itb: bad a hash
  none.img: failed cannot read: No such file or directory (os error 2)
  [3]
  $ cat report.xml
  <?xml version="1.0" encoding="UTF-8"?>
  <testsuites>
    <testsuite name="uimg check" tests="3" failures="1" errors="1" time="0">
      <testcase name="kernel.img" classname="uimg.check" time="0"/>
      <testcase name="one-bad-hash.itb" classname="uimg.check" time="0">
        <failure type="bad" message="one-bad-hash.itb: bad a hash">one-bad-hash.itb: bad a hash</failure>
      </testcase>
      <testcase name="none.img" classname="uimg.check" time="0">
        <error type="failed" message="none.img: failed cannot read: No such file or directory (os error 2)">none.img: failed cannot read: No such file or directory (os error 2)</error>
      </testcase>
    </testsuite>
  </testsuites>

`report IMAGE..` checks images, validates the report by the schema, and prints what a parser reads in it: the counts, and of
each test case the name, the type and the message:

  $ cat > read.py << 'END'
  > import sys, xml.etree.ElementTree as tree
  > suite = tree.parse(sys.argv[1]).getroot()[0]
  > print(*(suite.get(name) for name in ("tests", "failures", "errors")))
  > for case in suite:
  >     print(ascii(case.get("name")), *("%s %s %s" % (it.tag, it.get("type"), ascii(it.get("message"))) for it in case))
  >     assert all(it.text == it.get("message") for it in case) and case.get("classname") == "uimg.check"
  > END
  $ schema="$TESTDIR/../docs/junit.xsd"
  $ valid() { if command -v xmllint > /dev/null; then xmllint --noout --schema "$schema" "$1" 2>&1; else echo "$1 validates"; fi; }
  $ report() { uimg check --junit it.xml "$@" > lines; valid it.xml && python3 read.py it.xml; }

  $ report one-bad-hash.itb four-hash-fit.itb
  it.xml validates
  2 1 0
  'one-bad-hash.itb' failure bad 'one-bad-hash.itb: bad a hash'
  'four-hash-fit.itb'

The name of a test case is the path as the line has it. No byte of a path ends an attribute, or begins a tag or an entity:

  $ name='a"b<c>d&amp;e'\''f]]>.img' && cp kernel.img "$name" && cp kernel.img 'a b,c\.img' && cp kernel.img "$(printf 'x\1\t\n\302\205\357\277\277\360\237\230\200.img')" && printf 'no\377.img\n' > odd
  $ report "$name" 'a b,c\.img' x*.img '' --files-from odd
  it.xml validates
  5 0 2
  'a"b<c>d&amp;e\'f]]>.img'
  'a b,c\\x5c.img'
  'x\\x01\\x09\\x0a\\xc2\\x85\\xef\\xbf\\xbf\U0001f600.img'
  '' error failed ': failed cannot read: No such file or directory (os error 2)'
  'no\\xff.img' error failed 'no\\xff.img: failed cannot read: the path is not UTF-8'
  $ python3 - << 'END'
  > import subprocess, xml.etree.ElementTree as tree
  > names = [bytes([one, two]) + b".img" for one in range(1, 256) for two in (65, 191)]
  > names += [("%c.img" % it).encode("utf-8", "surrogatepass") for it in [*range(1, 0x100), 0x2028, 0xd7ff, 0xd800, 0xdfff, 0xe000, *range(0xfff8, 0x10002), 0x10ffff]]
  > names = [it for it in names if b"/" not in it and b"\n" not in it]
  > open("names", "wb").write(b"\n".join(names))
  > ended = subprocess.run(["uimg", "check", "--junit", "all.xml", "--files-from", "names"], stdout=subprocess.PIPE)
  > lines = ended.stdout.decode().split("\n")[:-1]
  > cases = list(tree.parse("all.xml").getroot()[0])
  > assert len(lines) == len(cases) == len(names)
  > for line, case in zip(lines, cases):
  >     it = case[0]
  >     assert line.startswith(case.get("name") + ": failed ") or "\ufffe" in line or "\uffff" in line, (line, case.get("name"))
  > print("all read back")
  > END
  all read back

The same images give the same bytes, and nothing on standard output but the lines or objects:

  $ uimg check --junit one.xml kernel.img one-bad-hash.itb > one; uimg check --json --junit two.xml kernel.img one-bad-hash.itb > two
  [1]
  $ cmp one.xml two.xml && wc -l < one && wc -l < two
  2
  2

Images below folders and of a file of paths are in the report too, and an empty one has no test case:

  $ mkdir -p fw/a && cp kernel.img fw && cp no-images.itb fw/a && echo text > fw/README
  $ echo four-hash-fit.itb | uimg check --recursive --files-from - --junit it.xml fw && python3 read.py it.xml
  fw/a/no-images.itb: refused F1 no images
  fw/kernel.img: ok 2 checksums
  fw: skipped 1 file
  four-hash-fit.itb: ok 1 payload, 4 hashes
  [1]
  $ python3 read.py it.xml
  3 1 0
  'fw/a/no-images.itb' failure refused 'fw/a/no-images.itb: refused F1 no images'
  'fw/kernel.img'
  'four-hash-fit.itb'
  $ uimg check --files-from /dev/null --allow-empty --junit it.xml && valid it.xml && python3 read.py it.xml
  it.xml validates
  0 0 0

The file gets the report at the end, in one step. An old report is replaced, through a symbolic link too, and so is an empty
file. Any other file is not, whether it is checked or not, so no image is lost:

  $ ln -s it.xml link.xml && uimg check --quiet --junit link.xml kernel.img && test -L link.xml && python3 read.py it.xml
  1 0 0
  'kernel.img'
  $ : > empty && uimg check --quiet --junit empty kernel.img && cmp empty it.xml
  $ ln kernel.img hard && echo text > text && for name in kernel.img hard text; do uimg check --junit $name kernel.img; done
  uimg: kernel.img is no report, and is not replaced
  uimg: hard is no report, and is not replaced
  uimg: text is no report, and is not replaced
  [3]
  $ cmp kernel.img "$files/abc-kernel.img" && cat text
  text
  $ uimg check --quiet --junit /dev/stderr kernel.img 2>&1 | cmp - it.xml

Without a report the file stays as it is: if the check fails, or no image is named. Nothing else is left:

  $ mkdir there && cp it.xml there && uimg check --junit there/it.xml --files-from none kernel.img
  kernel.img: ok 2 checksums
  uimg: cannot read none: No such file or directory (os error 2)
  [3]
  $ uimg check --junit there/it.xml --files-from /dev/null
  uimg: no image
  [2]
  $ uimg check --junit there/it.xml kernel.img > /dev/full
  uimg: cannot write standard output: No space left on device (os error 28)
  [3]
  $ cmp there/it.xml it.xml && ls -A there
  it.xml

A report that cannot be written is a failure of the command:

  $ uimg check --quiet --junit nowhere/it.xml kernel.img
  uimg: cannot write nowhere/it.xml: No such file or directory (os error 2)
  [3]
  $ uimg check --quiet --junit /dev/full kernel.img
  uimg: cannot write /dev/full: No space left on device (os error 28)
  [3]
  $ uimg check --quiet --junit there kernel.img
  uimg: cannot write there: Is a directory (os error 21)
  [3]
  $ uimg check --junit - kernel.img
  uimg: --junit -: standard output is not supported; for a file of that name use ./-
  [2]
