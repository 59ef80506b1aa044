Operators of dtc's language
===========================

Each operator before each other, on numbers that tell apart which takes its numbers first, and each sign before each operator. The values are those of dtc 1.6.1: `dtc -q -I dts -O dtb -o operators.itb operators.its` makes a blob of which `values.py` prints the same.

  $ export SOURCE_DATE_EPOCH=1700000000 && ln -s "$(command -v uimg)" mkimage && PATH=$PWD:$PATH
  $ cat > source.py << 'END'
  > operators = "|| && | ^ & == != < > <= >= << >> + - * / %".split()
  > numbers = [it.split() for it in "6 6 3,0 2 2,3 7 2,9 3 3,0 2 1,0 1 2,1 1 1,0xf0f0f0f0f0f0f0f0 12 10".split(",")]
  > rows = [[f"({a} {o} {b} {p} {c})" for p in operators for a, b, c in numbers] for o in operators]
  > rows += [[f"({u}5 {o} 3) (5 {o} {u}{last}) ({u}({u}7 {o} 2))" for o in operators] for u, last in (("-", 2), ("~", 2), ("!", 0))]
  > print("/dts-v1/; / {\ndescription = \"o\"; #address-cells = <1>;")
  > for number, row in enumerate(rows):
  >     print(f"row-{number} = \"begin\", /bits/ 64 <{' '.join(row)}>, \"end\";")
  > print("""choices = "begin", /bits/ 64 <(1 ? 2 : 3) (0 ? 2 : 0 ? 4 : 5) (1 ? 0 ? 6 : 7 : 8) (1 || 0 ? 9 : 10) (2 - 2 ? 11 : 12 - 1)>, "end";
  > parentheses = "begin", /bits/ 64 <((1 + 2) * 3) (2 * (3 + 4)) (((5))) (- -6) (!!7) (~-9) (-~9) ('a' + '\\n')>, "end";
  > widths = "begin", /bits/ 8 <(-1) 255 (-129)>, /bits/ 16 <(-1) 65535 (-32769)>, <(-1) (-2147483649)>, /bits/ 64 <(-1)>, "end";
  > images { k { description = "k"; data = [61]; type = "kernel"; arch = "arm"; os = "linux"; compression = "none";
  > load = <0>; entry = <0>; }; }; configurations { default = "c"; c { description = "c"; kernel = "k"; }; }; };""")
  > END
  $ cat > values.py << 'END'
  > import hashlib
  > values = [it.split(b"end\0")[0] for it in open("operators.itb", "rb").read().split(b"begin\0")[1:]]
  > names = "|| && | ^ & == != < > <= >= << >> + - * / % -a ~a !a".split()
  > for name, value in zip(names, values):
  >     print(name, len(value) // 8, hashlib.sha256(value).hexdigest()[:16])
  > for value in values[len(names):]:
  >     print(value.hex(" ", -8))
  > END
  $ python3 source.py > operators.its && mkimage -q -f operators.its operators.itb && python3 values.py
  || 144 f8454aae4ba1e0ec
  && 144 1a22bc1b8bd70938
  | 144 346883182c2c3b47
  ^ 144 0c1266690a252867
  & 144 d65941e3d675d258
  == 144 bead4edb4d97967e
  != 144 33df282a8e383973
  < 144 654c5a95f8258fd3
  > 144 8aee0ed3bb1a13b3
  <= 144 304241b1b2c35991
  >= 144 b4b5ab92252b1265
  << 144 47e5168df17109b5
  >> 144 8a6f85ba776408f0
  + 144 032c1cccca2afec7
  - 144 09e7e48c10d5b087
  * 144 de319daa014b17b4
  / 144 2135b79dd80bbbb6
  % 144 a5606338b64b443a
  -a 54 405296547a558d53
  ~a 54 5a5090789a36965c
  !a 54 81a4f0bd00abdd94
  0000000000000002 0000000000000005 0000000000000007 0000000000000009 000000000000000b
  0000000000000009 000000000000000e 0000000000000005 0000000000000006 0000000000000001 0000000000000008 000000000000000a 000000000000006b
  ffff7fffffffff7f ffffffffff7fffff ffffffffffffffff ff

A number that an element can't hold, and a division by zero:

  $ for cells in '/bits/ 8 <256>' '/bits/ 8 <(-257)>' '/bits/ 16 <65536>' '<(1 << 32)>' '<(1 / 0)>' '<(1 % 0)>'
  > do echo "/dts-v1/; / { a = $cells; };" > bad.its; mkimage -f bad.its bad.itb; done
  mkimage: bad.its: bad number at line 1
  mkimage: bad.its: bad number at line 1
  mkimage: bad.its: bad number at line 1
  mkimage: bad.its: bad number at line 1
  mkimage: bad.its: bad number at line 1
  mkimage: bad.its: bad number at line 1
  [1]
