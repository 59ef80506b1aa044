The words of -D, sources from standard input, and options of keys without a key
================================================================================

The images are those that mkimage 2023.01 with dtc 1.6.1 makes of these command lines, and what it refuses is refused.

  $ export SOURCE_DATE_EPOCH=1700000000
  $ ln -s "$(command -v uimg)" mkimage && PATH=$PWD:$PATH
  $ cp "$TESTDIR/../examples/kernel.its" "$TESTDIR/../examples/abc.bin" .
  $ uimg mkimage -f kernel.its wanted > /dev/null
  $ made() { rm -f out; mkimage -q "$@" out && cmp out wanted; }

mkimage removes what dtc pads a blob with. Warnings of dtc do not change it either:

  $ made -D '' -f kernel.its && made -D '-I dts -O dtb -p 500' -f kernel.its && made -D '-S 3000' -f kernel.its
  $ made -D '-a 4096 -p 0x40' -f kernel.its && made -D '-R4 -b0 -qq' -f kernel.its
  $ made -D '--in-format dts --out-format=dtb  --pad=3 --align 8 --space 0 --reserve 1 --quiet' -f kernel.its
  $ made -D '--pa 3 --al 010 -p+5 --sym' -f kernel.its
  $ made -D '-W no-unit_address_vs_reg -E name_properties -Wunit_address_vs_reg --warning no-reg_format' -f kernel.its

What dtc refuses, or makes another blob of:

  $ made -D '-a 3' -f kernel.its
  mkimage: -D: '3' is not supported; use mkimage of u-boot-tools
  [2]
  $ made -D '-S 3000 -p 10' -f kernel.its
  mkimage: -D: -p is given with -S
  [2]
  $ made -D '-W nosuch' -f kernel.its
  mkimage: -D: 'nosuch' is not supported; use mkimage of u-boot-tools
  [2]
  $ made -D '-b 3' -f kernel.its
  mkimage: -D: '3' is not supported; use mkimage of u-boot-tools
  [2]
  $ made -D '-O dts' -f kernel.its
  mkimage: -D: 'dts' is not supported; use mkimage of u-boot-tools
  [2]
  $ made -D '-qs' -f kernel.its
  mkimage: -D: '-qs' is not supported; use mkimage of u-boot-tools
  [2]
  $ made -D '--sort' -f kernel.its; made -D '--quiet=1' -f kernel.its; made -D other -f kernel.its; made -D - -f kernel.its
  mkimage: -D: '--sort' is not supported; use mkimage of u-boot-tools
  mkimage: -D: '--quiet=1' is not supported; use mkimage of u-boot-tools
  mkimage: -D: 'other' is not supported; use mkimage of u-boot-tools
  mkimage: -D: '-' is not supported; use mkimage of u-boot-tools
  [2]
  $ made -D '-a 064' -f kernel.its; made -D '--s 3' -f kernel.its; made -D -- -f kernel.its
  mkimage: -D: '064' is not supported; use mkimage of u-boot-tools
  mkimage: -D: '--s' is not supported; use mkimage of u-boot-tools
  mkimage: -D: '--' is not supported; use mkimage of u-boot-tools
  [2]
  $ made -D '-q -i' -f kernel.its
  mkimage: -D: the last option needs a value
  [2]

A shell reads the words, so what it would change is refused:

  $ made -D '-i $HOME' -f kernel.its; made -D "-i 'a b'" -f kernel.its
  mkimage: -D: '$HOME' is not supported; use mkimage of u-boot-tools
  mkimage: -D: ''a' is not supported; use mkimage of u-boot-tools
  [2]

Where no dtc is called, no word is read:

  $ mkimage -q -D '--nosuch' -f auto -d abc.bin out
  $ mkimage -q -D '--nosuch' -A arm -d abc.bin out

Labels are left out of the image, unless -@ is given:

  $ made -D -@ -f kernel.its && made -D -q@ -f kernel.its && made -D --symbols -f kernel.its
  $ sed 's/kernel {/first: &/' kernel.its > labelled.its && made -f labelled.its
  $ made -D -@ -f labelled.its
  mkimage: -D: -@ is not supported for a source with labels; use mkimage of u-boot-tools
  [2]
  $ sed 's#description = "k"#/* a: */ description = "k" /* b: **/#; $a // c:' kernel.its > comments.its && made -D -@ -f comments.its
  $ sed 's/"k"/"k: \\" l:"/' kernel.its > texts.its && mkimage -q -D -@ -f texts.its out

A file is looked for in the folder of the source, then in those of -i in order. So is the source, from the current folder on:

  $ mkdir empty first second sources && mv abc.bin first && printf other > second/abc.bin
  $ made -f kernel.its
  mkimage: kernel.its: I5 no file at line 8
  [3]
  $ made -D '-i first' -f kernel.its && made -D '-iempty --include=first -i second' -f kernel.its
  $ made -D '-i second -i first' -f kernel.its
  out wanted differ: byte 8, line 1
  [1]
  $ cp first/abc.bin . && made -D '-i second' -f kernel.its && rm abc.bin
  $ mv kernel.its sources && made -D '-i sources --include first' -f kernel.its
  $ cp first/abc.bin sources && made -D '-i sources' -f kernel.its && made -D '-i nowhere -i second' -f sources/kernel.its
  $ rm sources/abc.bin && made -D '-i sources' -f kernel.its
  mkimage: sources/kernel.its: I5 no file at line 8
  [3]
  $ made -D '-i empty' -f kernel.its
  mkimage: cannot read kernel.its: No such file or directory (os error 2)
  [3]
  $ made -D '-i sources' -f empty/kernel.its
  mkimage: cannot read empty/kernel.its: No such file or directory (os error 2)
  [3]
  $ sed "s#abc.bin#$PWD/first/abc.bin#" sources/kernel.its > whole.its && made -D '-i second' -f whole.its
  $ mkimage -q -D '-i first' -f sources/kernel.its first/abc.bin
  mkimage: first/abc.bin would be written while it is read
  [2]
  $ ls first
  abc.bin
  $ echo old > sources/abc.bin && mkimage -q -D '-i first' -f sources/kernel.its sources/abc.bin
  mkimage: sources/abc.bin would be written while it is read
  [2]
  $ cat sources/abc.bin && rm sources/abc.bin
  old

Warnings about names that dtc's checks name are silenced:

  $ sed 's/type = "kernel";/& type = "kernel";/' sources/kernel.its > twice.its
  $ mkimage -q -D '-i first' -f twice.its out
  mkimage: warning: /images/kernel: two properties have the name "type"
  $ mkimage -q -D '-i first -E no-duplicate_property_names' -f twice.its out
  $ mkimage -q -D '-i first -W no-duplicate_property_names' -f twice.its out
  $ mkimage -q -D '-i first -W no-duplicate_node_names' -f twice.its out
  mkimage: warning: /images/kernel: two properties have the name "type"

A source from standard input has its files in the current folder:

  $ made -f - < sources/kernel.its
  mkimage: -: I5 no file at line 8
  [3]
  $ made -D '-i first' -f - < sources/kernel.its && cat whole.its | made -f -
  $ mkimage -q -D '-i first' -f - /dev/null < sources/kernel.its
  mkimage: /dev/null: L1 too short
  [1]
  $ cd first && mkimage -q -E -f - ../out < ../sources/kernel.its && cd .. && uimg mkimage -E -f whole.its wanted > /dev/null && cmp out wanted
  $ printf nothing | mkimage -f - out
  mkimage: -: I2 bad syntax at line 1
  [1]
  $ mkimage -f - out < /dev/null
  mkimage: -: I2 bad syntax at line 1
  [1]
  $ yes | mkimage -f - out
  mkimage: -: a source of more than 64 MiB
  [1]
  $ cat whole.its | mkimage -f - empty/none/out
  mkimage: cannot write empty/none/out: No such file or directory (os error 2)
  [3]
  $ ls -d out* empty/*
  ls: cannot access 'empty/*': No such file or directory
  out
  [2]

Without a key, the options for keys have no effect. -g names a key file too, with which mkimage signs:

  $ uimg mkimage -f whole.its wanted > /dev/null
  $ made -r -o sha256,rsa2048 -f whole.its && made -g nosuch -f whole.its
  $ touch key && made -g key -f whole.its
  mkimage: -g: uimg does not sign; mkimage -F of u-boot-tools signs an existing image
  [2]
  $ made -N pkcs11 -f whole.its
  mkimage: -N: uimg does not sign; mkimage -F of u-boot-tools signs an existing image
  [2]
  $ mkimage -q -r -g key -o sha256 -k keys -K keys.dtb -G key -N pkcs11 -A arm -d whole.its out

The images of -f auto have signature nodes for the key of -g, which needs an algorithm:

  $ mkimage -q -f auto -g nosuch -o sha256,rsa2048 -d first/abc.bin -i key out
  $ grep -a -o -e signature-1 -e sha256,rsa2048 -e nosuch out | sort | uniq -c
        2 nosuch
        2 sha256,rsa2048
        2 signature-1
  $ mkimage -f auto -g nosuch -d first/abc.bin out
  mkimage: -f auto with -g needs -o
  [2]
  $ mkimage -f auto -g key -o sha256,rsa2048 -d first/abc.bin out
  mkimage: -g: uimg does not sign; mkimage -F of u-boot-tools signs an existing image
  [2]
