Signed configurations
=====================

two-signed.itb was signed by mkimage 2023.01 with the key of signer.pem: board-1 by PKCS #1, rescue by PSS.
mkimage wrote the key to control.dtb too, as one that is required for configurations.

  $ cp "$TESTDIR/files/two-signed.itb" signed.itb && cp "$TESTDIR/files/signer.pem" dev.pem
  $ cp "$TESTDIR/files/other.pem" "$TESTDIR/files/control.dtb" .
  $ uimg check --strict signed.itb && uimg check --key dev.pem signed.itb
  signed.itb: ok 2 payloads, 2 hashes, 2 nodes of configurations unchecked
  signed.itb: ok 2 payloads, 2 hashes, all configurations signed
  $ uimg check --json --key dev.pem signed.itb
  {"path":"signed.itb","status":0,"verdict":"ok","format":"fit","images":2,"hashes":2,"configurations":"signed","signatures":[{"configuration":"board-1","node":"signature-1","algo":"sha256,rsa2048","key":"dev","result":"ok"},{"configuration":"rescue","node":"signature-1","algo":"sha256,rsa2048","padding":"pss","key":"dev","result":"ok"}]}
  $ uimg check --json --key other.pem signed.itb
  {"path":"signed.itb","status":1,"verdict":"bad-signature","format":"fit","node":"board-1","signatures":[{"configuration":"board-1","node":"signature-1","algo":"sha256,rsa2048","key":"dev","result":"bad-signature"},{"configuration":"rescue","node":"signature-1","algo":"sha256,rsa2048","padding":"pss","key":"dev","result":"bad-signature"}]}
  [1]
  $ uimg check --quiet --key control.dtb --need sha256 signed.itb

The signature nodes, which `info` does not verify:

  $ uimg info signed.itb | grep -o '"signatures.*'
  "signatures":[{"configuration":"board-1","node":"signature-1","algo":"sha256,rsa2048","key":"dev"},{"configuration":"rescue","node":"signature-1","algo":"sha256,rsa2048","padding":"pss","key":"dev"}]}

A payload, properties and a signature node that were changed:

  $ changed() { LC_ALL=C sed "$1" signed.itb > changed.itb && ! cmp -s signed.itb changed.itb && uimg check --key dev.pem changed.itb; }
  $ changed s/defg/defh/
  changed.itb: bad board hash-1
  [1]
  $ changed s/linux/linuy/
  changed.itb: bad-signature board-1
  [1]
  $ changed s/pss/pst/
  changed.itb: unknown-signature rescue
  [1]
  $ changed 's/sha256,rsa2048/sha512,rsa2048/'
  changed.itb: bad-signature board-1
  [1]
  $ changed 's/sha256,rsa2048/sha256,rsa4096/'
  changed.itb: unknown-signature board-1
  [1]

FDT_NOP between the end of the root and FDT_END, which no signature covers, and which U-Boot refuses:

  $ python3 - <<'END' && uimg check --strict nop.itb && uimg check --key dev.pem nop.itb
  > import struct
  > image = bytearray(open("signed.itb", "rb").read())
  > fields = list(struct.unpack(">10I", image[:40]))
  > end = fields[2] + fields[9] - 4
  > image[end:end] = b"\0\0\0\4"
  > # the sizes of the blob and of the structure block, and the offset of the strings behind it
  > for field in (1, 9, 3):
  >     fields[field] += 4
  > image[:40] = struct.pack(">10I", *fields)
  > open("nop.itb", "wb").write(image)
  > END
  nop.itb: ok 2 payloads, 2 hashes, 2 nodes of configurations unchecked
  nop.itb: signed-nodes
  [1]
  $ uimg check --json --key dev.pem nop.itb
  {"path":"nop.itb","status":1,"verdict":"signed-nodes","format":"fit","signatures":[{"configuration":"board-1","node":"signature-1","algo":"sha256,rsa2048","key":"dev","result":"ok"},{"configuration":"rescue","node":"signature-1","algo":"sha256,rsa2048","padding":"pss","key":"dev","result":"ok"}]}
  [1]

Images without a signature:

  $ printf abc > abc.bin && SOURCE_DATE_EPOCH=0 uimg mkimage -d abc.bin kernel.img > listing
  $ cp "$TESTDIR/../examples/kernel.itb" .
  $ uimg check --key dev.pem kernel.img kernel.itb
  kernel.img: unsigned
  kernel.itb: unsigned conf
  [1]
  $ uimg check --json --key dev.pem kernel.img
  {"path":"kernel.img","status":1,"verdict":"unsigned","format":"legacy"}
  [1]

A key that cannot be read, and files that have no key, end the check before the first image:

  $ uimg check --key none.pem signed.itb
  uimg: cannot read none.pem: No such file or directory (os error 2)
  [3]
  $ uimg check --key abc.bin signed.itb
  uimg: abc.bin: neither an RSA public key in PEM nor a devicetree blob
  [3]
  $ (cat dev.pem; echo) > long.pem && cat other.pem dev.pem > two.pem
  $ uimg check --key long.pem signed.itb
  signed.itb: ok 2 payloads, 2 hashes, all configurations signed
  $ uimg check --key two.pem signed.itb
  uimg: two.pem: neither an RSA public key in PEM nor a devicetree blob
  [3]

The key of a control devicetree has the algorithm that a signature must have:

  $ LC_ALL=C sed 's/sha256,rsa2048/sha512,rsa2048/' control.dtb > long.dtb && uimg check --key long.dtb signed.itb
  signed.itb: unknown-signature board-1
  [1]

No key is required for configurations, or one is required for images; or a value that U-Boot's arithmetic wants is missing:

  $ LC_ALL=C sed 's/conf/none/' control.dtb > none.dtb && uimg check --key none.dtb signed.itb
  uimg: none.dtb: no key in /signature is required for configurations
  [3]
  $ python3 -c 'all = open("control.dtb", "rb").read(); at = all.index(b"conf\0\0\0\0"); open("image.dtb", "wb").write(all[: at - 8] + b"\0\0\0\6" + all[at - 4 : at] + b"image\0\0\0" + all[at + 8 :])'
  $ uimg check --key image.dtb signed.itb
  uimg: image.dtb: a key in /signature is required for images, whose signatures are not checked
  [3]
  $ LC_ALL=C sed 's/n0-inverse/no-inverse/' control.dtb > odd.dtb && uimg check --key odd.dtb signed.itb
  uimg: odd.dtb: a key in /signature lacks a property, or has a wrong one
  [3]
  $ head -c 400 control.dtb > cut.dtb && uimg check --key cut.dtb signed.itb
  uimg: cut.dtb: neither an RSA public key in PEM nor a devicetree blob
  [3]
  $ uimg check --key
  error: a value is required for '--key <[name=]file>' but none was supplied
  
  For more information, try '--help'.
  [2]

unpack with --key checks the whole image first, and keeps nothing of one that the key does not sign:

  $ mkdir kept empty && uimg unpack -C kept --key dev.pem signed.itb && ls kept
  kernel: 4 bytes, sha256 dc1114cd074914bd872cc1f9a23ec910ea2203bc79779ab2e17da25782a624fc
  board: 5 bytes, sha256 724643df68eda64051eb364fcdde3a5d9b94582656797261af5641278a7eb664
  board
  kernel
  $ uimg unpack -C kept --only board --force --key control.dtb signed.itb
  board: 5 bytes, sha256 724643df68eda64051eb364fcdde3a5d9b94582656797261af5641278a7eb664
  $ uimg unpack -C empty --key other.pem signed.itb
  uimg: signed.itb: bad-signature board-1
  [1]
  $ uimg unpack -C empty --keep-good --key dev.pem changed.itb
  uimg: changed.itb: unknown-signature board-1
  [1]
  $ uimg unpack -C empty --key dev.pem kernel.img
  uimg: kernel.img: unsigned
  [1]
  $ uimg unpack -C empty --key dev.pem --need sha512 signed.itb
  uimg: signed.itb: weak kernel
  [1]
  $ uimg unpack -C empty --key none.pem signed.itb
  uimg: cannot read none.pem: No such file or directory (os error 2)
  [3]
  $ uimg unpack -C empty --key dev.pem none.itb
  uimg: cannot read none.itb: No such file or directory (os error 2)
  [3]

spare-signed.itb is the same image with another one, spare, that no configuration names:

  $ cp "$TESTDIR/files/spare-signed.itb" spare.itb && uimg check --key dev.pem spare.itb
  spare.itb: ok 3 payloads, 3 hashes, all configurations signed
  $ uimg unpack -C empty --key dev.pem spare.itb
  uimg: spare.itb: unsigned spare
  [1]
  $ uimg unpack -C empty --only kernel --key dev.pem spare.itb
  uimg: spare.itb: unsigned spare
  [1]
  $ uimg unpack --json -C empty --key dev.pem spare.itb
  {"path":"spare.itb","status":1,"verdict":"unsigned","format":"fit","node":"spare"}
  [1]
  $ ls -A empty

A name before the file stands for its keys in the line. A control devicetree has names of its own:

  $ uimg check --key board=dev.pem signed.itb && uimg check --key control.dtb signed.itb && uimg check --key board=control.dtb signed.itb
  signed.itb: ok 2 payloads, 2 hashes, all configurations signed by board
  signed.itb: ok 2 payloads, 2 hashes, all configurations signed by dev
  signed.itb: ok 2 payloads, 2 hashes, all configurations signed by board

No name is empty or has a slash, and the first = ends it:

  $ cp dev.pem a=b.pem && uimg check --key ./a=b.pem signed.itb && uimg check --key c=a=b.pem signed.itb
  signed.itb: ok 2 payloads, 2 hashes, all configurations signed
  signed.itb: ok 2 payloads, 2 hashes, all configurations signed by c
  $ uimg check --key a=b.pem signed.itb
  uimg: cannot read b.pem: No such file or directory (os error 2)
  [3]
  $ uimg check --key =dev.pem signed.itb
  uimg: cannot read =dev.pem: No such file or directory (os error 2)
  [3]

partly-signed.itb and sha1-signed.itb were signed by mkimage 2023.01 with the key of newer.pem: conf-1 over SHA-256.
conf-2 of the first is not signed, and that of the other is signed over SHA-1.

  $ cp "$TESTDIR/files/partly-signed.itb" partly.itb && cp "$TESTDIR/files/sha1-signed.itb" sha1.itb && cp "$TESTDIR/files/newer.pem" .
  $ uimg check --key dev=newer.pem partly.itb
  partly.itb: unsigned conf-2
  [1]
  $ uimg check --key dev=newer.pem --config conf-1 partly.itb && uimg check --key newer.pem --config conf-1 partly.itb
  partly.itb: ok 1 payload, 1 hash, configuration conf-1 signed by dev
  partly.itb: ok 1 payload, 1 hash, configuration conf-1 signed
  $ uimg check --json --key newer.pem --config conf-1 partly.itb
  {"path":"partly.itb","status":0,"verdict":"ok","format":"fit","images":1,"hashes":1,"signed":"conf-1","signatures":[{"configuration":"conf-1","node":"signature-1","algo":"sha256,rsa2048","key":"dev","result":"ok"}]}
  $ uimg check --key dev.pem --config conf-1 partly.itb
  partly.itb: bad-signature conf-1
  [1]
  $ uimg check --key newer.pem --config conf-2 partly.itb
  partly.itb: unsigned conf-2
  [1]
  $ uimg check --key newer.pem --config conf-3 partly.itb
  partly.itb: unsigned conf-3
  [1]

Signatures over SHA-1 are weak unless they are allowed:

  $ uimg check --key newer.pem sha1.itb
  sha1.itb: weak-signature conf-2
  [1]
  $ uimg check --json --key newer.pem sha1.itb
  {"path":"sha1.itb","status":1,"verdict":"weak-signature","format":"fit","node":"conf-2","signatures":[{"configuration":"conf-1","node":"signature-1","algo":"sha256,rsa2048","key":"dev","result":"ok"},{"configuration":"conf-2","node":"signature-1","algo":"sha1,rsa2048","key":"dev","result":"weak-signature"}]}
  [1]
  $ uimg check --key newer.pem --config conf-1 sha1.itb && uimg check --key dev=newer.pem --allow-sha1 sha1.itb
  sha1.itb: ok 1 payload, 1 hash, configuration conf-1 signed
  sha1.itb: ok 1 payload, 1 hash, all configurations signed by dev
  $ uimg check --key dev.pem --allow-sha1 --config conf-2 sha1.itb
  sha1.itb: bad-signature conf-2
  [1]
  $ uimg unpack -C empty --key newer.pem sha1.itb
  uimg: sha1.itb: weak-signature conf-2
  [1]
  $ ls -A empty && uimg unpack -C empty --key newer.pem --allow-sha1 sha1.itb && rm empty/kernel
  kernel: 4 bytes, sha256 88d4266fd4e6338d13b845fcf289579d209c897823b9217da3e161936f031589

Both options are for keys:

  $ uimg check --config conf-1 partly.itb
  uimg: --config without --key
  [2]
  $ uimg check --strict --allow-sha1 sha1.itb
  uimg: --allow-sha1 without --key
  [2]
  $ uimg unpack -C empty --allow-sha1 sha1.itb
  uimg: --allow-sha1 without --key
  [2]
