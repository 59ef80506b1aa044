What a target of the Makefile lacks
===================================

All that is missing is in one line, with what installs it; here no folder on the PATH has more than a shell:

  $ needs="$TESTDIR/../scripts/needs.sh"
  $ mkdir bin && ln -s "$(command -v sh)" bin/sh
  $ PATH=$PWD/bin sh "$needs" rt gcc aarch64-linux-gnu-gcc dpkg-buildpackage dh lintian
  uimg needs the Rattle kit: put its bin folder, which has rt, on the PATH; gcc: apt install gcc libc6-dev; aarch64-linux-gnu-gcc: apt install gcc-aarch64-linux-gnu libc6-dev-arm64-cross; dpkg-buildpackage: apt install dpkg-dev; dh: apt install debhelper; lintian: apt install lintian (see CONTRIBUTING.md, "What you need")
  [1]

A compiler without the C library as an archive, and with it:

  $ printf '#!/bin/sh\necho libc.a\n' > bin/gcc && chmod +x bin/gcc && PATH=$PWD/bin sh "$needs" sh gcc
  uimg needs gcc: apt install gcc libc6-dev (see CONTRIBUTING.md, "What you need")
  [1]
  $ touch libc.a && PATH=$PWD/bin sh "$needs" sh gcc
