#!/bin/sh
# scripts/lib.sh: proves the library for C and the crates below it, and leaves it in lib/.
scripts/needs.sh rt python3 cc ld objcopy ar || exit 1
mkdir -p lib out && : > out/lib.begun || exit 1
echo "This proves the $(scripts/crates.sh uimg_c | wc -l) crates of libuimg: some 20 minutes on 4 cores the first time. An interrupted"
echo "run goes on from what is proved."
python3 scripts/prove.py uimg_c && scripts/link.sh crates/uimg_c/out/libuimg_c.a lib || exit 1
touch -r out/lib.begun lib/libuimg.a
echo "built lib/libuimg.a, lib/libuimg_block.a and lib/libuimg.so.0"
