#!/bin/sh
# scripts/link.sh ARCHIVE FOLDER [TOOLS]: links Rattle's archive of uimg_c with the memory calls to
# libuimg.a, libuimg_block.a and libuimg.so.0 in FOLDER. Each exports only the calls of its headers,
# and has the division of 128 bits from libgcc.
# FOLDER/linked names what the linker took for libuimg.so.0.
# TOOLS is the prefix of the GNU tools for another machine, as aarch64-linux-gnu-.
archive=$(realpath "$1") folder=$2 tools=$3
compiler=${tools:+${tools}gcc}
compiler=${compiler:-${CC:-cc}}
work=$(mktemp -d) || exit 1
trap 'rm -rf "$work"' EXIT
mkdir -p "$folder" || exit 1
for memory in malloc block; do
    $compiler -std=c11 -O2 -Wall -Wextra -fPIC -Iinclude -c -o "$work/$memory.o" "library/$memory.c" &&
        "${tools}ld" -r -o "$work/uimg_$memory.o" --whole-archive "$archive" --no-whole-archive "$work/$memory.o" "$($compiler -print-libgcc-file-name)" &&
        "${tools}objcopy" -w --keep-global-symbol='uimg_*' "$work/uimg_$memory.o" &&
        "${tools}ar" rcsD "$work/$memory.a" "$work/uimg_$memory.o" || exit 1
done
$compiler -shared -o "$work/libuimg.so.0" -Wl,-soname,libuimg.so.0 -Wl,--version-script=library/libuimg.map \
    -Wl,-t,-t -Wl,--whole-archive "$work/malloc.a" -Wl,--no-whole-archive > "$folder/linked" || exit 1
mv "$work/malloc.a" "$folder/libuimg.a" && mv "$work/block.a" "$folder/libuimg_block.a" &&
    mv "$work/libuimg.so.0" "$folder/libuimg.so.0" && ln -sf libuimg.so.0 "$folder/libuimg.so"
