#!/bin/sh
# scripts/deb.sh [FOLDER ARCHITECTURE TO]: packs the program and the library with manual pages,
# completions, documents and examples as Debian packages, and checks them with lintian. Without
# arguments it packs bin/uimg and lib/ for this machine, to out/; else FOLDER/uimg and FOLDER/lib for
# an architecture, as arm64, to the folder TO.
scripts/needs.sh dpkg-buildpackage dh lintian || exit 1
program=${1:-bin}/uimg library=${1:-.}/lib architecture=${2:-$(dpkg --print-architecture)} to=${3:-out}
room=$(mktemp -d) || exit 1
trap 'rm -rf "$room"' EXIT
mkdir -p out "$to" "$room/uimg/bin" && cp "$program" "$room/uimg/bin" && cp -r "$library" "$room/uimg/lib" &&
    cp -r debian include library docs bench bindings examples completions wrappers scripts ./*.md "$room/uimg" || exit 1
# What cargo and Python leave beside the sources.
rm -rf "$room"/uimg/bindings/rust/target "$room"/uimg/bindings/rust/Cargo.lock "$room"/uimg/bindings/python/uimg/__pycache__
log=$PWD/out/deb.log cross=
test "$architecture" = "$(dpkg --print-architecture)" || cross="-d -a $architecture"
(cd "$room/uimg" && dpkg-buildpackage -b -us -uc $cross) > "$log" 2>&1 || {
    tail -n 12 "$log" >&2
    echo "uimg: no package was made; the log is out/deb.log" >&2
    exit 1
}
rm -f "$to"/*_"$architecture".deb
cp "$room"/uimg_*.deb "$room"/libuimg*.deb "$to" || exit 1
lintian --fail-on error "$to"/*_"$architecture".deb || exit 1
ls "$to"/*_"$architecture".deb
