#!/bin/sh
# scripts/sources.sh PROGRAM: prints the files that a program is made from, and their folders, which
# tell make of removed files.
echo crates.txt
for crate in $(scripts/crates.sh "$1"); do
    for part in src specs proofs; do
        test ! -d "crates/$crate/$part" ||
            find "crates/$crate/$part" -type d -o -name '[!.]*.rt' -o -name '[!.]*.antt'
    done
done
