#!/bin/sh
# scripts/build.sh PROGRAM: proves the crates below a program, side by side, and the program,
# compiles it, and leaves it as bin/PROGRAM.
program=$1
scripts/needs.sh rt python3 || exit 1
# bin/PROGRAM gets the time of the second file, so an edit during the build counts as newer.
mkdir -p bin out && : > "out/$program.begun" || exit 1
echo "This proves the $(scripts/crates.sh "$program" | wc -l) crates of $program, and builds bin/$program: some 20 minutes on 4 cores the"
echo "first time, less from then on. An interrupted run goes on from what is proved."
python3 scripts/prove.py "$program" || exit 1
cp "crates/$program/out/$program" "bin/$program.new" &&
    touch -r "out/$program.begun" "bin/$program.new" &&
    mv -f "bin/$program.new" "bin/$program" || exit 1
echo "built bin/$program"
