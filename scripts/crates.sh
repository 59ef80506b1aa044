#!/bin/sh
# scripts/crates.sh PROGRAM: prints the crates of crates.txt below a program, each after those that
# it uses itself, and the program last.
exec awk -v program="$1" '
    function visit(crate,    words, count, i) {
        if (!(crate in uses) || seen[crate]++) return
        count = split(uses[crate], words, " ")
        for (i = 1; i <= count; i++) visit(words[i])
        print crate
    }
    { sub(/#.*/, "") }
    split($0, sides, ":") == 2 { split(sides[1], words, " "); uses[words[1]] = sides[2] }
    END { visit(program) }
' crates.txt
