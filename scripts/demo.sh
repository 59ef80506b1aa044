#!/bin/sh
# scripts/demo.sh IMAGE: lists an image, first with a build that has run-time checks, if bin/uimg
# does not exist yet, then with the proved program.
image=$1
test -f "$image" || { echo "uimg: cannot read $image" >&2; exit 3; }
if test ! -x bin/uimg; then
    echo "Compiling the program with checks while it runs: about a minute."
    scripts/try.sh dumpimage -l "$image" || exit
    echo "This was listed by a build that is checked while it runs. Proving now."
    echo
fi
make -s bin/uimg || exit
echo "bin/uimg dumpimage -l $image"
exec bin/uimg dumpimage -l "$image"
