#!/bin/sh
# check-farm.sh LIST FOLDER [OPTION..]: checks the images whose paths are the lines of LIST, with
# GNU parallel on all processors. It collects the output of `uimg check --json` in
# FOLDER/results.jsonl, in the order of LIST, and prints a summary.
#
# The same command again continues a run. It checks a batch again if the batch is not complete, or if
# one of its images failed or has changed since its check, by size and change time. It refuses a
# FOLDER of another LIST, program, NEED, STRICT or KEY (status 2).
#
# OPTIONs go to parallel: --jobs 2, --bar, or --sshlogin one,two,: if ssh reaches each host without a
# prompt, and the images, FOLDER, KEY and the program have the same paths there.
#
# Environment:
#   UIMG      the program [uimg]
#   NEED      an algorithm for --need
#   STRICT=1  uses --strict
#   KEY       a file of keys for --key
#   ALL=1     checks all images again
#   BATCH     images that one process checks [500]; more pays for small images and several hosts
#
# The exit status is the greatest of all images, or 3 if batches are not complete.
set -u
test $# -ge 2 || { sed -n '2,/^set/s/^# \{0,1\}//p' "$0" >&2; exit 2; }
list=$1 folder=$2 farm=$(dirname "$0")
shift 2

say() {
    echo "check-farm: $*" >&2
    exit 2
}

quoted() {
    printf "'%s'" "$(printf %s "$1" | sed "s/'/'\\\\''/g")"
}

# Whether a variable is set, and not to 0.
on() {
    test "${1:-0}" != 0
}

# Prints a digest of the sizes and change times of a batch's images. A write and a renaming change
# the change time, which cannot be set.
state() {
    LC_ALL=C grep . "$folder/batches/$1" | tr '\n' '\0' | LC_ALL=C xargs -0 stat -L --format='%s %.Z' -- 2>&1 | sha256sum
}

parallel --version 2> /dev/null | grep -q '^GNU parallel' || say "needs GNU parallel (apt install parallel)"
uimg=$(command -v "${UIMG:-uimg}") || say "there is no ${UIMG:-uimg}"
options=--json
on "${STRICT:-0}" && options="$options --strict"
test -z "${NEED:-}" || options="$options --need $(quoted "$NEED")"
case ${KEY:-} in '' | /*) ;; *) KEY=./$KEY ;; esac
test -z "${KEY:-}" || options="$options --key $(quoted "$KEY")"
check="$(quoted "$(realpath "$uimg")") check $options --allow-empty --files-from"
eval "$check /dev/null" || exit 2
test -r "$list" || say "cannot read $list"
LC_ALL=C grep -q . "$list" || say "$list has no path"
mkdir -p "$folder/lines" "$folder/failed" "$folder/parts" "$folder/states" || exit 2
folder=$(cd "$folder" && pwd) || exit 2

# A job checks a batch. Its output has a name of its own until it is complete, since a job of an
# earlier run may still be at the same batch. Its first line is the state of the images before the
# check. A status of 1 is a result. Only 3, of an image that failed or of the job itself, is a
# failure, after which the next run repeats the batch.
cat > "$folder/job.new" << END
# $(sha256sum < "$(realpath "$uimg")") $(sha256sum < "${KEY:-/dev/null}")
cd $(quoted "$PWD") && farm=$(quoted "$folder") && part="\$farm/parts/\$1.\$(uname -n).\$\$" || exit 3
cat "\$farm/states/\$1" > "\$part" || exit 3
$check "\$farm/batches/\$1" >> "\$part"
status=\$? to=lines
case \$status in 0 | 1) ;; 3) to=failed ;; *) exit "\$status" ;; esac
test "\$(grep -c '^{' "\$part")" = "\$(LC_ALL=C grep -c . "\$farm/batches/\$1")" || exit 3
head -n 1 "\$part" | cmp -s - "\$farm/states/\$1" || exit 3
mv -f "\$part" "\$farm/\$to/\$1" && test \$to = lines || exit 3
END

# Batches are cut once. Another list, or other settings, need another folder.
if test -d "$folder/batches"; then
    cmp -s "$list" "$folder/list" || say "$folder is of another list"
    cmp -s "$folder/job.new" "$folder/job" || say "$folder is of another program, folder, NEED, STRICT or KEY: $folder/job"
    rm -f "$folder/job.new"
else
    rm -rf "$folder/batches.new" && mkdir "$folder/batches.new" && cp "$list" "$folder/list" || exit 2
    split --lines="${BATCH:-500}" --numeric-suffixes --suffix-length=7 "$folder/list" "$folder/batches.new/" || exit 2
    mv -f "$folder/job.new" "$folder/job" && mv "$folder/batches.new" "$folder/batches" || exit 2
fi

# A batch gets a job unless it has a result of the present state of its images.
for batch in $(ls "$folder/batches"); do
    state "$batch" > "$folder/states/$batch" || exit 2
    if on "${ALL:-0}" || ! head -n 1 "$folder/lines/$batch" 2> /dev/null | cmp -s - "$folder/states/$batch"; then
        rm -f "$folder/lines/$batch" "$folder/failed/$batch" && echo "$batch" || exit 2
    fi
done > "$folder/jobs" || exit 2
rm -f "$folder/joblog"
parallel --joblog "$folder/joblog" --quote "$@" sh "$folder/job" "{}" < "$folder/jobs"

# Collects the results in the order of the list.
for batch in $(ls "$folder/batches"); do
    grep '^{' "$folder/lines/$batch" 2> /dev/null || grep '^{' "$folder/failed/$batch" 2> /dev/null ||
        ! LC_ALL=C grep -q . "$folder/batches/$batch" || echo "$batch" >&3
done > "$folder/results.new" 3> "$folder/undone"
if test -s "$folder/undone"; then
    echo "check-farm: $(wc -l < "$folder/undone") batches are not done; start it again to continue" >&2
    exit 3
fi
mv -f "$folder/results.new" "$folder/results.jsonl" && rm -rf "$folder/parts" "$folder/undone" || exit 3
python3 "$farm/summary.py" "$folder"
