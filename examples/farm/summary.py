#!/usr/bin/env python3
"""summary.py FOLDER: summarizes the results of a farm, FOLDER/results.jsonl, and its last run, by
FOLDER/jobs and FOLDER/joblog.

It prints how many images this run checked and how many results are of an earlier run, the number of
images with each verdict, a line for each image whose verdict is not ok, and the images a second while
jobs ran, of all jobs and of one. The exit status is the greatest of all images."""
import collections
import json
import os
import sys


def results(folder):
    """Returns the results of all images. Only newlines end lines."""
    with open(os.path.join(folder, "results.jsonl"), encoding="utf-8", newline="\n") as file:
        return [json.loads(line) for line in file]


def checked(folder):
    """Returns how many images this run checked: those of the batches that got a job."""
    count = 0
    with open(os.path.join(folder, "jobs"), encoding="utf-8") as names:
        for name in names:
            with open(os.path.join(folder, "batches", name.rstrip("\n")), "rb") as file:
                count += sum(line != b"\n" for line in file)
    return count


def jobs(folder):
    """Returns the start and the duration of each job, in seconds."""
    with open(os.path.join(folder, "joblog"), encoding="utf-8", newline="\n") as file:
        rows = [line.split("\t") for line in file][1:]
    return [(float(row[2]), float(row[3])) for row in rows]


def busy(spans):
    """Returns the seconds in which at least one job ran."""
    total, until = 0.0, 0.0
    for begun, took in sorted(spans):
        total += max(0.0, begun + took - max(begun, until))
        until = max(until, begun + took)
    return total


def about(told):
    """Returns what a verdict is about, on one line."""
    names = [json.dumps(told[key]) for key in ("image", "hash") if key in told]
    return " ".join(names) or told.get("message") or told.get("algo", "")


def main():
    folder = sys.argv[1]
    told = results(folder)
    counts = collections.Counter(one["verdict"] for one in told)
    now = checked(folder)
    print(f"{len(told)} images: {now} checked now, {len(told) - now} by an earlier run")
    for verdict, count in counts.most_common():
        print(f"  {verdict:<12} {count:>9}")
    wrong = [one for one in told if one["verdict"] != "ok"]
    if wrong:
        print(f"\n{len(wrong)} that are not ok")
    for one in wrong:
        print(f"  {one['verdict']:<12} {json.dumps(one['path'])} {about(one)}".rstrip())
    spans = jobs(folder)
    ran = sum(took for _, took in spans)
    print(f"\n{len(spans)} jobs in {busy(spans):.1f} s, {ran:.1f} s of jobs")
    if ran:
        print(f"{now / busy(spans):.0f} images a second, {now / ran:.0f} by each job")
    return max((one["status"] for one in told), default=0)


if __name__ == "__main__":
    sys.exit(main())
