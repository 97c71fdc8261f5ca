#!/usr/bin/env python3
"""The table of docs/PERFORMANCE.md 'Beside a server in C', by one command:

    python3 bench/table.py crates/custody/out/custody MEMORY DISK [--runs 3] [options of load.py]

In each of the two folders, one in memory and one on a disk, bench/compare.sh is run so many times (3) beside the server in C,
and as often beside the script in Python, by turns. A row of markdown a request: microseconds in memory, of both; the ratios of
time and of the server's processor time to C; the ratio of time to the script; then the two ratios of time on the disk. Each is
the middle one of the runs, the ratios of time with the least and the greatest. It ends with status 1 where a reply was wrong.
Nothing else should run meanwhile."""
import os
import re
import statistics
import subprocess
import sys

HERE = os.path.dirname(os.path.abspath(__file__))
# a line of load.py, and the request as the table has it
ROWS = {
    'no route (404)': 'no route (404)',
    'POST 1 KB': 'POST 1 KB',
    'GET 1 KB': 'GET 1 KB',
    'POST 40 KB': 'POST 40 KB',
    'GET 40 KB': 'GET 40 KB',
    'POST 4 MB': 'POST 4 MB, each page new',
    'GET 4 MB': 'GET 4 MB',
    'POST 4 MB, serial alone differs': 'POST 4 MB, 255 of 256 pages as before',
    'GET 4 MB, serial alone differs': 'GET 4 MB of these',
    'LOCK, UNLOCK (each)': 'LOCK, UNLOCK',
    'PUT new workspace': 'PUT, a new workspace beside 1,000',
    'GET page of workspaces': 'a list of 50 workspaces',
}
LINE = re.compile(r'^(?P<label>.{34})\s*\d+\s+(?P<a>\d+)\s+\d+\s+\d+\s+(?P<b>\d+)\s+\d+\s+\d+\s+(?P<ratio>[\d.]+)\s+[\d.]+\s+(?P<cpu>[\d.]+|-)')


def compared(program, other, folder, more):
    """What compare.sh prints of each request, and whether all replies were right."""
    words = ['bash', os.path.join(HERE, 'compare.sh'), program, other, *more]
    ran = subprocess.run(words, capture_output=True, text=True, env={**os.environ, 'PERF_DIR': folder})
    sys.stderr.write(ran.stdout + ran.stderr)
    found = {}
    for line in ran.stdout.splitlines():
        parts = LINE.match(line)
        if parts:
            found[parts['label'].strip()] = parts
    return found, ran.returncode == 0


def middle(runs, label, part):
    """The middle one of the runs."""
    return statistics.median_low(float(run[label][part]) for run in runs)


def ranged(runs, label):
    """The middle ratio of time, and the least and the greatest."""
    ratios = [float(run[label]['ratio']) for run in runs]
    return f"{statistics.median_low(ratios):.2f} ({min(ratios):.2f}–{max(ratios):.2f})"


def main():
    words = sys.argv[1:]
    if len(words) < 3 or words[0].startswith('-'):
        sys.exit(__doc__)
    program, folders, more, count = words[0], words[1:3], words[3:], 3
    if more[:1] == ['--runs']:
        count, more = int(more[1]), more[2:]
    runs, all_right = {}, True
    for _ in range(count):
        for folder in folders:
            for other in ('anchor', 'baseline'):
                found, right = compared(program, other, folder, more)
                runs.setdefault((folder, other), []).append(found)
                all_right = all_right and right
    memory, script, disk, disk_script = (runs[folder, other] for folder in folders for other in ('anchor', 'baseline'))
    print('| Request | custody | in C | to C | processor | to the script | disk: to C | disk: to the script |')
    print('|---|---:|---:|---:|---:|---:|---:|---:|')
    for label, name in ROWS.items():
        if all(label in run for found in runs.values() for run in found):
            times = f"{middle(memory, label, 'a'):,.0f} | {middle(memory, label, 'b'):,.0f}"
            print(f"| {name} | {times} | {ranged(memory, label)} | {middle(memory, label, 'cpu'):.2f} | {ranged(script, label)} | {ranged(disk, label)} | {ranged(disk_script, label)} |")
    return 0 if all_right else 1


if __name__ == '__main__':
    sys.exit(main())
