#!/usr/bin/env python3
"""Says what each function of a crate takes of its proof, in processor seconds, the longest first.

    scripts/function_times.py CRATE [--test]       # at the top of the repository, once the crates below are built (`rt check` there)

The crate is checked from nothing in a copy, by one process, one function after another; nothing is kept. With --test the functions
of its tests are among them. A function's share holds all that is done between the line before and its own, so what is prepared for
several stands at the first of them. Memory of one check: 1 to 6 GB."""
import os
import re
import shutil
import subprocess
import sys
import tempfile

from give_libraries import load_rtlib

TICK = os.sysconf('SC_CLK_TCK')


def processor_seconds(pid):
    with open(f'/proc/{pid}/stat') as f:
        fields = f.read().rsplit(')', 1)[1].split()
    return sum(map(int, fields[11:15])) / TICK


def checked(command, folder):
    """Runs the check, and gives the seconds of each function, those of the whole, and what else it said."""
    run = subprocess.Popen(command, cwd=folder, stdin=subprocess.DEVNULL, stdout=subprocess.PIPE, stderr=subprocess.STDOUT, text=True, errors='replace')
    rows, rest, last = [], [], 0.0
    for line in run.stdout:
        found = re.match(r'checked (\S+), (\d+) of (\d+)', line)
        if not found:
            rest.append(line.rstrip())
            continue
        try:
            now = processor_seconds(run.pid)
        except OSError:
            now = last
        rows.append((now - last, found[1]))
        last = now
    run.wait()
    return rows, last, rest


def main():
    name, tests = sys.argv[1], '--test' in sys.argv[2:]
    rtlib = load_rtlib()
    crate = next(it for it in rtlib.crates_below(os.getcwd()) if it.name == name)
    with tempfile.TemporaryDirectory(prefix='function-times-') as room:
        for part in rtlib.PARTS:
            if os.path.isdir(f'{crate.folder}/{part}'):
                shutil.copytree(f'{crate.folder}/{part}', f'{room}/{part}')
        words = crate.words(['--jobs', '1'], tests=tests, keeps=False)
        rows, whole, rest = checked([rtlib.RATTLE, 'check', *words, '--progress'], room)
    print(f'{name}: {whole:.0f} processor seconds, {len(rows)} functions, {[it for it in rest if it.startswith("logic=")]}')
    for seconds, function in sorted(rows, reverse=True)[:30]:
        print(f'{seconds:7.1f}  {function}')


if __name__ == '__main__':
    main()
