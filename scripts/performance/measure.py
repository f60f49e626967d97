#!/usr/bin/env python3
"""Measures programs over the scripts of inputs.py, one after another, in one run.

    scripts/performance/measure.py FOLDER PROGRAM .. [--rows ROW ..] [--runs N] [--words WORD ..]

FOLDER is where inputs.py wrote. For each row, half and whole: the least user and system time of N runs (3) of each program and the
peak of its memory, how both grow from half to whole, and whether all programs wrote the same bytes. --words measures
`PROGRAM WORD ..` in place of the rows. Run it where nothing else runs."""
import glob
import hashlib
import os
import sys
import tempfile


def run(program, words, given):
    """The processor seconds, MB of memory, and the sum of what was written with the status."""
    with tempfile.TemporaryFile() as out, open(given or os.devnull, 'rb') as source:
        child = os.fork()
        if child == 0:
            os.dup2(source.fileno(), 0)
            os.dup2(out.fileno(), 1)
            os.dup2(os.open(os.devnull, os.O_WRONLY), 2)
            os.execv(program, [program, *words])
        _, status, used = os.wait4(child, 0)
        out.seek(0)
        return used.ru_utime + used.ru_stime, used.ru_maxrss / 1000, (hashlib.file_digest(out, 'sha256').hexdigest(), status)


def least(program, words, given, runs):
    made = [run(program, words, given) for _ in range(runs)]
    return min(it[0] for it in made), min(it[1] for it in made), made[0][2]


def main():
    words, names, flag, runs, given = [], [], None, 3, []
    for word in sys.argv[1:]:
        if word.startswith('--'):
            flag = word
        elif flag == '--rows':
            names.append(word)
        elif flag == '--words':
            words.append(word)
        elif flag == '--runs':
            runs = int(word)
        else:
            given.append(word)
    folder, programs = given[0], [os.path.abspath(it) for it in given[1:]]
    if words:
        for program in programs:
            seconds, memory, _ = least(program, words, None, runs)
            print(f'{" ".join(words):24} {program}: {seconds:.2f} s, {memory:.0f} MB')
        return
    rows = sorted({os.path.basename(it).split('.')[0] for it in glob.glob(f'{folder}/*.whole.json')})
    for row in names or rows:
        half, whole = ([least(program, ['run'], f'{folder}/{row}.{part}.json', runs) for program in programs] for part in ('half', 'whole'))
        same = len({it[2] for it in half}) == len({it[2] for it in whole}) == 1
        cells = (f'{a[0]:.2f}, {b[0]:.2f} s ({b[0] / max(a[0], 0.005):.1f}), {b[1]:.0f} MB' for a, b in zip(half, whole))
        print(f'{row:20} {" | ".join(cells)} | {"same" if same else "DIFFERENT"}', flush=True)


if __name__ == '__main__':
    main()
