#!/usr/bin/env python3
"""Runs `rt plant` in a crate, one word after another, and keeps each list as it comes.

    scripts/plants.py CRATE FOLDER WORD ..         # at the top of the repository; a list for each word, FOLDER/CRATE-WORD.txt

`rt plant` prints at its end alone, so a run over all functions of a large crate that is stopped shows nothing. A word picks the
functions whose file, line and path contain it (a file's name, as polling.rt, or a method's). What is not judged in time is counted
as not-run in the list's last line: name it again. Environment: MINUTES (45) for each word, JOBS (1)."""
import os
import subprocess
import sys


def main():
    crate, folder, words = sys.argv[1], os.path.realpath(sys.argv[2]), sys.argv[3:]
    os.makedirs(folder, exist_ok=True)
    limits = ['--minutes', os.environ.get('MINUTES', '45'), '--jobs', os.environ.get('JOBS', '1')]
    for word in words:
        with open(f'{folder}/{crate}-{word.replace("/", "-")}.txt', 'w') as f:
            run = subprocess.run(['rt', 'plant', '--only', word, *limits, '--all'], cwd=f'crates/{crate}', stdin=subprocess.DEVNULL, stdout=f, stderr=subprocess.STDOUT)
        with open(f.name) as f:
            print(word, run.returncode, f.read().rstrip().rpartition('\n')[2], flush=True)


if __name__ == '__main__':
    main()
