#!/usr/bin/env python3
"""Runs the program once for each call for memory that it makes, with that call refused, and says what each run wrote.

    scripts/refused_calls.py PROGRAM SCRIPT ..     # PROGRAM as `rt run` builds it, crates/kube_program/out/kube_program
    scripts/refused_calls.py PROGRAM gen SEED OBJECTS TURNS

For each script (or the generated input): how many calls for memory, reads and writes a whole run makes; how the runs with one call
refused ended (status, and whether what was written is nothing, a beginning of the whole text, or the whole), and each read and each
write failed in turn (`EIO`). A run is odd, and is named, where its status isn't 7 or what it wrote is no beginning. Needs cc."""
import collections
import os
import subprocess
import sys
import tempfile
from concurrent.futures import ThreadPoolExecutor

HERE = os.path.dirname(os.path.realpath(__file__))


class Program:
    def __init__(self, path, library):
        self.path, self.library = path, library

    def run(self, words, script, **settings):
        env = {**os.environ, **{k: str(v) for k, v in settings.items()}, 'LD_PRELOAD': self.library}
        with open(script or os.devnull) as f:
            ran = subprocess.run([self.path, *words], stdin=f, capture_output=True, env=env)
        return ran.returncode, ran.stdout, ran.stderr


def kind_of(part, whole):
    if part == whole:
        return 'the whole text'
    return 'nothing' if not part else 'a beginning' if whole.startswith(part) else 'NO BEGINNING'


def try_all(program, words, script):
    status, whole, told = program.run(words, script, COUNT=1)
    calls, reads, writes = map(int, told.split()[-3:])
    print(f'{script or " ".join(words)}: status {status}, {len(whole)} bytes, {calls} calls for memory, {reads} reads, {writes} writes')
    tally, odd = collections.Counter(), []

    def with_refused(number):
        ended, part, _ = program.run(words, script, REFUSE=number)
        return number, ended, kind_of(part, whole)

    with ThreadPoolExecutor(os.cpu_count()) as pool:
        for number, ended, kind in pool.map(with_refused, range(1, calls + 1)):
            tally[ended, kind] += 1
            if ended != 7 or kind not in ('nothing', 'a beginning'):
                odd.append((number, ended, kind))
    for (ended, kind), count in tally.items():
        print(f'  one call refused: status {ended}, {kind}: {count}')
    for odd_one in odd[:10]:
        print('  odd:', *odd_one)
    for name, count in (('FAIL_READ', reads), ('FAIL_WRITE', writes)):
        for number in range(1, count + 1):
            ended, part, _ = program.run(words, script, **{name: number})
            print(f'  {name} {number}: status {ended}, {kind_of(part, whole)}, {len(part)} bytes')


def main():
    with tempfile.TemporaryDirectory() as room:
        library = f'{room}/refused_calls.so'
        subprocess.run(['cc', '-O2', '-shared', '-fPIC', '-o', library, f'{HERE}/refused_calls.c'], check=True)
        program = Program(os.path.realpath(sys.argv[1]), library)
        if sys.argv[2] == 'gen':
            try_all(program, sys.argv[2:], None)
        else:
            for script in sys.argv[2:]:
                try_all(program, ['run'], script)


if __name__ == '__main__':
    main()
