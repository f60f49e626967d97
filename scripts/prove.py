#!/usr/bin/env python3
"""Proves what isn't proved yet, as `rt ci` would, and keeps it: crates lowest first, then tests and programs, several side by side.

    scripts/prove.py [--lanes N] [--only-below CRATE ..] [--no-tests] [--edits]      # at the top of the repository

For a kit whose `rt ci` proves all anew in each run. Each crate, its tests or program, and with --edits each set of wrong bodies is one
task; a task whose files, and those of all crates below, are as when it passed is not run again (out/rlib/stamp, out/NAME.stamp). The
longest chains go first. --only-below names the crates that are wanted, each with all below it. What a task said stands in
/tmp/prove/NAME-KIND.log; a line for each task, with its processor seconds, and at the end `N passed, M failed`. It may be run again
while files change: it starts from what passed. `rt ci` trusts nothing of this, and is the gate."""
import copy
import importlib.machinery
import importlib.util
import os
import resource
import subprocess
import sys
import time
from concurrent.futures import FIRST_COMPLETED, ThreadPoolExecutor, wait

sys.dont_write_bytecode = True
LOGS = '/tmp/prove'


def load_rt():
    page = subprocess.run(['rt', 'doc'], capture_output=True, text=True, check=True).stdout.strip()
    path = f'{os.path.dirname(page)}/bin/rt'
    loader = importlib.machinery.SourceFileLoader('rt', path)
    made = importlib.util.module_from_spec(importlib.util.spec_from_loader('rt', loader))
    sys.modules['rt'] = made
    loader.exec_module(made)
    return made


def remember_stamps(rtlib):
    """Has each crate's stamp reckoned once for as long as its files stay as they are: rtlib reckons those of all crates below anew each time."""
    reckon, known = rtlib.Crate.stamp, {}

    def looks(crate):
        files = [os.stat(it) for it in rtlib.files_of(crate.folder)]
        return tuple((it.st_ino, it.st_mtime_ns, it.st_size) for it in files)

    def stamp(crate):
        key = crate.name, tuple(looks(it) for it in [crate, *crate.below()])
        if key not in known:
            known[key] = reckon(crate)
        return known[key]

    rtlib.Crate.stamp = stamp


def text_of(path):
    if not os.path.isfile(path):
        return None
    with open(path) as f:
        return f.read()


class Task:
    def __init__(self, rt, crate, kind):
        self.rt, self.crate, self.kind = rt, crate, kind
        self.name = f'{crate.name}{"" if kind == "proof" else f" ({kind})"}'
        self.mark = f'{crate.folder}/out/{"rlib/stamp" if kind == "proof" and not crate.is_program else f"{kind}.stamp"}'

    def stamp(self):
        edits = ''.join(text_of(it) for it in self.rt.edits_of(self.crate)[0]) if self.kind == 'edits' else ''
        return self.crate.stamp() + edits

    def has_passed(self):
        return text_of(self.mark) == self.stamp() and (self.kind != 'proof' or self.crate.is_program or os.path.isdir(self.crate.rlib))

    def run(self):
        """Runs the task and keeps that it passed; gives whether it did."""
        crate, stamp = copy.copy(self.crate), self.stamp()
        os.makedirs(f'{crate.folder}/out', exist_ok=True)
        with open(f'{LOGS}/{crate.name}-{self.kind}.log', 'w', errors='replace') as crate.out:
            try:
                if self.kind == 'edits':
                    said = self.rt.must_fail_all(crate, self.rt.edits_of(crate)[0], ['--jobs', '1'])
                    print('\n'.join(text for _, text in said), file=crate.out)
                    passed = all(well for well, _ in said)
                elif self.kind == 'proof' and self.rt.rtlib.fmt(crate.folder, '--check', crate.out):
                    passed = False
                else:
                    passed = not crate.ci(['--jobs', '1'], self.kind == 'tests')
                    if passed and self.kind == 'tests':
                        passed = self.rt.run(crate, True, '') is not False
                    elif passed and crate.is_program:
                        passed = all(self.rt.run(crate, False, it) for it in self.rt.BACKENDS.values())
            except SystemExit:
                passed = False
        if passed and stamp == self.stamp():
            with open(self.mark, 'w') as f:
                f.write(stamp)
        return passed


def tasks_of(rt, crates, words):
    found = {}
    for crate in crates:
        found[crate.name, 'proof'] = Task(rt, crate, 'proof')
        if '--no-tests' not in words and crate.has_tests():
            found[crate.name, 'tests'] = Task(rt, crate, 'tests')
        if '--edits' in words and rt.edits_of(crate)[0]:
            found[crate.name, 'edits'] = Task(rt, crate, 'edits')
    return found


def main():
    words = sys.argv[1:]
    lanes = int(words[words.index('--lanes') + 1]) if '--lanes' in words else os.cpu_count()
    os.makedirs(LOGS, exist_ok=True)
    sys.argv = ['rt', 'version']
    rt = load_rt()
    rt.rtlib.stop = rt.stop
    remember_stamps(rt.rtlib)
    rt.Crate.cuts_libraries, rt.rtlib.Crate = True, rt.Crate
    rt.rtlib.guarded()
    rt.Crate.allowed = rt.handles_of(os.getcwd())
    crates = sorted(rt.rtlib.crates_below(os.getcwd()), key=lambda it: len(it.below()))
    if '--only-below' in words:
        names = [it for it in words[words.index('--only-below') + 1:] if not it.startswith('--')]
        wanted = {it.name for crate in crates if crate.name in names for it in [crate, *crate.below()]}
        crates = [it for it in crates if it.name in wanted]
    tasks, behind = tasks_of(rt, crates, words), {}
    for crate in reversed(crates):
        lines = crate.count(rb'\n')
        behind[crate.name] = behind.get(crate.name, 0) + lines
        for it in crate.below():
            behind[it.name] = max(behind.get(it.name, 0), behind[crate.name])
    done = {key: True for key, task in tasks.items() if task.has_passed()}
    print(f'{len(done)} of {len(tasks)} passed before', flush=True)
    left = [key for key in tasks if key not in done]
    left.sort(key=lambda key: (-behind[key[0]] if key[1] == 'proof' else 0, key[1]))
    running = {}
    with ThreadPoolExecutor(lanes) as pool:
        while left or running:
            for key in [*left]:
                needs = [(it.name, 'proof') for it in tasks[key].crate.below()]
                needs += [(key[0], 'proof')] if key[1] == 'edits' else []
                if any(done.get(it) is False for it in needs):
                    done[key] = False
                    left.remove(key)
                    print(f'{tasks[key].name}: not tried, since a crate below failed', flush=True)
                elif len(running) < lanes and all(done.get(it) for it in needs):
                    left.remove(key)
                    running[pool.submit(tasks[key].run)] = key, time.time()
            for it in wait(running, return_when=FIRST_COMPLETED).done if running else []:
                key, begun = running.pop(it)
                done[key] = it.result()
                print(f'{tasks[key].name}: {"passed" if done[key] else "FAILED"}, {time.time() - begun:.0f} s by the clock', flush=True)
    failed = [tasks[key].name for key in tasks if not done.get(key)]
    print(f'{len(tasks) - len(failed)} passed, {len(failed)} failed {" ".join(failed)}; {resource.getrusage(resource.RUSAGE_CHILDREN).ru_utime:.0f} processor seconds', flush=True)
    return 1 if failed else 0


if __name__ == '__main__':
    sys.exit(main())
