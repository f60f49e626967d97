#!/usr/bin/env python3
"""Runs a command, as `rt ci`, and says what each crate took of it.

    scripts/gate_times.py rt ci > times.txt        # or: scripts/gate_times.py --of PID, of a gate that runs already

Every three seconds the processor time of each check is read that the command started. When it has ended, or this script is told to
end (Ctrl-C, TERM), it prints a line for each crate and kind (its proof, its tests, its wrong bodies): processor seconds, the
greatest memory of one check, and how many checks. Then come the sums, and each sum divided by what the proof of kube_watch took:
machines and loads differ by more than two times, that ratio by little. A check's own helper processes count for the check."""
import collections
import os
import signal
import subprocess
import sys
import time

TICK, PAGE = os.sysconf('SC_CLK_TCK'), os.sysconf('SC_PAGE_SIZE')


def stat(pid):
    with open(f'/proc/{pid}/stat') as f:
        text = f.read()
    return text[text.rindex(')') + 2:].split()


def words_of(pid):
    with open(f'/proc/{pid}/cmdline') as f:
        return f.read().split('\0')


def is_check(pid):
    """Whether a process is a check, and no helper process of one."""
    return words_of(pid)[0].endswith('/rattle') and not words_of(int(stat(pid)[1]))[0].endswith('/rattle')


def is_below(pid, top):
    for _ in range(20):
        pid = int(stat(pid)[1])
        if pid == top:
            return True
        if pid <= 1:
            return False
    return False


def kind_of(words, folder, top):
    if '--test' in words:
        return 'tests'
    return 'proof' if folder.startswith(top) else 'wrong bodies'


def look(seen, run, top):
    """Notes what each check took so far; a check that has ended keeps what was seen last."""
    for name in filter(str.isdigit, os.listdir('/proc')):
        try:
            pid = int(name)
            if not is_check(pid) or not is_below(pid, run):
                continue
            words, fields = words_of(pid), stat(pid)
            crate = words[words.index('--crate-name') + 1]
            kind = kind_of(words, os.readlink(f'/proc/{pid}/cwd'), top)
            with open(f'/proc/{pid}/statm') as f:
                memory = int(f.read().split()[1]) * PAGE
            # (its own time, and that of the helper processes that have ended)
            took = sum(map(int, fields[11:15])) / TICK
            old = seen.get((pid, fields[19]), (None, None, 0, 0))
            seen[pid, fields[19]] = crate, kind, max(took, old[2]), max(memory, old[3])
        except (OSError, ValueError, IndexError):
            pass


def show(seen, begun):
    took, memory, number = collections.Counter(), collections.Counter(), collections.Counter()
    for crate, kind, seconds, most in seen.values():
        took[crate, kind] += seconds
        memory[crate, kind] = max(memory[crate, kind], most)
        number[crate, kind] += 1
    unit = took['kube_watch', 'proof'] or float('nan')
    for (crate, kind), seconds in sorted(took.items(), key=lambda it: -it[1]):
        print(f'{crate:24} {kind:13} {seconds:7.0f} s {memory[crate, kind] / 1e9:5.1f} GB {number[crate, kind]:4}')
    for kind in sorted({kind for _, kind in took}):
        whole = sum(s for (_, k), s in took.items() if k == kind)
        print(f'all {kind:13} {whole / 60:7.1f} processor minutes, {whole / unit:5.1f} times kube_watch')
    whole = sum(took.values())
    minutes = (time.time() - begun) / 60
    print(f'whole {whole / 60:.1f} processor minutes, {whole / unit:.1f} times kube_watch, {minutes:.1f} minutes by the clock', flush=True)


def main():
    begun, seen = time.time(), {}
    signal.signal(signal.SIGTERM, lambda *_: sys.exit(1))
    if sys.argv[1] == '--of':
        run, status = int(sys.argv[2]), lambda: None if os.path.isdir(f'/proc/{run}') else 0
        top = os.readlink(f'/proc/{run}/cwd')
    else:
        started = subprocess.Popen(sys.argv[1:])
        run, status, top = started.pid, started.poll, os.getcwd()
    try:
        while status() is None:
            look(seen, run, top)
            time.sleep(3)
    except KeyboardInterrupt:
        pass
    finally:
        show(seen, begun)
    return status()


if __name__ == '__main__':
    sys.exit(main())
