#!/usr/bin/env python3
"""Lets the checks of some folders go first where several checkouts prove side by side.

    scripts/first.py FOLDER ..          # runs until it is ended; begin it by setsid -f

Every five seconds each process of the toolchain (a check, or the compiler that it calls) gets its nice value: 0 where it works in
a folder whose path begins with one of these, 10 elsewhere. `sysctl kernel.sched_autogroup_enabled=0` makes nice values count
between sessions. Works as root alone."""
import os
import sys
import time

TOOLS = ('rattle', 'clang')


def is_tool(pid):
    with open(f'/proc/{pid}/cmdline') as f:
        return os.path.basename(f.read().split('\0')[0]).startswith(TOOLS)


def set_nice(pid, value):
    if os.getpriority(os.PRIO_PROCESS, pid) != value:
        for thread in os.listdir(f'/proc/{pid}/task'):
            os.setpriority(os.PRIO_PROCESS, int(thread), value)


def main():
    folders = tuple(map(os.path.realpath, sys.argv[1:]))
    while True:
        for name in filter(str.isdigit, os.listdir('/proc')):
            try:
                if is_tool(name):
                    set_nice(int(name), 0 if os.readlink(f'/proc/{name}/cwd').startswith(folders) else 10)
            except OSError:
                pass
        time.sleep(5)


if __name__ == '__main__':
    main()
