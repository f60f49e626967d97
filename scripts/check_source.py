#!/usr/bin/env python3
"""Checks parts of a crate before the crates below it are proved.

    scripts/check_source.py CRATE --only PATH [flags of rattle check]     # at the top of the repository

Libraries below that `rt check` has built here are taken as they are; all others as source, whose functions are checked where PATH leads
to them and not else. PATH is a function, type or module as a check prints it, as kube_core::pending::Pending::stop. `--only ''` proves
nothing and says in a minute whether the crate's specs and contracts are admitted, and those of the libraries that it reads. `--start PATH
--generated FOLDER` writes the goals. What was checked is kept in crates/CRATE/out/by-source, so the next run is quicker; no gate reads it."""
import os
import subprocess
import sys

from give_libraries import crates_in, load_rtlib


def main():
    root, (name, *flags) = os.getcwd(), sys.argv[1:]
    rtlib = load_rtlib()
    crate = crates_in(rtlib, root)[name]
    words, given = crate.words(['--jobs', '1'], as_source=True), []
    while words:
        word = words.pop(0)
        if word == '--lib':
            library = words.pop(0)
            below = library.split(':')[0]
            made = f'{root}/crates/{below}/out/rlib'
            if os.path.isdir(f'{made}/{below}.rlib'):
                given += ['--extern', f'{below}={made}/{below}.rlib', '-L', f'dependency={made}']
            else:
                print(f'as source: {below}', flush=True)
                given += [word, library]
        else:
            given.append(word)
    kept = f'{crate.folder}/out/by-source'
    os.makedirs(kept, exist_ok=True)
    rattle = [rtlib.RATTLE, 'check', *given, '--incremental', kept, *flags]
    sys.exit(subprocess.run(rattle, cwd=crate.folder).returncode)


if __name__ == '__main__':
    main()
