#!/usr/bin/env python3
"""Gives a checkout the libraries that another one proved, so that a check there doesn't prove them again.

    scripts/give_libraries.py FROM TO [CRATE ..]

FROM and TO are checkouts of this repository on one machine, TO often a fresh `git clone`. For each crate (or those named, with all
below them) whose files and whose lower crates' files are the same in both, crates/NAME/out/rlib of FROM is linked into TO, with the
stamp by which `rt check` takes a library as built. FROM may be a checkout in which `rt ci` is still under way: what it has proved so
far is given. `rt ci` itself never reads what was given. Needs `rt` on the path."""
import importlib.machinery
import importlib.util
import os
import shutil
import subprocess
import sys

sys.dont_write_bytecode = True


def load_rtlib():
    page = subprocess.run(['rt', 'doc'], capture_output=True, text=True, check=True).stdout.strip()
    path = f'{os.path.dirname(page)}/bin/rtlib.py'
    loader = importlib.machinery.SourceFileLoader('rtlib', path)
    made = importlib.util.module_from_spec(importlib.util.spec_from_loader('rtlib', loader))
    sys.modules['rtlib'] = made
    loader.exec_module(made)
    return made


def crates_in(rtlib, root):
    os.chdir(root)
    return {it.name: it for it in rtlib.crates_below(root)}


def main():
    source, target, names = *map(os.path.realpath, sys.argv[1:3]), sys.argv[3:]
    rtlib = load_rtlib()
    there, here = crates_in(rtlib, source), crates_in(rtlib, target)
    wanted = {it.name for name in names for it in [here[name], *here[name].below()]} if names else {*here}
    gave = []
    for name in sorted(wanted & {*there}, key=lambda it: len(here[it].below())):
        made, to = f'{source}/crates/{name}/out/rlib', f'{target}/crates/{name}/out/rlib'
        if here[name].is_built() or not os.path.isdir(made) or not os.listdir(made):
            continue
        if there[name].stamp() != here[name].stamp():
            print(f'{name}: its files differ')
            continue
        shutil.rmtree(to, ignore_errors=True)
        shutil.copytree(made, to, copy_function=os.link)
        if os.path.exists(f'{to}/stamp'):
            os.remove(f'{to}/stamp')
        with open(f'{to}/stamp', 'w') as f:
            f.write(here[name].stamp())
        gave.append(name)
    print('gave:', ' '.join(gave) or 'nothing')


if __name__ == '__main__':
    main()
