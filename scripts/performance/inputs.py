#!/usr/bin/env python3
"""Writes the scripts by which the program is measured.

    scripts/performance/inputs.py FOLDER [ROW ..]      # FOLDER/ROW.whole.json and FOLDER/ROW.half.json

Each row is a form of input with a size; the half has half of it. A script has at most 16,777,216 bytes."""
import json
import os
import random
import sys

KIND = {'group': '', 'version': 'v1', 'kind': 'ConfigMap', 'plural': 'configmaps'}
HOUR = 3_600_000_000_000
COMPACT = (',', ':')


def item(number, version=1):
    return {'metadata': {'name': f'a{number:06}', 'resourceVersion': str(version)}}


def page(items, version='1', token=None):
    metadata = {'resourceVersion': version} if token is None else {'continue': token}
    return {'items': items, 'metadata': metadata}


def paged(count, size):
    starts = range(0, count, size)
    return [page([item(at) for at in range(start, min(start + size, count))], token=None if start + size >= count else 't') for start in starts]


def script(lists, turns, watch=(), **more):
    watches = [[*watch, {'wait': HOUR}]]
    return {'kind': KIND, 'root': {'lists': lists, 'watches': watches, 'watcher': {'timeout': 0}}, 'turns': turns, **more}


def turn(at=0, asks=1_000_000, **more):
    return {'at': at, 'budget': [asks], **more}


def finish(number):
    return {'ref': {'name': f'a{number:06}'}}


def mixed(count):
    numbers = list(range(count))
    random.Random(1).shuffle(numbers)
    return numbers


def events(kind, numbers, version=2):
    return [{'events': [{'type': kind, 'object': item(number, version + at)} for at, number in enumerate(numbers)]}]


def running_and_reload(size):
    """All of a page run, a reload asks for them again, and a tenth as many new ones come, one a turn."""
    new = [{'type': 'ADDED', 'object': item(size + at, 2 + at)} for at in range(size // 10)]
    steps = [step for event in new for step in ({'events': [event]}, {'wait': 1})]
    return script(paged(size, size), [turn(), turn(reload=True), *(turn(1 + at, 2) for at in range(len(new)))], steps)


def ends_in_one_turn(size):
    return script(paged(size, size), [turn(), turn(1, 0, finishes=[finish(at) for at in range(size)])])


def falling_with_repeat(size):
    items = [item(at) for at in reversed(range(size))]
    return script([page([*items, items[0]])], [turn()])


def deletes(size):
    return script(paged(size, size), [turn(), turn(1)], [{'wait': 1}, *events('DELETED', mixed(size))])


def additions(size):
    return script([page([])], [turn()], events('ADDED', mixed(size)))


def in_a_page(size):
    return script(paged(size, size), [turn()])


def in_a_mixed_page(size):
    return script([page([item(at) for at in mixed(size)])], [turn()])


def shown_stores(size):
    return script(paged(1000, 1000), [turn(at, show=True) for at in range(size)])


def turns(size):
    def one(at):
        finishes = [finish(0)] if at else []
        return turn(at, 1 if at > 1 else 2, finishes=finishes, on=[{'name': 'a000000'}])

    return script([page([item(0)])], [one(at) for at in range(size)])


def modifications(size):
    numbers = [at % (size // 2) for at in mixed(size)]
    return script(paged(size // 2, size // 2), [turn(), turn(1)], [{'wait': 1}, *events('MODIFIED', numbers)])


def under_a_limit(size):
    batches = range(0, size, 10)
    finishes = lambda start: [finish(at) for at in range(start, start + 10)]
    return script(paged(size, size), [turn(), *(turn(1 + at, 0, finishes=finishes(start)) for at, start in enumerate(batches))], config={'concurrency': 10})


ROWS = {
    'running-and-reload': (running_and_reload, 10_000),
    'ends-in-one-turn': (ends_in_one_turn, 40_000),
    'pages-of-20': (lambda size: script(paged(size, 20), [turn()]), 40_000),
    'pages-of-500': (lambda size: script(paged(size, 500), [turn()]), 200_000),
    'falling-with-repeat': (falling_with_repeat, 100_000),
    'deletes': (deletes, 60_000),
    'additions': (additions, 60_000),
    'in-a-page': (in_a_page, 100_000),
    'in-a-mixed-page': (in_a_mixed_page, 100_000),
    'shown-stores': (shown_stores, 500),
    'turns': (turns, 150_000),
    'modifications': (modifications, 80_000),
    'under-a-limit': (under_a_limit, 40_000),
    'pages-of-one': (lambda size: script(paged(size, 1), [turn()]), 10_000),
}


def main():
    folder, names = sys.argv[1], sys.argv[2:] or ROWS
    os.makedirs(folder, exist_ok=True)
    for name in names:
        make, size = ROWS[name]
        for part, count in ('half', size // 2), ('whole', size):
            path = f'{folder}/{name}.{part}.json'
            with open(path, 'w') as f:
                json.dump(make(count), f, separators=COMPACT)
            print(path, os.path.getsize(path))


if __name__ == '__main__':
    main()
