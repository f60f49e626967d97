#!/usr/bin/env python3
"""Compares two programs over random scripts: the proved one and the plain one, say.

    scripts/performance/compare.py PROGRAM PLAIN COUNT [SEED]

Each script has up to three sources with pages, watches, bookmarks, errors, faults and waits, a debounce, a limit, a backoff, and up to eleven
turns with budgets, finishes of what runs, reloads, named requests and shutdowns. A script that both don't answer with the same bytes and
the same status is kept as different.SEED.json in the working folder. The last line says how many were tried and how many differ."""
import collections
import json
import random
import subprocess
import sys

KIND = {'group': '', 'version': 'v1', 'kind': 'ConfigMap', 'plural': 'configmaps'}
RELATED = {'group': '', 'version': 'v1', 'kind': 'Pod', 'plural': 'pods'}
SECOND = 10 ** 9


class Maker:
    def __init__(self, seed):
        self.random = random.Random(seed)
        self.choice, self.below = self.random.choice, self.random.randrange

    def often(self, share):
        return self.random.random() < share

    def some(self, most, make):
        return [make() for _ in range(self.below(most))]

    def item(self, owned):
        metadata = {}
        if self.often(.98):
            metadata['name'] = self.choice('abcde')
        if self.often(.4):
            metadata['namespace'] = self.choice(['ns', 'ms'])
        if self.often(.93):
            metadata['resourceVersion'] = str(self.below(1, 50))
        if self.often(.3):
            metadata['labels'] = {'app': self.choice('abcde')}
        if owned and self.often(.8):
            owner = lambda: {'apiVersion': self.choice(['v1', 'v1', 'v2']), 'kind': self.choice(['ConfigMap', 'ConfigMap', 'Pod']), 'name': self.choice('abcde'), 'uid': 'u'}
            metadata['ownerReferences'] = self.some(3, owner)
        return {'metadata': metadata, **({'data': {'x': self.below(9)}} if self.often(.3) else {})}

    def fault(self):
        return self.choice([{'api': {'code': self.choice([410, 500]), 'message': 'm'}}, {'read': 'r'}, {'transport': 't'}])

    def page(self, owned):
        if self.often(.12):
            return {'fault': self.fault()}
        metadata = {}
        if self.often(.85):
            metadata['resourceVersion'] = self.choice(['1', '7', '9'])
        if self.often(.25):
            metadata['continue'] = 't'
        return {'items': self.some(4, lambda: self.item(owned)), 'metadata': metadata}

    def event(self, owned):
        kind = self.random.random()
        if kind < .75:
            return {'type': self.choice(['ADDED', 'MODIFIED', 'DELETED']), 'object': self.item(owned)}
        if kind < .88:
            metadata = {'resourceVersion': self.choice(['', '5', '20'])}
            if self.often(.6):
                metadata['annotations'] = {'k8s.io/initial-events-end': 'true'}
            return {'type': 'BOOKMARK', 'object': {'metadata': metadata}}
        if kind < .95:
            return {'type': 'ERROR', 'object': {'code': self.choice([410, 500]), 'message': 'e'}}
        return {'type': 'FAULT', 'fault': self.fault()}

    def step(self, owned):
        if self.often(.4):
            return {'wait': self.choice([0, 1, SECOND, 5 * SECOND, 400 * SECOND])}
        return {'events': self.some(4, lambda: self.event(owned))}

    def source(self, owned=False):
        watches = self.some(4, lambda: self.some(5, lambda: self.step(owned)))
        watcher = {}
        if self.often(.3):
            watcher['streaming'] = True
        if self.often(.4):
            watcher['timeout'] = self.choice([0, 1, 10])
        return {'lists': self.some(4, lambda: self.page(owned)), 'watches': watches, 'watcher': watcher}

    def related(self):
        return {**self.source(True), 'kind': RELATED, 'map': self.choice(['owners', {'label': 'app'}])}

    def named(self):
        return {'name': self.choice('abcdez'), **({'namespace': 'ns'} if self.often(.3) else {})}

    def turn(self, at):
        turn = {'at': at, 'budget': self.some(4, lambda: self.choice([0, 1, 2, 5, 50]))}
        if self.often(.2):
            turn['reload'] = True
        if self.often(.3):
            turn['on'] = self.some(3, self.named)
        if self.often(.3):
            turn['show'] = True
        if self.often(.03):
            turn['shutdown'] = self.choice(['graceful', 'forced'])
        return turn

    def script(self):
        script = {'kind': KIND, 'root': self.source(), 'related': self.some(3, self.related), 'config': {}}
        if self.often(.4):
            script['config']['debounce'] = self.choice([1, SECOND, 3 * SECOND])
        if self.often(.5):
            script['config']['concurrency'] = self.choice([1, 2, 3])
        script['backoff'] = self.choice(['stop', 'default', 'default', {'min': self.choice([0, 1, SECOND]), 'num': 2, 'den': 1, 'cap': self.choice([5, 10 * SECOND])}])
        if self.often(.4):
            script['error_requeue'] = self.choice([0, 1, SECOND])
        at, script['turns'] = 0, []
        for _ in range(self.below(1, 12)):
            at += self.choice([0, 0, 1, SECOND, 3 * SECOND, 300 * SECOND])
            script['turns'].append(self.turn(at))
        return script

    def finish(self, shown):
        name, *namespace = shown.split('/')[-1].split('.')
        finish = {'ref': {'name': name, **({'namespace': namespace[0]} if namespace else {})}}
        if self.often(.3):
            finish['err'] = 'failed'
        elif self.often(.6):
            finish['ok'] = self.choice([0, 1, SECOND])
        return finish


def run(program, text):
    ran = subprocess.run([program, 'run'], input=text.encode(), capture_output=True)
    return ran.returncode, ran.stdout


def running(written):
    """What runs after the turns of a trace."""
    left = []
    for record in map(json.loads, written.splitlines()):
        for finished in record.get('finished', []):
            left.remove(finished['ref'])
        left += [taken['ref'] for taken in record.get('taken', []) if taken['found']]
    return left


def made(seed, program):
    """A script whose turns finish some of what runs, as the program tells of the turns before them."""
    maker = Maker(seed)
    script = maker.script()
    for number, turn in enumerate(script['turns']):
        _, written = run(program, json.dumps({**script, 'turns': script['turns'][:number]}))
        turn['finishes'] = [maker.finish(shown) for shown in running(written) if maker.often(.5)]
        if maker.often(.02):
            turn['finishes'].append({'ref': {'name': 'zz'}})
    return json.dumps(script)


def main():
    program, plain, count = *sys.argv[1:3], int(sys.argv[3])
    first, statuses, lines, different = int(sys.argv[4]) if len(sys.argv) > 4 else 0, collections.Counter(), 0, 0
    for seed in range(first, first + count):
        text = made(seed, plain)
        one, other = run(program, text), run(plain, text)
        statuses[one[0]] += 1
        lines += one[1].count(b'\n')
        if one != other:
            different += 1
            with open(f'different.{seed}.json', 'w') as f:
                f.write(text)
    print(f'{count} scripts, {lines} lines, statuses {dict(statuses)}, {different} differ')
    return 1 if different else 0


if __name__ == '__main__':
    sys.exit(main())
