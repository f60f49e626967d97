#!/usr/bin/env python3
"""Opens docs/trace.html in a headless Chromium with each trace of examples/scripts, and compares what it shows with the trace.

    tests/viewer/try_viewer.py [--pictures FOLDER] [--large PROGRAM]      # at the top of the repository; needs chromium on the path

For each trace: no error on the console; as many asks, takes, finishes, turns and sources as the trace has; the store at its last record
that shows one. --pictures writes a picture of each. --large runs a program, as crates/kube_program/out/kube_program, over a script of 20,000
objects and 2,000 turns and says how long a picture of its trace takes while it is panned and zoomed. It is no part of `rt ci`. The last line is `N passed, M failed`."""
import glob
import json
import os
import re
import subprocess
import sys
import tempfile

FLAGS = ['--headless=new', '--no-sandbox', '--disable-gpu', '--hide-scrollbars', '--window-size=1500,760', '--enable-logging=stderr', '--v=0']

CALL = """<script>
window.addEventListener('load', () => {
  const told = {};
  try {
    const texts = %s;
    take(texts);
    const model = chart.model, totals = model.totals;
    Object.assign(told, {
      about: document.getElementById('about').textContent, notes: model.notes, turns: model.records.length, sources: model.sources.length,
      asks: totals.get('asks') ?? 0, taken: (totals.get('taken and started') ?? 0) + (totals.get('taken and not found') ?? 0),
      finished: (totals.get('finished well') ?? 0) + (totals.get('finished with a fault') ?? 0), stored: [...model.store.names].sort(),
    });
    %s
  } catch (error) { told.error = `${error.stack}`; }
  const node = document.createElement('script');
  node.id = 'told';
  node.type = 'application/json';
  node.textContent = JSON.stringify(told).replaceAll('<', '\\\\u003c');
  document.body.append(node);
});
</script></body>"""

# How long the page takes to draw: each picture is read back, so that it is drawn whole.
PAN = """
    const times = [];
    const draw = () => { const from = performance.now(); chart.draw(); chart.pen.getImageData(1, 1, 1, 1); times.push(performance.now() - from); };
    chart.zoom(40); for (let at = 0; at < 100; at++) { chart.left += 37; chart.top += 61; draw(); }
    chart.fit(); for (let at = 0; at < 100; at++) { chart.top += 61; draw(); }
    for (let at = 0; at < 100; at++) { chart.zoom(1.03); draw(); }
    times.sort((a, b) => a - b);
    Object.assign(told, { drawn: times.length, middle: times[150], slowest: times[299], lanes: chart.lanes.length });
"""


def opened(page, texts, more='', picture=None):
    """What the page tells of these texts, and what its console said."""
    with tempfile.TemporaryDirectory() as room:
        path = f'{room}/page.html'
        given = json.dumps(texts).replace('</', '<\\/')
        with open(path, 'w') as f:
            f.write(page.replace('</body>', CALL % (given, more)))
        how = ['--dump-dom'] if not picture else [f'--screenshot={picture}']
        ran = subprocess.run(['chromium', *FLAGS, f'--user-data-dir={room}/user', *how, f'file://{path}'], capture_output=True, text=True, timeout=170)
    found = re.search(r'<script id="told" type="application/json">(.*?)</script>', ran.stdout, re.S)
    said = [it for it in ran.stderr.split('\n') if 'CONSOLE' in it]
    return json.loads(found[1]) if found else {}, said


def counted(trace):
    records = [row for row in map(json.loads, trace.splitlines()) if 'asks' in row]
    total = {'turns': len(records), 'sources': max((len(it['stops']) for it in records), default=0)}
    for name in ('asks', 'taken', 'finished'):
        total[name] = sum(len(it[name]) for it in records)
    shown = [it['store'] for it in records if 'store' in it]
    return total, shown[-1] if shown and 'store' in records[-1] else None


def name_of(item):
    meta = item['metadata']
    return meta['name'] + (f'.{meta["namespace"]}' if meta.get('namespace') else '')


def large(program, objects=20000, turns=2000):
    """The trace that a program writes of so many objects in pages of 500, a change a turn, and ten that run at once."""
    item = lambda n, v: {'metadata': {'name': f'object-{n:05}', 'namespace': 'default', 'resourceVersion': str(v)}}
    finish = lambda n: {'ref': {'name': f'object-{n:05}', 'namespace': 'default'}}
    pages = objects // 500
    lists = [{'items': [item(n, 1) for n in range(at * 500, at * 500 + 500)], 'metadata': {'resourceVersion': '1'} if at == pages - 1 else {'continue': f't{at}'}} for at in range(pages)]
    # (what is changed has ended, and comes again behind all others)
    changes = [{'type': 'MODIFIED', 'object': item(turn * 7919 % (10 * (turn - pages)), turn)} for turn in range(pages + 1, turns)]
    script = {'kind': {'group': '', 'version': 'v1', 'kind': 'ConfigMap', 'plural': 'configmaps'}, 'config': {'concurrency': 10},
              'root': {'lists': lists, 'watches': [[{'events': changes}]]},
              'turns': [{'at': turn * 10 ** 9, 'budget': [1], 'finishes': [finish(n) for n in range(10 * (turn - pages), 10 * (turn - pages) + 10)] if turn >= pages else []} for turn in range(turns)]}
    ran = subprocess.run([program, 'run'], input=json.dumps(script), capture_output=True, text=True)
    if ran.returncode:
        sys.exit(f'{program}: status {ran.returncode}: {ran.stdout[-200:]}{ran.stderr}')
    return ran.stdout


def main():
    words = sys.argv[1:]
    folder = os.path.realpath(words[words.index('--pictures') + 1]) if '--pictures' in words else None
    with open('docs/trace.html') as f:
        page = f.read()
    failed, passed = 0, 0
    for path in sorted(glob.glob('examples/scripts/*.trace')):
        with open(path) as f, open(f'{path[:-6]}.json') as g:
            trace, script = f.read(), g.read()
        wanted, store = counted(trace)
        for texts in ([trace], [script, trace]):
            told, said = opened(page, texts)
            wrong = [f'{name}: {told.get(name)}, not {number}' for name, number in wanted.items() if told.get(name) != number]
            if store is not None and told.get('stored') != sorted(map(name_of, store)):
                wrong.append(f'stored: {told.get("stored")}')
            wrong += said + told.get('notes', []) + ([told['error']] if 'error' in told else [])
            failed, passed = failed + bool(wrong), passed + (not wrong)
            print(os.path.basename(path), 'with its script' if len(texts) == 2 else 'alone', 'FAILED' if wrong else 'ok', *wrong)
        if folder:
            opened(page, [script, trace], picture=f'{folder}/{os.path.basename(path)[:-6]}.png')
    if '--large' in words:
        trace = large(words[words.index('--large') + 1])
        told, said = opened(page, [trace], PAN)
        said = [it for it in said if 'willReadFrequently' not in it]  # (what reads the pictures back here)
        is_well = not said and 'error' not in told and told.get('asks') == 2000 and told.get('lanes') == 20001
        failed, passed = failed + (not is_well), passed + is_well
        print(f'20,000 objects, 2,000 turns, {len(trace)} bytes: a picture in {told.get("middle")} ms in the middle, {told.get("slowest")} at most', said, told.get('error', ''))
    print(f'{passed} passed, {failed} failed')
    return 1 if failed else 0


if __name__ == '__main__':
    sys.exit(main())
