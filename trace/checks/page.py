#!/usr/bin/env python3
"""Looks at pages of explore.py in a headless browser: trace/checks/page.py [--pictures FOLDER] [PROGRAM]

Each page is moved to fifty lines, by slider, keys and links, and each pane is compared with the state after that line as
`state.py` has it. A table of keys is pressed, and what comes of each is looked at. With PROGRAM, as ./run.sh, the traces are those of three examples and of a script of 20,000 lines, whose
size and times are looked at too; without it, those of crates/known_replays. Where no Chromium is, a line says so.
"""
from __future__ import annotations

import json
import os
import random
import subprocess
import sys
import tempfile
import time
from typing import Dict, Iterator, List, Optional, Tuple

sys.dont_write_bytecode = True
HERE = os.path.dirname(os.path.realpath(__file__))
TOP = os.path.dirname(os.path.dirname(HERE))
sys.path[:0] = [os.path.dirname(HERE), HERE]

from browser import Browser, program                    # noqa: E402
from explore import case_of, page_of                    # noqa: E402
from sources import Source, read_source                 # noqa: E402
from state import State, words_at                       # noqa: E402

MOVES = 50
MOST_ITEMS = 12         # that a pane shows, as in panes.js
MOST_BYTES, MOST_SECONDS, MOST_MILLISECONDS = 15_000_000, 3.0, 50.0
# machines of checks have other work too: there a time fails the check at so many times its bound
SLACK = 2
KNOWN = ('rebalanced', 'coordinator_crashes', 'crash_and_return', 'node_leaves', 'more_shards', 'passivated_remembered', 'job_given_again',
         'full_buffer', 'failed_write_lost')
UNSAFE = 'examples/unsafe_two_incarnations.trace'
PICTURES = (('failover', 99, 1280, 900, False), ('handoff', 106, 1280, 900, True))

Shown = Dict[str, object]


def read(path: str) -> bytes:
    with open(os.path.join(TOP, path), 'rb') as file:
        return file.read()


def cases(player: Optional[str]) -> Iterator[Tuple[str, bytes, bytes]]:
    """Names, scripts and traces."""
    yield 'unsafe', b'', read(UNSAFE)
    if player is None:
        for name in KNOWN:
            yield name, read(f'crates/known_replays/data/{name}.in'), read(f'crates/known_replays/data/{name}.out')
        return
    sys.path.append(os.path.join(TOP, 'bench'))
    from measure import flow
    scripts = {name: read(f'examples/{name}.txt') for name in ('failover', 'handoff', 'coordinator_crash')}
    scripts['flow'] = ('\n'.join(flow()) + '\n').encode()
    for name, script in scripts.items():
        yield name, script, subprocess.run([player, 'replay'], input=script, capture_output=True, check=True).stdout


# ---- what the panes should show
def ranges(numbers: List[int]) -> str:
    found: List[str] = []
    numbers = sorted(numbers)
    while numbers:
        count = 1
        while count < len(numbers) and numbers[count] == numbers[0] + count:
            count += 1
        found.append(str(numbers[0]) if count == 1 else f'{numbers[0]}{", " if count == 2 else "–"}{numbers[count - 1]}')
        numbers = numbers[count:]
    return ', '.join(found)


def below(words: Shown, beginning: str) -> Dict[str, object]:
    return {word[len(beginning) + 1:]: value for word, value in words.items() if word.startswith(beginning + '.')}


def by_value(words: Shown, name: str) -> Shown:
    by: Dict[str, List[int]] = {}
    for shard, value in below(words, name).items():
        by.setdefault(str(value), []).append(int(shard))
    return {f'{name} {value}': f'{ranges(shards)} → {value}' for value, shards in by.items()}


def of_node(words: Shown) -> Shown:
    name = words.get('incarnation')
    if name is None:
        return {'incarnation': 'is down'}
    found: Shown = {'incarnation': f'is up as {name}', 'registered': words.get('registered', '–'), **by_value(words, 'home'), **by_value(words, 'mark')}
    if 'view' in words:
        found.update(view=words['view'], members=str(words['members']).replace(',', ' '))
    if 'leaving' in words:
        found['leaving'] = 'it leaves'
    if below(words, 'asked'):
        found['asked'] = ranges([int(it) for it in below(words, 'asked')])
    if below(words, 'kept'):
        found['kept'] = sorted(map(str, below(words, 'kept').values()))
    return found


def of_entity(words: Shown) -> Shown:
    found: Shown = {'phase': 'not live', 'records': 0, 'state': '', 'shard': ''}
    found.update({word: words[word] for word in found if word in words})
    found.update({word: words[word] for word in ('armed', 'remembered', 'snapshot', 'at') if word in words})
    if 'remembered' in words:
        found['remembered'] = 'remembered'
    others = [name for name in below(words, 'live') if name != words.get('at')]
    if others:
        found['live'] = ' '.join(sorted(others, key=lambda name: tuple(map(int, name.split('.')))))
    if below(words, 'stash'):
        found['stash'] = sorted(map(str, below(words, 'stash').values()))
    return found


def of_coordinator(words: Shown) -> Shown:
    leaving = below(words, 'leaving')
    found: Shown = {**by_value(words, 'home'), 'started': ranges([int(it) for it in below(words, 'started')])}
    found.update({f'region.{name}': name + (' leaves' if name in leaving else '') for name in below(words, 'region')})
    found.update({f'moving.{shard}': said for shard, said in below(words, 'moving').items()})
    if 'round' in words:
        found['round'] = words['round']
    return found


SHOULD = {
    'node': of_node, 'entity': of_entity, 'coordinator': of_coordinator,
    'slot': lambda words: {'epoch': 0, 'holder': '–', **words},
    'pair': lambda words: {'queued': 0, 'confirmed': 0, 'demanded': 0, **words},
    'job': lambda words: {'dids': 0, **words},
}
# moves the page through rows, each in its way (a slider's, a link's, a key's), and gives what it shows at each
WALK = """(async moves => {
  const slider = document.getElementById('slider'), seen = [];
  go(last);
  document.querySelector('[data-whole=node]')?.click();
  for (const [way, row, line] of moves) {
    if (way === 'slider') { slider.value = row; slider.dispatchEvent(new Event('input')); }
    if (way === 'link') await new Promise(done => {
      window.addEventListener('hashchange', done, { once: true });
      if (location.hash === '#' + line) done(); else location.hash = line;
    });
    if (way === 'key') { go(row - 1); document.activeElement.dispatchEvent(new KeyboardEvent('keydown', { key: 'ArrowRight', bubbles: true })); }
    seen.push({
      text: document.getElementById('text').textContent,
      wire: [...document.querySelectorAll('#wire [data-packet] b')].map(it => +it.textContent),
      words: [...document.querySelectorAll('#panes [data-word]')].map(it => [it.dataset.of, it.dataset.item, it.dataset.word,
        it.textContent.replace(/\\s+/g, ' ').trim(), it.dataset.by || '']),
    });
  }
  return seen;
})(%s)"""


# leads to each pane as its key does, and gives those whose titles aren't in view then
LEAD = """(async () => {
  const faults = [], wait = () => new Promise(done => requestAnimationFrame(() => requestAnimationFrame(() => requestAnimationFrame(done))));
  for (const of of framed) {
    document.activeElement.blur();
    document.body.dispatchEvent(new KeyboardEvent('keydown', { key: String(framed.indexOf(of) + 1), bubbles: true }));
    await wait();
    const title = document.getElementById(`${of}-title`).getBoundingClientRect(), line = document.getElementById('now').getBoundingClientRect();
    const top = getComputedStyle(document.getElementById('now')).position === 'sticky' ? line.bottom : 0;
    const foot = document.querySelector('.controls').getBoundingClientRect().top;
    if (title.top < top || title.bottom > foot) faults.push(`the title of ${of} is at ${title.top}, and not from ${top} to ${foot}`);
  }
  return faults;
})()"""


def by_item(words: List[List[str]]) -> Dict[str, Dict[str, Shown]]:
    found: Dict[str, Dict[str, Shown]] = {}
    for of, item, word, text, by in words:
        shown = found.setdefault(of, {}).setdefault(item, {})
        if word in ('kept', 'stash'):
            shown[word] = sorted([*shown.get(word, []), text])  # type: ignore[misc]
        else:
            shown[f'{word} {by}' if by else word] = text
    return found


def faults_at(seen: Dict[str, object], state: State, row: int) -> Iterator[str]:
    """Where a pane shows something else than stands after a row."""
    shown = by_item(seen['words'])      # type: ignore[arg-type]
    for of, should in SHOULD.items():
        begun = {item for item, words in state.histories[of].items() if any(history[0] <= row for history in words.values())}
        is_whole = of == 'node' or len(begun) <= MOST_ITEMS     # of nodes each has its line
        if of != 'coordinator' and is_whole and set(shown.get(of, ())) != begun:
            yield f'{of}: {sorted(shown.get(of, ()))}, and not {sorted(begun)}'
        if not is_whole and len(shown.get(of, ())) != MOST_ITEMS:
            yield f'{of}: {len(shown.get(of, ()))} items, and not {MOST_ITEMS}'
        for item, words in shown.get(of, {}).items():
            standing = should(words_at(state.histories[of].get(item, {}), row))
            if state.is_pull:               # there is no coordinator, and no entity that asks
                standing.pop({'node': 'registered', 'pair': 'demanded'}.get(of, ''), None)
            expected = {word: value if isinstance(value, list) else str(value) for word, value in standing.items()}
            if words != expected:
                yield f'{of} {item}: {words}, and not {expected}'
    on_wire = [packet.number for packet in state.actors.posted if packet.row <= row and not any(got.row <= row for got in packet.deliveries)]
    if seen['wire'] != on_wire[-MOST_ITEMS:]:
        yield f'wire: {seen["wire"]}, and not {on_wire[-MOST_ITEMS:]}'
    if seen['text'] != state.facts[row].text:
        yield f'the line: {seen["text"]}'


def look_at(page: Browser, name: str, source: Source, path: str) -> List[str]:
    state, facts = State(source.trace), source.trace.facts
    chosen = random.Random(name)
    rows = sorted({0, len(facts) - 1, *(chosen.randrange(len(facts)) for _ in range(MOVES - 2))})
    chosen.shuffle(rows)
    moves = [(('slider', 'link', 'key')[n % 3] if row else 'slider', row, facts[row].line) for n, row in enumerate(rows)]
    page.open(path, '#1')
    found: List[str] = []
    for (way, row, line), seen in zip(moves, page.run(WALK % json.dumps(moves))):       # type: ignore[call-overload]
        found += [f'{name}, line {line}, by {way}: {fault}' for fault in faults_at(seen, state, row)]
    page.press('Home')
    if page.run('now.row') != 0:
        found.append(f'{name}: the key Home leads to row {page.run("now.row")}')
    for width in (1280, 390):
        page.be(width, 844, False)
        if page.run(f'document.documentElement.scrollWidth > {width}'):
            found.append(f'{name}: wider than a window of {width} pixels')
        found += [f'{name}, {width} pixels wide: {fault}' for fault in page.run(LEAD) or ()]      # type: ignore[attr-defined]
    page.be(1280, 900, False)
    found += [f'{name}: {error}' for error in page.errors]
    page.errors.clear()
    return found


# ---- what keys do
LINE, FOCUS, ORDER = 'lineOf(now.row)', 'document.activeElement.id', "document.getElementById('sentence').textContent"
FOLLOW = """new Promise(done => {
  const link = document.querySelector('%s'), until = Date.now() + 9000;
  const look = () => `#${lineOf(now.row)}` === link.getAttribute('href') || Date.now() > until ? done(lineOf(now.row)) : setTimeout(look, 20);
  link.click();
  look();
})"""
LISTED = "[...document.querySelectorAll('#room .number')].map(it => +it.textContent)"
# of each page: the line at which one begins, the keys, what is looked at, and what it is then. A word is typed letter by letter, `_` as a space
KEYS: Dict[str, List[Tuple[int, str, str, object]]] = {
    'unsafe': [
        (2, 'b', LINE, 15),
        (2, '', "document.querySelector('#verdict').textContent", 'Not safe from line 15 on: two live incarnations; c1 is live at 1.1 since line 9.'),
        (15, '', "document.querySelector('#breaks').textContent", 'This line breaks the trace: two live incarnations; c1 is live at 1.1 since line 9.'),
        (14, '', "document.querySelector('#breaks').textContent", ''),
        (2, '', "[...document.querySelectorAll('#room .breaks .number')].map(it => +it.textContent)", [15]),
        (2, '', "[...document.querySelectorAll('#verdict a')].map(it => it.getAttribute('href'))", ['#15', '#9']),
        (2, '', FOLLOW % '#verdict a', 15),
        (15, '', "document.querySelector('#entity [data-word=live]').textContent.trim()", '1.1'),
        (15, '', "[...document.querySelectorAll('#diagram .lease.entity title')].map(it => it.textContent)", ['c1 is live at 1.1', 'c1 is live at 2.1']),
        (2, '', "[...document.querySelectorAll('#legend span')].map(it => it.textContent)", [
            'coordinator’s lease', 'shard’s', 'queue’s', 'the line’s entity lives']),
    ],
    'rebalanced': [
        (1, 'ArrowRight', LINE, 2), (2, 'ArrowLeft', LINE, 1), (1, 'ArrowDown', LINE, 2), (2, 'ArrowUp', LINE, 1), (1, 'ArrowLeft', LINE, 1),
        (9, 'PageDown', LINE, 13), (9, 'PageUp', LINE, 4), (4, 'PageUp', LINE, 1), (9, 'End', LINE, 109), (9, 'Home', LINE, 1),
        (9, 'Shift+ArrowRight', LINE, 13), (9, 'Shift+ArrowLeft', LINE, 4),
        (3, 'p', LINE, 5), (5, 'p', LINE, 3), (1, 'p', "document.getElementById('said').textContent", 'This line is of no packet.'),
        (36, 'e', LINE, 37), (36, 'E', LINE, 17), (1, 'e', LINE, 16), (109, 'e', "document.getElementById('said').textContent", 'No later fact of an entity.'),
        (9, 'b', "document.getElementById('said').textContent", 'No line is known to break this trace.'),
        (9, 'g', FOCUS, 'number'), (9, '/', FOCUS, 'filter'), (9, '?', "document.getElementById('help').open", True), (9, '? ArrowRight', LINE, 9),
        *((9, str(n), FOCUS, f'{of}-title') for n, of in enumerate(('node', 'slot', 'entity', 'pair', 'coordinator', 'wire'), 1)),
        (9, '0', FOCUS, 'now'), (9, '3 0', FOCUS, 'now'), (9, '3 7', FOCUS, 'entity-title'), (9, '3 ArrowRight', LINE, 10),
        (9, '', "document.getElementById('most').textContent", '6'),
        # the filter: what the list shows, in any case; of all lines these are left, and Enter goes to the first from here on
        (1, '/ MOVING', LISTED, [81]), (1, '/ moving Enter', LINE, 81), (1, '/ moving Enter', FOCUS, 'lines'), (90, '/ moving Enter', LINE, 81),
        (1, '/ pump', LISTED, [4, 23, 70, 84]), (1, '/ kind:moving', LISTED, [81]),
        (1, '/ shardStopped', LISTED, [98, 99]), (99, '/ shardstopped Enter ArrowLeft', LINE, 98), (1, '/ shardstopped Enter End', LINE, 99),
        (1, '/ entity:Aa_kind:stop', LISTED, [96]), (1, '/ node:2_granted', LISTED, [105]), (1, '/ producer:1_kind:queued', LISTED, [16, 20]),
        (1, '/ shard:1_kind:granted', LISTED, [42]), (1, '/ xyz', "document.querySelector('#room').textContent", 'No line fits the filter.'),
        (1, '/ xyz Enter', LINE, 1), (1, '/ moving Escape', "document.getElementById('filter').value + listed", 'null'),
        (1, '/ moving', "document.getElementById('count').textContent", '1 of 109 lines'),
        # what each order says
        (1, '', ORDER, 'Line 2 of the script begins. Node 1 is started.'),
        (4, '', ORDER, 'Line 3 of the script begins. Packets are delivered, the oldest first, until none is left, or 9 were.'),
        (13, '', ORDER, 'Line 4 of the script begins. Node 1 takes the queue of producer 1.'),
        (15, '', ORDER, 'Line 5 of the script begins. Producer 1 has a command for Aa: add 1.'),
        (80, '', ORDER, 'Line 10 of the script begins. The coordinator moves shards from nodes with many to nodes with few, at most 1.'),
        (1, '', "[...document.querySelectorAll('#legend span')].map(it => it.textContent)", [
            'answer', 'home of a shard', 'move of a shard', 'to an entity', 'members', 'coordinator’s lease', 'shard’s', 'queue’s',
            'the line’s entity lives']),
    ],
    'job_given_again': [
        *((9, str(n), FOCUS, f'{of}-title') for n, of in enumerate(('node', 'slot', 'pair', 'job', 'wire'), 1)),
        (9, '2 6', FOCUS, 'slot-title'), (1, '', "document.getElementById('verdict').hidden", True),
    ],
}


def press_all(page: Browser, keys: str) -> None:
    for key in keys.split():
        if key.isalpha() and key[0].isupper() and not key.isupper() or len(key) == 1:
            page.press(key)
        elif key.startswith('Shift+'):
            page.press(key[6:], shift=True)
        else:
            for letter in key.replace('_', ' '):
                page.press(letter)


def look_at_keys(page: Browser, folder: str) -> List[str]:
    found: List[str] = []
    for name, them in KEYS.items():
        base = f'crates/known_replays/data/{name}'
        source = read_source(read(UNSAFE)) if name == 'unsafe' else read_source(read(f'{base}.out'), read(f'{base}.in'))
        path = os.path.join(folder, f'keys_{name}.html')
        with open(path, 'w', encoding='utf-8') as file:
            file.write(page_of(source, name, None, lambda: case_of(source))[0])
        page.open(path)
        for line, keys, look, should in them:
            page.run(f"document.getElementById('help').close(); setFilter(''); document.activeElement.blur(); go(rowOf({line}))")
            press_all(page, keys)
            seen = page.run(look)
            if seen != should:
                found.append(f'{name}, line {line}, keys {keys}: {look} is {seen}, and not {should}')
        found += [f'{name}: {error}' for error in page.errors]
        page.errors.clear()
    return found


def look_at_times(page: Browser, size: int, seconds: float) -> List[str]:
    """Of the large page: how large it is, how long it took to make, and how long a move of the slider takes."""
    page.ask('Performance.enable', timeDomain='threadTicks')
    before = task_seconds(page)
    page.run("for (let n = 0; n < 100; n++) { const it = document.getElementById('slider'); it.value = Math.random() * it.max; "
             "it.dispatchEvent(new Event('input')); document.body.offsetHeight }")
    each = 10 * (task_seconds(page) - before)
    print(f'trace/checks/page.py: the page of flow: {size:,} bytes, made in {seconds:.1f} s; a move of the slider takes {each:.0f} ms')
    bounds = (('bytes', size, MOST_BYTES), ('seconds', seconds, MOST_SECONDS * SLACK), ('ms', each, MOST_MILLISECONDS * SLACK))
    return [f'flow: {value:,} {unit}, at most {most:,}' for unit, value, most in bounds if value > most]


def task_seconds(page: Browser) -> float:
    metrics = page.ask('Performance.getMetrics')['metrics']
    return next(it['value'] for it in metrics if it['name'] == 'TaskDuration')      # type: ignore[attr-defined]


def take_pictures(page: Browser, folder: str, paths: Dict[str, str]) -> None:
    for name, line, width, height, is_dark in PICTURES:
        if name in paths:
            page.be(width, height, is_dark)
            page.open(paths[name], f'#{line}')
            page.picture(os.path.join(folder, f'explore_{name}.png'))
    page.be(1280, 900, False)


def main() -> int:
    words = sys.argv[1:]
    pictures = words[1] if words[:1] == ['--pictures'] else None
    player = next(iter(words[2:] if pictures else words), None)
    if program() is None:
        print("trace/checks/page.py: no Chromium here: no page was looked at")
        return 0
    found: List[str] = []
    paths: Dict[str, str] = {}
    with tempfile.TemporaryDirectory() as folder, Browser() as page:
        for name, script, trace in cases(player):
            case = case_of(read_source(trace, script))
            begun = time.process_time()
            source = read_source(trace, script)
            text, _ = page_of(source, f'A trace of {name}', None, lambda: case)
            seconds = time.process_time() - begun
            paths[name] = os.path.join(folder, f'{name}.html')
            with open(paths[name], 'w', encoding='utf-8') as file:
                file.write(text)
            found += look_at(page, name, source, paths[name])
            if name == 'flow':
                found += look_at_times(page, len(text), seconds)
        found += look_at_keys(page, folder)
        if pictures:
            take_pictures(page, pictures, paths)
    for fault in found[:40]:
        print(f'trace/checks/page.py: {fault}')
    return 1 if found else 0


if __name__ == '__main__':
    sys.exit(main())
