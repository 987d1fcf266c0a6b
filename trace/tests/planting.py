"""Plants one fault in logs that are safe, of which some line gives evidence."""
from __future__ import annotations

import random
from typing import Callable, Dict, List, NamedTuple, Optional, Tuple

Logs = Dict[str, List[dict]]


class At(NamedTuple):
    """A line, in its log."""
    file: str
    it: dict


def lines(logs: Logs, *events: str) -> List[At]:
    return [At(file, it) for file, log in logs.items() for it in in_own_order(log) if it['event'] in events]


def in_own_order(log: List[dict]) -> List[dict]:
    return sorted(log, key=lambda it: it.get('seq', 0))


def renumber(log: List[dict]) -> None:
    """Numbers the lines as they stand, where lines have numbers."""
    if any('seq' in it for it in log):
        for number, it in enumerate(log):
            it['seq'] = number


def put(log: List[dict], at: int, *its: dict) -> None:
    log.sort(key=lambda it: it.get('seq', 0))
    log[at:at] = its
    renumber(log)


def who(it: dict) -> Tuple[object, object]:
    return it['node'], it['incarnation']


def double_writer(logs: Logs, chance: random.Random) -> Optional[str]:
    """Another node starts an entity that lives, reads its journal and writes the next record, which the first one writes too."""
    records = lines(logs, 'record', 'entity-started')
    before: Dict[object, dict] = {}
    found = []
    for file, it in records:
        last = before.get(it['entity'])
        if it['event'] == 'record' and last and last['event'] == 'record' and who(last) == who(it) and last['nr'] < it['nr']:
            others = [other for other in logs if other.startswith('node') and other != file and logs[other]]
            found += [(last, it, other) for other in others]
        before[it['entity']] = it
    if not found:
        return None
    last, it, other = chance.choice(found)
    log = logs[other]
    log.sort(key=lambda line: line.get('seq', 0))
    at = chance.randrange(len(log)) + 1
    of = {'node': log[at - 1]['node'], 'incarnation': log[at - 1]['incarnation'], 'entity': it['entity'], 'shard': it['shard']}
    record = {key: value for key, value in it.items() if key not in ('seq', 'time')}
    put(log, at, {**of, 'event': 'entity-started'}, {**of, 'event': 'entity-recovered', 'nr': last['nr'], 'state': '0'}, {**record, **of})
    return f'{other} writes number {it["nr"]} of {it["entity"]} too'


def lost_record(logs: Logs, chance: random.Random) -> Optional[str]:
    """A record is gone that is followed by another, was read or is confirmed."""
    last: Dict[object, int] = {}
    for _, it in lines(logs, 'record', 'journal', 'entity-recovered'):
        last[it['entity']] = max(last.get(it['entity'], 0), it['nr'] + (it['event'] == 'entity-recovered'))
    confirmed = {(it['producer'], it['entity'], it['by']) for _, it in lines(logs, 'confirmed')}
    found = [(file, it) for file, it in lines(logs, 'record') if it['nr'] < last[it['entity']] or (it.get('producer'), it['entity'], it.get('by')) in confirmed]
    if not found:
        return None
    file, it = chance.choice(found)
    for name, log in logs.items():
        logs[name] = [line for line in log if not (line['event'] in ('record', 'journal') and line['entity'] == it['entity'] and line['nr'] == it['nr'])]
    return f'number {it["nr"]} of {it["entity"]} is lost'


def early_confirmation(logs: Logs, chance: random.Random) -> Optional[str]:
    """A command is confirmed before its record in the log of one incarnation, or one is confirmed that is recorded nowhere."""
    records = {(it['producer'], it['entity'], it['by']): (file, it) for file, it in lines(logs, 'record', 'handled') if 'by' in it}
    confirmed = lines(logs, 'confirmed')
    if not confirmed:
        return None
    near = [(file, it) for file, it in confirmed if records.get((it['producer'], it['entity'], it['by']), ('', {}))[0] == file]
    near = [(file, it) for file, it in near if who(records[it['producer'], it['entity'], it['by']][1]) == who(it)]
    if near and chance.random() < 0.5:
        file, it = chance.choice(near)
        record = records[it['producer'], it['entity'], it['by']][1]
        log = logs[file] = [line for line in in_own_order(logs[file]) if line is not it]
        put(log, next(at for at, line in enumerate(log) if line is record), it)
        return f'{it["producer"]} {it["by"]} of {it["entity"]} is confirmed before its record'
    file, it = chance.choice(confirmed)
    known = [by for producer, entity, by in records if (producer, entity) == (it['producer'], it['entity'])]
    rows = [row['by'] for _, row in lines(logs, 'journal') if (row['producer'], row['entity']) == (it['producer'], it['entity'])]
    it['by'] = max(known + rows + [it['by']]) + 1
    return f'{it["producer"]} {it["by"]} of {it["entity"]} is confirmed, and recorded nowhere'


def swapped_epoch(logs: Logs, chance: random.Random) -> Optional[str]:
    """Two grants of a slot have each other's epochs; records under one of them, or their order at one node, tell."""
    grants: Dict[object, List[At]] = {}
    for file, it in lines(logs, 'lease-taken', 'producer-started'):
        if 'epoch' in it:
            grants.setdefault((it['event'], it.get('shard', it.get('producer'))), []).append(At(file, it))
    told = {(it['shard'], it['epoch']) for _, it in lines(logs, 'record', 'handled') if 'epoch' in it}
    found = []
    for (event, name), them in grants.items():
        for first in them:
            for second in them:
                is_told = event == 'lease-taken' and {(name, first.it['epoch']), (name, second.it['epoch'])} & told
                if first.it['epoch'] < second.it['epoch'] and (is_told or first.it['node'] == second.it['node']):
                    found.append((first.it, second.it))
    if not found:
        return None
    first, second = chance.choice(found)
    first['epoch'], second['epoch'] = second['epoch'], first['epoch']
    return f'epochs {second["epoch"]} and {first["epoch"]} of {first.get("shard", first.get("producer"))} are swapped'


PLANTS: Dict[str, Callable[[Logs, random.Random], Optional[str]]] = {
    'double-writer': double_writer, 'lost-record': lost_record, 'early-confirmation': early_confirmation, 'swapped-epoch': swapped_epoch,
}
