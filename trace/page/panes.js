// The panes: what stands after a row. Each word that is shown says of what it is (`data-of`, `data-item`, `data-word`).
const MOST = 12;
const FEW = 4;                      // nodes that are shown open
const shownWhole = new Set();       // panes that show all their items
const openNodes = new Set();

const escaped = text => String(text).replace(/[&<>"]/g, it => ({ '&': '&amp;', '<': '&lt;', '>': '&gt;', '"': '&quot;' }[it]));
const most = of => shownWhole.has(of) ? Infinity : MOST;

function word(of, item, name, row, value, html = escaped(value)) {
  const changed = name && changedAt(of, item, name, row) ? ' class="changed"' : '';
  return `<span data-of="${of}" data-item="${escaped(item)}" data-word="${name}"${changed}>${html}</span>`;
}

// An incarnation, with the colour of its node.
const chip = name => name === null || name === undefined ? '<span class="none">–</span>' : !name.includes('.') ? escaped(name)
  : `<span class="chip"><i class="${tint(parseInt(name, 10))}"></i>${escaped(name)}</span>`;
const chips = names => names.map(chip).join(' ');
const link = (row, text) => `<a href="#${lineOf(row)}">${escaped(text)}</a>`;

// Why a line breaks the trace, and what stands against it.
const lineHtml = number => isListed(number) ? link(rowOf(number), `line ${number}`) : `line ${number}`;
const breakHtml = () => [data.breaks.says, ...data.breaks.against.map(([number, text]) => number === null ? escaped(text)
  : text.includes('since then') ? escaped(text).replace('since then', `since ${lineHtml(number)}`) : `${escaped(text)} (${lineHtml(number)})`)].join('; ');

// 0, 1, 2, 5 as 0–2, 5
function ranges(numbers) {
  const sorted = numbers.map(Number).sort((a, b) => a - b), parts = [];
  for (let n = 0, from = 0; n < sorted.length; n++) {
    if (sorted[n + 1] === sorted[n] + 1) continue;
    parts.push(n === from ? sorted[n] : n === from + 1 ? `${sorted[from]}, ${sorted[n]}` : `${sorted[from]}–${sorted[n]}`);
    from = n + 1;
  }
  return parts.join(', ');
}

// The words that begin so, without the beginning: [what stands behind it, value] in turn.
function wordsOf(words, beginning) {
  const found = [], behind = beginning.length + 1;
  for (const name in words) if (name.startsWith(beginning) && name[behind - 1] === '.') found.push([name.slice(behind), words[name]]);
  return found.sort((a, b) => byName(a[0], b[0]));
}

// What shards have of a word, their homes or marks, by its value: shards 0–2 → 1.1.
function byValueHtml(of, item, words, name, row, html) {
  const by = {};
  for (const [shard, value] of wordsOf(words, name)) (by[value] ??= []).push(shard);
  const gone = Object.keys(data.histories[of][item] || {}).some(it => it.startsWith(`${name}.`) && !(it in words) && changedAt(of, item, it, row));
  return (gone ? '<span class="changed">one less</span> ' : '') + (Object.keys(by).sort(byName).map(value => {
    const changed = by[value].some(it => changedAt(of, item, `${name}.${it}`, row)) ? ' changed' : '';
    return `<span class="pair${changed}" data-of="${of}" data-item="${escaped(item)}" data-word="${name}" data-by="${value}">${ranges(by[value])} → ${
        html(value)}</span>`;
  }).join(' ') || '<span class="none">none</span>');
}

const messages = (of, item, words, beginning, row) => wordsOf(words, beginning).map(([at, text]) =>
  `<a class="message${+at === row ? ' changed' : ''}" href="#${+at < 0 ? '' : lineOf(+at)}" data-of="${of}" data-item="${escaped(item)}" data-word="${
      beginning}" title="${messageSays(text)}">${escaped(text)}</a>`).join(' ');
const messageSays = text => filled('command {2} of producer {0} to {1}', text.split(' '));

const line = (name, html) => `<div><dt>${name}</dt><dd>${html}</dd></div>`;
const note = (shown, total, of, what) => shown === total ? '' :
  `<p class="more">${shown} of ${total} ${what}: the last to change. <button type="button" data-whole="${of}" data-key="whole-${of}">Show all</button></p>`;

const panes = {
  node: {
    title: 'Nodes', help: data.isPull ? 'Each node that is up is a worker. One holds the queue.'
      : 'What each node knows. A node knows only what it was told, so views, homes and marks may lag behind.',
    html(row, isWanted, isAll) {
      const holders = {};
      for (const slot in data.histories.slot) {
        const holder = wordAt(data.histories.slot[slot].holder, row);
        if (holder !== null) (holders[holder] ??= []).push(slot);
      }
      const { items } = itemsUpTo('node', row, Infinity, isWanted, isAll);
      const isFew = items.length <= FEW || shownWhole.has('node');
      return `<div class="nodes">${items.map(it => nodeHtml(it, row, holders, isFew)).join('') || empty('No node has come up yet.')}</div>`
        + (isFew ? '' : '<p class="more"><button type="button" data-whole="node" data-key="whole-node">Open all</button></p>');
    },
  },
  slot: {
    title: 'Leases', help: 'Whoever holds a slot may write its list. The epoch rises with each grant. The bar is the whole trace: a colour for each node.',
    html(row, isWanted, isAll) {
      const { items, total } = itemsUpTo('slot', row, most('slot'), isWanted, isAll);
      const rows = items.map(it => {
        const words = itemAt('slot', it, row);
        const stopping = words.stopping ? ` <small>stops ${word('slot', it, 'stopping', row, words.stopping)}</small>` : '';
        return `<tr><th scope="row">${escaped(it)}</th><td>${word('slot', it, 'epoch', row, words.epoch ?? 0)}</td>`
          + `<td>${word('slot', it, 'holder', row, words.holder ?? '', chip(words.holder))}${stopping}</td><td class="time">${timeBar(it)}</td></tr>`;
      });
      return table(['slot', 'epoch', 'holder', 'over time'], rows, 'No lease has been granted yet.') + note(items.length, total, 'slot', 'slots');
    },
  },
  entity: {
    title: 'Entities', help: 'Where each lives, and what its journal comes to.',
    html(row, isWanted, isAll) {
      const { items, total } = itemsUpTo('entity', row, most('entity'), isWanted, isAll);
      const rows = items.map(it => entityHtml(it, row));
      return table(['entity', 'shard', 'phase', 'records', 'state'], rows, 'No entity has been heard of yet.') + note(items.length, total, 'entity',
          'entities');
    },
  },
  pair: {
    title: 'Queues', help: data.isPull ? 'Commands in the durable queue of the producer, and those that are confirmed.'
      : 'By producer and entity: commands in the durable queue, those that are confirmed, and up to which number the entity has asked for more.',
    html(row, isWanted, isAll) {
      const { items, total } = itemsUpTo('pair', row, most('pair'), isWanted, isAll);
      const rows = items.map(it => {
        const words = itemAt('pair', it, row), [producer, entity] = it.split(' ');
        const queued = words.queued ?? 0, confirmed = words.confirmed ?? 0;
        const waiting = words.waiting ? ` <small>${word('pair', it, 'waiting', row, words.waiting)} waiting</small>` : '';
        return `<tr><th scope="row">${producer} → ${escaped(entity)}</th><td>${word('pair', it, 'queued', row, queued)}${waiting}</td>`
          + `<td>${word('pair', it, 'confirmed', row, confirmed)} <i class="part" aria-hidden="true"><b style="width:${
              queued ? 100 * confirmed / queued : 0}%"></b></i></td>`
          + (data.isPull ? '' : `<td>${word('pair', it, 'demanded', row, words.demanded ?? 0)}</td>`) + '</tr>';
      });
      return table(['producer → entity', 'queued', 'confirmed', ...(data.isPull ? [] : ['asked up to'])], rows, 'Nothing has been sent yet.') + note(items.length, total,
          'pair', 'pairs');
    },
  },
  coordinator: {
    title: 'Coordinator', help: 'Decides where shards live. Its list outlives its node; a round moves shards from one home to another.',
    html(row) {
      const words = itemAt('coordinator', 'coordinator', row), slot = itemAt('slot', 'coordinator', row);
      const regions = wordsOf(words, 'region').sort((a, b) => a[1] - b[1]).map(it => it[0]);
      const leaving = wordsOf(words, 'leaving').map(it => it[0]);
      const moving = wordsOf(words, 'moving').map(([shard, text]) =>
        `<li>shard ${shard} ${word('coordinator', 'coordinator', `moving.${shard}`, row, text)}</li>`).join('');
      const started = ranges(wordsOf(words, 'started').map(it => it[0]));
      return '<dl>' + line('at', slot.holder ? `${chip(slot.holder)} under epoch ${slot.epoch}` : '<span class="none">nobody</span>')
        + line('regions', regions.map(it => word('coordinator', 'coordinator', `region.${
            it}`, row, it, chip(it) + (leaving.includes(it) ? ' <small>leaves</small>' : ''))).join(' ') || '<span class="none">none</span>')
        + line('homes', byValueHtml('coordinator', 'coordinator', words, 'home', row, chip))
        + line('started', `<span data-of="coordinator" data-item="coordinator" data-word="started">${started}</span>`
          + (started ? '' : '<span class="none">none</span>'))
        + line('open round', words.round ? `${word('coordinator', 'coordinator', 'round', row, words.round)}<ul>${
            moving}</ul>` : '<span class="none">none</span>') + '</dl>';
    },
  },
  job: {
    title: 'Jobs', help: 'Each goes to one worker at a time.',
    html(row, isWanted, isAll) {
      const { items, total } = itemsUpTo('job', row, most('job'), isWanted, isAll);
      const rows = items.map(it => {
        const words = itemAt('job', it, row);
        return `<tr><th scope="row">${escaped(it)}</th><td>${word('job', it, 'state', row, words.state)} ${
            words.at ? word('job', it, 'at', row, words.at, chip(words.at)) : ''}</td><td>${word('job', it, 'dids', row, words.dids ?? 0)}</td></tr>`;
      });
      return table(['job', 'is', 'how often done'], rows, 'No job is queued yet.') + note(items.length, total, 'job', 'jobs');
    },
  },
  wire: {
    title: 'On the wire', help: 'Packets that were sent and not delivered so far. Choose one to see all of it.',
    html(row, isWanted, isAll) {
      const all = onTheWire(row).filter(isWanted), some = shownWhole.has('wire') ? all : all.slice(-MOST);
      const items = some.map(it => `<li><button type="button" class="packet" data-packet="${it.row}" data-key="packet-${it.row}" aria-pressed="${
          it === chosenPacket(row)}">`
        + `<b class="${packetForms[it.kind]?.family}">${it.number}</b> ${chip(it.from)} → ${chip(it.to)} <span>${escaped(it.text)}</span>${
            isUp(it.to, row) ? '' : ' <small class="bad">to nobody</small>'}</button></li>`);
      return `<ul class="wire" data-count="${all.length}">${items.join('')}</ul>${all.length ? '' : empty('Nothing is on its way.')}`
        + note(some.length, all.length, 'wire', 'packets').replace('the last to change', 'the last that were sent');
    },
  },
};

const empty = text => `<p class="none">${text}</p>`;
const isUp = (name, row) => !name.includes('.') || wordAt(data.histories.node[name.split('.')[0]]?.incarnation, row) === name;

function table(heads, rows, without) {
  if (!rows.length) return empty(without);
  return `<table><thead><tr>${heads.map(it => `<th scope="col">${it}</th>`).join('')}</tr></thead><tbody>${rows.join('')}</tbody></table>`;
}

function nodeHtml(node, row, holders, isFew) {
  const words = itemAt('node', node, row), name = words.incarnation;
  const head = `<h3><i class="${tint(node)}"></i> Node ${node} <span>${word('node', node, 'incarnation', row, name ?? '', name ? `is up as ${
      name}` : 'is down')}</span></h3>`;
  if (!name) return `<article class="down">${head}</article>`;
  if (!isFew && !openNodes.has(node)) return `<article><details data-node="${node}"><summary data-key="node-${node}">${head}</summary></details></article>`;
  const kept = messages('node', node, words, 'kept', row), asked = ranges(wordsOf(words, 'asked').map(it => it[0]));
  const held = (holders[name] || []).sort(byName), shards = held.filter(it => it.startsWith('shard:')).map(it => it.slice(6));
  const others = held.filter(it => !it.startsWith('shard:'));
  const [open, close] = isFew ? [head, ''] : [`<details open data-node="${node}"><summary data-key="node-${node}">${head}</summary>`, '</details>'];
  return `<article>${open}<dl>`
    + (data.isPull ? '' : knownHtml(node, words, row))
    + line('holds', [shards.length ? `shard ${ranges(shards)}` : '', ...others].filter(Boolean).join(', ') || '<span class="none">nothing</span>')
    + (asked ? line('asks for', `shard <span data-of="node" data-item="${node}" data-word="asked">${asked}</span>`) : '')
    + (kept ? line('keeps', kept) : '') + `</dl>${close}</article>`;
}

// What a node knows of the others, and of shards.
function knownHtml(node, words, row) {
  return line('view', words.view ? `${word('node', node, 'view', row, words.view)}: ${
        word('node', node, 'members', row, words.members, chips(words.members.split(',')))}` : '<span class="none">none yet</span>')
    + line('registered with', word('node', node, 'registered', row, words.registered ?? '', chip(words.registered)) + (words.leaving ?
        ` <small class="bad">${word('node', node, 'leaving', row, 'yes', 'it leaves')}</small>` : ''))
    + line('homes', byValueHtml('node', node, words, 'home', row, chip))
    + (wordsOf(words, 'mark').length ? line('marks', byValueHtml('node', node, words, 'mark', row, escaped)) : '');
}

function entityHtml(name, row) {
  const words = itemAt('entity', name, row);
  const stash = messages('entity', name, words, 'stash', row);
  const phase = words.phase ? `${word('entity', name, 'phase', row, words.phase)} at ${word('entity', name, 'at', row, words.at, chip(words.at))}`
    : word('entity', name, 'phase', row, '', '<span class="none">not live</span>');
  const others = wordsOf(words, 'live').map(it => it[0]).filter(it => it !== words.at);
  const more = [others.length ? `<b class="bad">${words.phase ? 'and ' : ''}live at ${
      word('entity', name, 'live', row, others.join(), chips(others))}</b>` : '', words.armed ? `next write fails, ${word('entity', name, 'armed', row, words.armed)}` : '', words.remembered ? word('entity', name,
      'remembered', row, 'yes', 'remembered') : '',
    words.snapshot ? `snapshot at ${word('entity', name, 'snapshot', row, words.snapshot)}` : ''].filter(Boolean).join(', ');
  const jumps = `<span class="jumps"><button type="button" data-jump="-1" data-entity="${name}" data-key="back-${
      name}" aria-label="previous fact of ${name}">‹</button>`
    + `<button type="button" data-jump="1" data-entity="${name}" data-key="on-${name}" aria-label="next fact of ${name}">›</button></span>`;
  return `<tr><th scope="row">${jumps}${escaped(name)}</th><td>${word('entity', name, 'shard', row, words.shard ?? '')}</td>`
    + `<td>${phase}${more ? ` <small>${more}</small>` : ''}${stash ? `<br><small>stash: ${stash}</small>` : ''}</td>`
    + `<td>${word('entity', name, 'records', row, words.records ?? 0)}</td><td>${word('entity', name, 'state', row, words.state ?? '')}</td></tr>`;
}

// The holders of a slot over the whole trace, and where we are.
const bars = {};
function timeBar(slot) {
  return bars[slot] ??= (() => {
    const history = data.histories.slot[slot].holder || [], pieces = [];
    for (let n = 0; n < history.length; n += 2) {
      if (history[n + 1] === null) continue;
      const end = n + 2 < history.length ? history[n + 2] : last + 1, wide = 100 * (end - history[n]) / (last + 1);
      if (pieces.length < 200) pieces.push(`<i class="${tint(parseInt(history[n + 1], 10))}" style="left:${
          (100 * history[n] / (last + 1)).toFixed(2)}%;width:${Math.max(wide, 0.6).toFixed(2)}%" title="${history[n + 1]} from line ${
          lineOf(history[n])}"></i>`);
    }
    return `<span class="bar" aria-hidden="true">${pieces.join('')}<b></b></span>`;
  })();
}

// Of what a line came: a packet, or an order.
function causeHtml(row) {
  if (chosenPacket(row)) return packetHtml(chosenPacket(row), row);
  const cause = causeOf(row);
  if (cause < 0) return data.part === 'order' ? empty('This trace doesn’t tell: no “at” and no “got” stands before this line.') : partHtml(row);
  if (kinds[cause] === 'got' && packetOfRow(cause)) return packetHtml(packetOfRow(cause), row);
  return `<p class="says">${link(cause, `line ${lineOf(cause)}`)} <code>${
      escaped(data.hasScript ? orderText(cause) : lines[cause])}</code> gave</p><ul class="story">${rowsHtml(givenBy(cause)) || '<li>nothing</li>'}</ul>`;
}

function causeTitle(row) {
  if (chosenPacket(row)) return `Packet ${chosenPacket(row).number}`;
  const packet = packetOfRow(causeOf(row));
  if (packet) return `Came of packet ${packet.number}`;
  return data.part !== 'order' ? `In this ${data.part}` : causeOf(row) < 0 ? 'What it came of' : 'Came of an order';
}

// A list of a slot, or a batch of a log: the lines of it.
function partHtml(row) {
  const at = orderAt(row), from = headingRows[at] ?? 0, until = headingRows[at + 1] ?? last + 1;
  return `<p class="says">${escaped(orderText(row))}</p><ul class="story">${rowsHtml(Array.from({ length: until - from }, (_, n) => from + n))}</ul>`;
}

const rowsHtml = rows => rows.slice(0, 12).map(it => `<li>${link(it, lines[it])}</li>`).join('') + (rows.length > 12 ? `<li>and ${
    rows.length - 12} more</li>` : '');

// One packet whole: when it was sent, each delivery, and what that gave.
function packetHtml(packet, row) {
  const gots = packet.gots.map((got, count) => {
    const given = givenBy(got.row);
    const gave = got.lost ? `<span class="bad">lost: ${got.lost}</span>` : given.length ? `gave<ul>${rowsHtml(given)}</ul>` : 'gave nothing';
    return `<li class="${got.row <= row ? '' : 'later'}">${link(got.row, `line ${lineOf(got.row)}`)} got${count ? ' once more' : ''}, ${gave}</li>`;
  }).join('');
  return `<p class="says">${chip(packet.from)} → ${chip(packet.to)} “${escaped(packetSays(packet))}”</p><ol class="story"><li>${
      link(packet.row, `line ${lineOf(packet.row)}`)} <code>${escaped(lines[packet.row])}</code></li>${
      gots || '<li class="later">never got in this trace</li>'}</ol>`;
}
