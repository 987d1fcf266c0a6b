// The sequence diagram of the lines around: a lane is a node, a row a line, an arrow a packet.
const ROW = 22, ABOVE = 5, BELOW = 6, BAR = 7;

function drawDiagram(row, width) {
  const first = Math.max(0, Math.min(row - ABOVE, last - ABOVE - BELOW));
  const until = Math.min(last, first + ABOVE + BELOW);
  const arrows = arrowsIn(first, until);
  const nodes = lanesOf(first, until, arrows);
  const number = 46, text = Math.min(width * 0.5, 330);
  const lane = Math.max(40, Math.min(130, (width - number - text) / Math.max(1, nodes.length)));
  const xOf = node => number + lane * (nodes.indexOf(node) + 0.5);
  const yOf = at => 30 + (at - first + 0.5) * ROW;
  const wide = Math.max(width, number + lane * nodes.length + text), high = 36 + (until - first + 1) * ROW;
  const pieces = [`<svg role="img" aria-label="${escaped(diagramText(first, until, nodes))}" width="${wide}" height="${high}" viewBox="0 0 ${wide} ${high}">`,
    `<rect class="here" x="0" y="${yOf(row) - ROW / 2}" width="${wide}" height="${ROW}" rx="4"/>`];
  for (const node of nodes) pieces.push(laneOf(node, xOf(node), Math.min(lane - 10, 54), first, until, yOf));
  for (let at = first; at <= until; at++) if (kinds[at] === 'at') pieces.push(`<path class="order" d="M${number} ${yOf(at) - ROW / 2}H${wide}"/>`);
  for (const arrow of arrows) pieces.push(drawArrow(arrow, first, until, xOf, yOf, lane));
  const textAt = number + lane * nodes.length + 8;
  for (let at = first; at <= until; at++) pieces.push(drawRow(at, row, textAt, xOf, yOf, wide));
  return pieces.join('') + '</svg>';
}

// What the arrows and bars of the whole trace are.
const ARROWS = { command: 'command', answer: 'answer', homes: 'home of a shard', handoff: 'move of a shard', inner: 'to an entity', members: 'members' };
const BARS = { coordinator: 'coordinator’s lease', shard: 'shard’s', queue: 'queue’s', entity: 'the line’s entity lives' };

function legendHtml() {
  const families = new Set(packets.map(it => packetForms[it.kind]?.family)), slots = new Set(Object.keys(data.histories.slot).map(it => it.split(':')[0]));
  if (kinds.includes('start')) slots.add('entity');
  const shown = (all, names, of) => Object.keys(names).filter(it => all.has(it)).map(it => `<span><i class="${of}${it}"></i>${names[it]}</span>`);
  return [...shown(families, ARROWS, ''), ...shown(slots, BARS, 'lease '), Object.keys(data.lost).length ? '<span><b>×</b> nobody takes it</span>' : ''].join('');
}

function diagramText(first, until, nodes) {
  return `Sequence diagram of lines ${lineOf(first)} to ${lineOf(until)}; lanes: ${nodes.map(it => `node ${it}`).join(', ') || 'none'}`;
}

// The packets that leave or arrive between two rows, each with its delivery.
function arrowsIn(first, until) {
  const found = [], seen = new Set();
  for (let at = first; at <= until; at++) {
    const packet = packetOfRow(at);
    if (!packet || seen.has(packet)) continue;
    seen.add(packet);
    const gots = packet.gots.filter(it => it.row >= first && (packet.row >= first || it.row <= until));
    if (!gots.length && packet.row >= first) found.push({ packet, got: null });
    for (const got of gots.slice(0, 3)) found.push({ packet, got, again: got !== packet.gots[0] });
  }
  return found;
}

const ends = packet => [packet.from, packet.to].map(it => it.includes('.') ? it.split('.')[0] : null);

function lanesOf(first, until, arrows) {
  const found = new Set();
  for (let at = first; at <= until; at++) if (data.nodes[at] !== null) found.add(String(data.nodes[at]));
  for (const { packet } of arrows) for (const end of ends(packet)) if (end) found.add(end);
  for (const node in data.histories.node) if (Object.keys(data.histories.node).length <= 4) found.add(node);
  return [...found].sort(byName);
}

function laneOf(node, x, wide, first, until, yOf) {
  const pieces = [];
  const history = data.histories.node[node]?.incarnation || [];
  pieces.push(`<path class="down" d="M${x} 26V${yOf(until) + ROW / 2}"/>`);
  for (let n = 0; n < history.length; n += 2) {
    const name = history[n + 1], end = n + 2 < history.length ? history[n + 2] : last + 1;
    if (name === null || end < first || history[n] > until) continue;
    const top = history[n] < first ? 26 : yOf(history[n]) - ROW / 2 + 2;
    const foot = end > until ? yOf(until) + ROW / 2 : yOf(end) - ROW / 2 + 2;
    pieces.push(`<rect class="life ${tint(node)}" x="${x - wide / 2}" y="${top}" width="${wide}" height="${
        Math.max(foot - top, 2)}" rx="5"><title>${name} is up</title></rect>`);
  }
  const up = wordAt(history, first) || wordAt(history, until);
  pieces.push(`<text class="head" x="${x}" y="15" text-anchor="middle">${up ?? `node ${node}`}</text>`);
  return pieces.join('') + leasesOf(node, x, wide, first, until, yOf) + livesOf(node, x, wide, first, until, yOf);
}

// The leases that a node holds, as bars at the edge of its lane: at most three, those first that come or go here.
function leasesOf(node, x, wide, first, until, yOf) {
  const found = [];
  for (const slot in data.histories.slot) {
    const history = data.histories.slot[slot].holder || [];
    for (let n = Math.max(0, 2 * countUpTo(history, first, 2) - 2); n < history.length && history[n] <= until; n += 2) {
      const end = n + 2 < history.length ? history[n + 2] : last + 1;
      if (history[n + 1] === null || history[n + 1].split('.')[0] !== node || end < first) continue;
      found.push({ slot, from: history[n], end, name: history[n + 1], rank: (history[n] < first && end > until ? 2 : 0) + (slot.startsWith('shard') ?
          1 : 0) });
    }
  }
  return found.sort((a, b) => a.rank - b.rank).slice(0, 3).map((it, column) => {
    const top = it.from < first ? 28 : yOf(it.from), foot = it.end > until ? yOf(until) + ROW / 2 : yOf(it.end);
    return `<rect class="lease ${it.slot.split(':')[0]}" x="${x + wide / 2 - BAR - 1 - column * (BAR - 1)}" y="${top}" width="${BAR - 3}" height="${
        Math.max(foot - top, 2)}" rx="2"><title>${it.slot} is held by ${it.name}</title></rect>`;
  }).join('');
}

// Where the entity of the line that is chosen lives, as a bar at the other edge.
function livesOf(node, x, wide, first, until, yOf) {
  const name = subjectOf(now.row).entity, words = data.histories.entity[name] || {}, pieces = [];
  for (const word in words) {
    if (!word.startsWith(`live.${node}.`)) continue;
    for (let n = 0; n < words[word].length; n += 2) {
      const from = words[word][n], end = n + 2 < words[word].length ? words[word][n + 2] : last + 1;
      if (words[word][n + 1] === null || from > until || end < first) continue;
      const top = from < first ? 28 : yOf(from), foot = end > until ? yOf(until) + ROW / 2 : yOf(end);
      pieces.push(`<rect class="lease entity" x="${x - wide / 2 + 2}" y="${top}" width="${BAR - 3}" height="${Math.max(foot - top, 2)}" rx="2"><title>${
          escaped(name)} is live at ${word.slice(5)}</title></rect>`);
    }
  }
  return pieces.join('');
}

function drawArrow({ packet, got, again }, first, until, xOf, yOf, lane) {
  let [source, target] = ends(packet);
  source ??= String(data.nodes[packet.row] ?? target);
  target ??= String(got ? data.nodes[got.row] ?? source : source);
  const family = packetForms[packet.kind]?.family || 'members';
  const x = xOf(source), y = packet.row < first ? 24 : yOf(packet.row);
  const title = `<title>packet ${packet.number}: ${escaped(packet.text)}, from ${packet.from} to ${packet.to}</title>`;
  const open = `<g class="arrow ${family}${again ? ' again' : ''}">${title}`;
  if (!got) return `${open}<path d="M${x} ${y}h${lane * 0.3}"/>${cross(x + lane * 0.3, y, 3)}</g>`;
  const toX = xOf(target), toY = got.row > until ? yOf(until) + ROW / 2 : yOf(got.row);
  const path = source === target ? `M${x} ${y}C${x - lane * 0.55} ${y} ${x - lane * 0.55} ${toY} ${toX} ${toY}`
    : `M${x} ${y}C${x + (toX - x) * 0.45} ${y} ${x + (toX - x) * 0.55} ${toY} ${toX} ${toY}`;
  const side = source === target || toX > x ? -1 : 1;
  const tip = got.row > until ? '' : got.lost ? cross(toX, toY, 4.5) : `<path class="tip" d="M${toX + side * 5} ${toY}l${side * 6} -4v8z"/>`;
  return `${open}<path d="${path}"/>${tip}</g>`;
}

const cross = (x, y, size) => `<path class="cross" d="M${x - size} ${y - size}l${2 * size} ${2 * size}m0 ${-2 * size}l${-2 * size} ${2 * size}"/>`;

function drawRow(at, row, textAt, xOf, yOf, wide) {
  const y = yOf(at), node = data.nodes[at], most = Math.floor((wide - textAt - 4) / 7.1);
  let shown = lines[at];
  if (kinds[at] === 'sent') shown = `sent ${packetOfRow(at).number} ${packetOfRow(at).text}`;
  if (kinds[at] === 'got' && packetOfRow(at)) shown += ` ${packetOfRow(at).kind}`;
  if (kinds[at] === 'at' && data.hasScript) shown += `  ${orderText(at)}`;
  const cut = shown.length > most ? `${shown.slice(0, most - 1)}…` : shown;
  const dot = node === null || data.lost[at] ? '' : `<circle class="${tint(node)}" cx="${xOf(String(node))}" cy="${y}" r="${at === row ? 5.5 : 4}"/>`;
  return `<g class="row ${toneOf(at)}${at === breakingRow ? ' breaks' : ''}" data-row="${at}"><rect class="hit" x="0" y="${y - ROW / 2}" width="${wide}" height="${ROW}"/>`
    + `<text class="number" x="36" y="${y + 4}" text-anchor="end">${lineOf(at)}</text>${dot}`
    + `<text x="${textAt}" y="${y + 4}">${escaped(cut)}<title>${escaped(lines[at])}</title></text></g>`;
}

function toneOf(at) {
  if (['wrote', 'confirmed', 'granted', 'freed', 'queued', 'up', 'did'].includes(kinds[at])) return 'strong';
  if (['gone', 'dropped', 'writefailed', 'wirefull'].includes(kinds[at]) || data.lost[at]) return 'bad';
  if (kinds[at] === 'at') return 'heading';
  return ['sent', 'got', 'view', 'nothing'].includes(kinds[at]) ? 'quiet' : 'plain';
}
