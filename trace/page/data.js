// What the page knows: the lines, their parts, packets, and what stands after any row. Rows count from 0, lines as printed.
const data = JSON.parse(document.getElementById('data').textContent);
const lines = data.lines.split('\n');
const last = lines.length - 1;
const kinds = lines.map(line => line.slice(0, (line + ' ').indexOf(' ')));
const lineOf = row => data.numbers ? data.numbers[row] : row + 1;
const rowOf = number => {
  const row = data.numbers ? data.numbers.findIndex(it => it >= number) : number - 1;
  return row < 0 ? last : Math.min(Math.max(row, 0), last);
};

// The colour of a node, as a class; from the ninth on a ring.
const tint = node => `node-${node % 8}${node > 8 ? ' ring' : ''}`;

// The line that ends the trace's safety, as the judge says; -1 where it isn't among those that are listed, or none is.
const isListed = number => number >= lineOf(0) && number <= lineOf(last);
const breakingRow = data.breaks && isListed(data.breaks.line) ? rowOf(data.breaks.line) : -1;

// ---- parts
const factForms = mapped(data.facts, ([forms, says]) => ({ forms: forms.map(it => new RegExp(`^${it}$`)), says }));
const orderForms = mapped(data.orders, ([form, says]) => ({ form: new RegExp(`^${form}$`), says }));
const packetForms = mapped(data.packets, ([form, says, family]) => ({ form: new RegExp(`^${form}$`), says, family }));

function mapped(object, change) {
  return Object.fromEntries(Object.entries(object).map(([key, value]) => [key, change(value)]));
}

function factParts(row) {
  for (const form of factForms[kinds[row]].forms) {
    const found = form.exec(lines[row]);
    if (found) return found.groups || {};
  }
  return {};
}

function packetParts(text) {
  const found = packetForms[text.split(' ', 1)[0]]?.form.exec(text);
  return found?.groups || {};
}

const filled = (says, parts) => says.replace(/\{(\w+)(\.node)?\}/g,
  (_, name, node) => node ? parts[name].split('.')[0] : said(name, parts[name] ?? ''));

// A part as a sentence tells it.
function said(name, part) {
  const [from, to] = data.said[name]?.find(it => part.startsWith(it[0])) ?? ['', ''];
  return to + part.slice(from.length);
}

// A line in a sentence; of a packet what it says too.
function sentence(row) {
  const kind = kinds[row], parts = { ...factParts(row) };
  if (kind === 'at') return `${filled(factForms.at.says, parts)} ${data.hasScript ? orderSays(orderText(row)) : ''}`.trim();
  const packet = packetOfRow(row);
  if (!packet) return filled(factForms[kind].says, parts) + (kind === 'got' ? ' It was sent before this trace.' : '');
  Object.assign(parts, { from: packet.from, to: packet.to });
  const said = `“${packetSays(packet)}”`;
  if (kind === 'sent') return `${filled(factForms.sent.says, parts)} ${said}`;
  const got = packet.gots.find(it => it.row === row);
  return `${filled(factForms.got.says, parts)} ${got.lost ? `Nobody takes it: ${got.lost}.` : `${packet.to} reads: ${said}`}`;
}

function packetSays(packet) {
  return filled(packetForms[packet.kind]?.says ?? packet.text, packetParts(packet.text));
}

// An order of the script in a sentence; the order itself where no form is its own.
function orderSays(text) {
  const form = orderForms[text.split(' ', 1)[0]], found = form?.form.exec(text);
  return found ? filled(form.says, found.groups || {}) : text;
}

const orderText = row => data.headings[orderAt(row)]?.[1] ?? '';

// ---- packets: number, row of the `sent`, from, to, text, gots
const packets = [];
const packetByRow = new Map();
(function readPackets() {
  const byNumber = new Map();
  for (let row = 0; row <= last; row++) {
    if (kinds[row] !== 'sent' && kinds[row] !== 'got') continue;
    const words = lines[row].split(' ');
    if (kinds[row] === 'sent') {
      const pulled = !words[2].includes('.'), at = pulled ? 2 : 4;
      const job = words[2] === 'job';
      const packet = {
        number: +words[1], row, kind: words[at], text: words.slice(at).join(' '), gots: [],
        from: pulled ? (job ? 'the producer' : words[3]) : words[2], to: pulled ? (job ? words[3] : 'the producer') : words[3],
      };
      packets.push(packet);
      byNumber.set(packet.number, packet);
      packetByRow.set(row, packet);
    } else {
      const packet = byNumber.get(+words[1]);
      if (packet) packet.gots.push({ row, lost: data.lost[row] || '' });
      if (packet) packetByRow.set(row, packet);
    }
  }
})();
const packetOfRow = row => packetByRow.get(row);

// The packets that were sent up to a row, and not yet delivered then.
function onTheWire(row) {
  const found = [];
  for (const packet of packets) {
    if (packet.row > row) break;
    if (!packet.gots.length || packet.gots[0].row > row) found.push(packet);
  }
  return found;
}

// What a `got` gave: the rows behind it, up to the next `got` or order.
function givenBy(row) {
  const found = [];
  for (let next = row + 1; next <= last && kinds[next] !== 'got' && kinds[next] !== 'at'; next++) found.push(next);
  return found;
}

// The row of the `got`, or of the order, that a line came of; -1 where there is none.
function causeOf(row) {
  while (row >= 0 && kinds[row] !== 'got' && kinds[row] !== 'at') row--;
  return row;
}

// ---- orders (or lists, or batches): each has the row at which it begins
const headingRows = data.headings.map(it => it[0]);

function countUpTo(sorted, row, step = 1) {
  let low = 0, high = sorted.length / step;
  while (low < high) {
    const middle = (low + high) >> 1;
    if (sorted[middle * step] <= row) low = middle + 1; else high = middle;
  }
  return low;
}

const orderAt = row => countUpTo(headingRows, row) - 1;

// ---- what stands: histories are rows and values in turn
function wordAt(history, row) {
  const count = history ? countUpTo(history, row, 2) : 0;
  return count ? history[2 * count - 1] : null;
}

function itemAt(of, item, row) {
  const words = data.histories[of][item] || {}, found = {};
  for (const word in words) {
    const value = wordAt(words[word], row);
    if (value !== null) found[word] = value;
  }
  return found;
}

const changedAt = (of, item, word, row) => {
  const history = data.histories[of][item]?.[word];
  const count = history ? countUpTo(history, row, 2) : 0;
  return count > 0 && history[2 * count - 2] === row;
};

// Of each kind of item all its changes: the rows, rising, and the item that changes in each; and when each was first told of.
const changes = mapped(data.histories, items => {
  const all = [], firsts = [];
  for (const item in items) {
    const rows = new Set();
    for (const history of Object.values(items[item])) for (let n = 0; n < history.length; n += 2) rows.add(history[n]);
    if (rows.size) firsts.push(Math.min(...rows));
    for (const row of rows) all.push([row, item]);
  }
  all.sort((a, b) => a[0] - b[0]);
  return { rows: all.map(it => it[0]), items: all.map(it => it[1]), firsts: firsts.sort((a, b) => a - b), count: firsts.length };
});

// The kinds of items of which a word changes in a row.
const touchedBy = row => Object.keys(changes).filter(of => changes[of].rows[countUpTo(changes[of].rows, row) - 1] === row);

// The items that were told of up to a row; of more than `most` those that changed last.
function itemsUpTo(of, row, most, isWanted, isAll) {
  const { rows, items, firsts } = changes[of], found = new Set();
  const known = isAll ? countUpTo(firsts, row) : Infinity;
  for (let n = countUpTo(rows, row) - 1; n >= 0 && found.size < known && !(isAll && found.size >= most); n--) {
    if (!found.has(items[n]) && isWanted(items[n])) found.add(items[n]);
  }
  const last = [...found].slice(0, most).sort(byName);
  return { total: isAll ? known : found.size, items: last };
}

const collator = new Intl.Collator('en', { numeric: true });
const byName = (a, b) => a - b || collator.compare(a, b);

// ---- what a line is about, for filters; read once, when first asked
let subjects = null;
function subjectOf(row) {
  subjects ??= lines.map((_, it) => readSubject(it));
  return subjects[row];
}

function readSubject(row) {
  const packet = packetOfRow(row);
  const parts = packet ? packetParts(packet.text) : factParts(row);
  const [slot, number] = (parts.slot || '').split(':');
  const found = { entity: parts.entity, producer: parts.producer ?? (slot === 'queue' ? number : undefined) };
  const shard = found.entity ? wordAt(data.histories.entity[found.entity]?.shard, last) : null;
  found.shard = parts.shard ?? (slot === 'shard' ? number : shard === null ? undefined : String(shard));
  return found;
}

const nodesOf = row => {
  const packet = packetOfRow(row);
  const own = data.nodes[row] === null ? [] : [String(data.nodes[row])];
  return packet ? [...own, ...[packet.from, packet.to].map(it => it.split('.')[0])] : own;
};
