// Where one is, and how one moves: lines and orders, the list, filters, keys.
const $ = id => document.getElementById(id);
const now = { row: 0, packet: null, timer: null, noting: null };
const PITCH = 26;                   // the height of a row of the list, as in page.css
let listed = null;                  // the rows that the filter leaves; null: all
let wanted = {};

const chosenPacket = row => now.packet || packetOfRow(row);
const inList = row => listed ? Math.max(0, countUpTo(listed, row) - 1) : row;
const listLength = () => listed ? listed.length : last + 1;
const listRow = at => listed ? listed[at] : at;

// ---- moving
function go(row, keepPacket = false) {
  now.row = Math.min(Math.max(row, 0), last);
  if (!keepPacket) now.packet = null;
  render();
}

// The next line of the list (all without a filter), in this direction.
function step(by) {
  if (!listed) return go(now.row + by);
  const at = countUpTo(listed, by > 0 ? now.row : now.row - 1) - (by > 0 ? 0 : 1);
  if (listed[at] !== undefined) go(listed[at]);
}

// To the first line of the list from this one on, else to the last before it.
function stepIntoList() {
  const at = countUpTo(listed ?? [], now.row - 1);
  if (listed?.length) go(listed[Math.min(at, listed.length - 1)]);
}

function stepOrder(by) {
  const at = orderAt(now.row), begins = headingRows[at] === now.row;
  go(by < 0 && !begins && at >= 0 ? headingRows[at] : headingRows[at + by] ?? (by < 0 ? 0 : last));
}

// The next fact of an entity: of this line's, or of any where this line is of none.
function stepEntity(by, name = wanted.entity || subjectOf(now.row).entity) {
  for (let row = now.row + by; row >= 0 && row <= last; row += by) {
    const entity = subjectOf(row).entity;
    if (entity && (!name || entity === name)) return go(row);
  }
  say(`No ${by > 0 ? 'later' : 'earlier'} fact of ${name || 'an entity'}.`);
}

function otherEnd() {
  const packet = packetOfRow(now.row);
  if (!packet) return say('This line is of no packet.');
  if (kinds[now.row] === 'got') return go(packet.row);
  if (packet.gots.length) return go(packet.gots[0].row);
  say('It is never got in this trace.');
}

function play(on = !now.timer) {
  clearInterval(now.timer);
  now.timer = on ? setInterval(() => { const before = now.row; step(1); if (now.row === before) play(false); }, 1000 / $('speed').value) : null;
  $('play').setAttribute('aria-pressed', String(on));
  $('play').setAttribute('aria-label', on ? 'Pause' : 'Play');
  $('now').setAttribute('aria-live', on ? 'off' : 'polite');
}

// To a pane by its name, or back to the line: it is in view, and has the focus.
function lead(of) {
  const title = of ? $(`${of}-title`) : $('now');
  if (!title) return;
  // (on a narrow page the line stands above the panes; and those that come into view then get their true height)
  const isAbove = getComputedStyle($('now')).position === 'sticky';
  document.documentElement.style.scrollPaddingTop = isAbove ? `${$('now').offsetHeight + 28}px` : '';
  const show = () => title.scrollIntoView({ block: 'start' });
  if (of) show(); else window.scrollTo(0, 0);
  if (of) requestAnimationFrame(() => requestAnimationFrame(show));
  title.focus({ preventScroll: true });
}

function toBreak() {
  if (breakingRow >= 0) go(breakingRow); else say(data.breaks ? `Line ${data.breaks.line} breaks the trace, and isn’t listed.` : 'No line is known to break this trace.');
}

const grouped = number => number.toLocaleString('en');
const say = text => { $('said').textContent = text; };

// ---- drawing all of it
function render() {
  const row = now.row, order = orderAt(row);
  // (what asks for sizes comes before what changes any: so the browser lays all out once)
  const width = $('diagram').clientWidth || 700;
  drawList();
  $('slider').value = row;
  $('slider').setAttribute('aria-valuetext', `line ${lineOf(row)} of ${lineOf(last)}${order < 0 ? '' : `, ${data.part} ${order + 1}`}`);
  $('number').value = lineOf(row);
  const heading = order < 0 ? '' : `<b>${data.part} ${order + 1} of ${headingRows.length}</b> ${data.part === 'batch' ? '' : `<code>${escaped(orderText(row))}</code>`}`;
  $('order').innerHTML = heading;
  $('text').textContent = lines[row];
  $('text').className = toneOf(row);
  $('sentence').textContent = sentence(row);
  $('breaks').innerHTML = row === breakingRow ? `This line breaks the trace: ${breakHtml()}.` : '';
  $('said').textContent = '';
  $('here').href = `#${lineOf(row)}`;
  $('here').textContent = `#${lineOf(row)}`;
  if ($('diagram').parentElement.open) $('diagram').innerHTML = drawDiagram(row, width);
  fill('packet', causeHtml(row));
  $('packet-title').textContent = causeTitle(row);
  const touched = touchedBy(row).filter(it => $(it));
  $('touched').innerHTML = touched.length ? `It changed: ${touched.map(it => `<button type="button" data-to="${it}">${
      panes[it].title}</button>`).join(', ')}` : '';
  for (const of in panes) if ($(of)) {
    fill(of, panes[of].html(row, isItemWanted(of), !listed));
    $(`${of}-title`).querySelector('.badge').hidden = !touched.includes(of);
  }
  for (const it of document.querySelectorAll('.bar > b')) it.style.transform = `translateX(${(100 * (row + 0.5) / (last + 1)).toFixed(2)}%)`;
  clearTimeout(now.noting);
  now.noting = setTimeout(noteAddress, 100);
}

// Puts a pane's text in place, where it is another; what had the focus in it has it again.
const standing = {};
function fill(id, html) {
  if (standing[id] === html) return;
  standing[id] = html;
  const key = $(id).contains(document.activeElement) ? document.activeElement.dataset.key : null;
  $(id).innerHTML = html;
  if (key) $(id).querySelector(`[data-key="${CSS.escape(key)}"]`)?.focus({ preventScroll: true });
}

// ---- the list of lines: only what is seen of it is there
// A line as the list has it: of an order its words too, of a packet that is got its kind.
function listText(row) {
  if (kinds[row] === 'at') return data.hasScript ? `${lines[row]} · ${orderText(row)}` : lines[row];
  return kinds[row] === 'got' ? `${lines[row]} · ${packetOfRow(row)?.kind ?? ''}` : lines[row];
}

function drawList(follow = true) {
  const list = $('lines'), at = inList(now.row), height = list.clientHeight || 400;
  $('room').style.height = `${listLength() * PITCH}px`;
  if (follow && (at * PITCH < list.scrollTop + 2 * PITCH || (at + 3) * PITCH > list.scrollTop + height)) list.scrollTop = at * PITCH - height / 3;
  const from = Math.max(0, Math.floor(list.scrollTop / PITCH) - 4), until = Math.min(listLength(), from + Math.ceil(height / PITCH) + 8);
  const shown = [];
  for (let n = from; n < until; n++) {
    const row = listRow(n), node = data.nodes[row];
    shown.push(`<div role="option" id="line-${row}" data-row="${row}" class="${toneOf(row)}${row === breakingRow ? ' breaks' : ''}" aria-selected="${row === now.row}" aria-posinset="${
        n + 1}" aria-setsize="${listLength()}" style="top:${n * PITCH}px">`
      + `<span class="number">${lineOf(row)}</span>${node === null ? '<i></i>' : `<i class="${tint(node)}" title="node ${
          node}"></i>`}<span class="fact">${escaped(listText(row))}</span>${row === breakingRow ? '<small>breaks</small>' : ''}</div>`);
  }
  $('room').innerHTML = shown.join('') || '<p class="none">No line fits the filter.</p>';
  $('lines').setAttribute('aria-activedescendant', `line-${listRow(at)}`);
}

// ---- filters
const FIELDS = ['node', 'shard', 'entity', 'producer', 'kind'];

function readFilter(text) {
  wanted = {};
  for (const part of text.trim().split(/\s+/).filter(Boolean)) {
    const [field, value] = part.split(/:(.*)/);
    if (FIELDS.includes(field) && value) wanted[field] = value; else wanted.text = `${wanted.text ? `${wanted.text} ` : ''}${part.toLowerCase()}`;
  }
  listed = Object.keys(wanted).length ? [...lines.keys()].filter(isLineWanted) : null;
  for (const field of FIELDS) $(`by-${field}`).value = wanted[field] || '';
  $('count').textContent = `${listed ? `${grouped(listed.length)} of ` : ''}${grouped(last + 1)} lines`;
  $('clear').hidden = !listed;
}

function isLineWanted(row) {
  const about = wanted.entity || wanted.shard || wanted.producer ? subjectOf(row) : {};
  return (!wanted.kind || kinds[row] === wanted.kind || packetOfRow(row)?.kind === wanted.kind)
    && (!wanted.node || nodesOf(row).includes(wanted.node)) && (!wanted.text || listText(row).toLowerCase().includes(wanted.text))
    && ['shard', 'entity', 'producer'].every(it => !wanted[it] || about[it] === wanted[it]);
}

// Whether a pane shows an item, by the filter.
function isItemWanted(of) {
  const shardOf = name => String(wordAt(data.histories.entity[name]?.shard, last) ?? '');
  const isOf = (name, producer) => (!wanted.entity || wanted.entity === name) && (!wanted.shard || wanted.shard === shardOf(name)) &&
      (!wanted.producer || !producer || producer === wanted.producer);
  if (of === 'node') return it => !wanted.node || it === wanted.node;
  if (of === 'slot') return it => {
    const [kind, number] = it.split(':');
    const shard = wanted.shard || (wanted.entity && shardOf(wanted.entity));
    return kind === 'shard' ? !shard || number === shard : kind === 'queue' ? !wanted.producer || number === wanted.producer : true;
  };
  if (of === 'entity' || of === 'job') return it => isOf(it);
  if (of === 'pair') return it => isOf(it.split(' ')[1], it.split(' ')[0]);
  if (of === 'wire') return it => listed === null || isLineWanted(it.row);
  return () => true;
}

function setFilter(text, field) {
  $('filter').value = text;
  readFilter(text);
  render();
  if (field) $(field).focus();
}

function setField(field, value) {
  const rest = $('filter').value.split(/\s+/).filter(it => it && !it.startsWith(`${field}:`));
  setFilter([...rest, ...(value ? [`${field}:${value}`] : [])].join(' '));
}

// ---- links: #65, or #65/entity:c1
const hashNow = () => `#${lineOf(now.row)}${$('filter').value ? `/${encodeURIComponent($('filter').value)}` : ''}`;

// (a browser drops such notes where they come fast: so one waits for the end of a move)
function noteAddress() {
  if (location.hash !== hashNow()) history.replaceState(null, '', hashNow());
}

function readHash() {
  const [line, filter] = location.hash.slice(1).split('/');
  if (filter !== undefined) { $('filter').value = decodeURIComponent(filter); readFilter($('filter').value); }
  if (/^\d+$/.test(line)) go(rowOf(+line)); else render();
}

// ---- keys
const keys = {
  ArrowRight: () => step(1), ArrowLeft: () => step(-1), ArrowDown: () => step(1), ArrowUp: () => step(-1),
  PageDown: () => stepOrder(1), PageUp: () => stepOrder(-1), Home: () => go(listRow(0)), End: () => go(listRow(listLength() - 1)),
  ' ': () => play(), '/': () => $('filter').focus(), '?': () => $('help').showModal(), p: otherEnd, e: () => stepEntity(1), E: () => stepEntity(-1),
      g: () => $('number').select(), b: toBreak,
};

function pressed(event) {
  const at = event.target.closest ? event.target : document.body, isField = at.matches('input:not([type=range]), select, textarea');
  if (event.ctrlKey || event.metaKey || event.altKey || $('help').open) return;
  if (event.key === 'Escape' && at.id === 'filter') { setFilter(''); $('lines').focus(); return; }
  if (event.key === 'Enter' && at.id === 'filter') { $('lines').focus(); return stepIntoList(); }
  if (isField || (event.key === ' ' && at.closest('button, a, summary'))) return;
  let act = keys[event.key] ?? (event.key === '0' || framed[event.key - 1] ? () => lead(framed[event.key - 1]) : null);
  if (event.shiftKey && event.key === 'ArrowRight') act = () => stepOrder(1);
  if (event.shiftKey && event.key === 'ArrowLeft') act = () => stepOrder(-1);
  if (!act) return;
  event.preventDefault();
  act();
}

function clicked(event) {
  // (where a link has the address that stands there already, the browser says nothing)
  if (event.target.closest('a[href^="#"]')?.getAttribute('href') === location.hash) return readHash();
  const at = event.target.closest('[data-row], [data-packet], [data-jump], [data-whole], [data-to], [data-node]');
  if (!at) return;
  if (at.dataset.node && !event.target.closest('summary')) return;
  if (at.dataset.row) return go(+at.dataset.row);
  if (at.dataset.packet) { now.packet = packetByRow.get(+at.dataset.packet); render(); return lead('packet'); }
  if (at.dataset.jump) return stepEntity(+at.dataset.jump, at.dataset.entity);
  if (at.dataset.to) return lead(at.dataset.to);
  if (at.dataset.node) { openNodes[openNodes.has(at.dataset.node) ? 'delete' : 'add'](at.dataset.node); event.preventDefault(); return render(); }
  if (at.dataset.whole) { shownWhole.add(at.dataset.whole); return render(); }
}

// ---- the beginning
const framed = [];                  // the panes that are there, each by its key
function begin() {
  document.title = data.title;
  for (const of in panes) {
    if (of !== 'wire' && !Object.keys(data.histories[of]).length || of === 'wire' && !packets.length) continue;
    const frame = $(['node', 'slot'].includes(of) ? 'left' : 'right');
    framed.push(of);
    frame.insertAdjacentHTML('beforeend', `<section class="card pane-${of}" aria-labelledby="${of}-title"><h2 id="${of}-title" tabindex="-1">${
        panes[of].title}<span class="badge" hidden>changed</span><kbd aria-hidden="true">${framed.length}</kbd></h2><p class="hint">${panes[of].help}</p><div id="${of}"></div></section>`);
  }
  $('legend').innerHTML = legendHtml();
  $('most').textContent = framed.length;
  if (data.breaks) $('verdict').innerHTML = `<b>Not safe</b> from ${lineHtml(data.breaks.line)} on: ${breakHtml()}.`;
  $('verdict').hidden = !data.breaks;
  $('slider').max = last;
  $('number').min = lineOf(0);
  $('number').max = lineOf(last);
  $('of').textContent = `of ${lineOf(last)}`;
  for (const kind of [...new Set([...kinds, ...packets.map(it => it.kind)])].sort()) $('by-kind').add(new Option(kind, kind));
  const names = { node: Object.keys(data.histories.node), producer: [...new Set(Object.keys(data.histories.pair).map(it => it.split(' ')[0]))],
    shard: Object.keys(data.histories.slot).filter(it => it.startsWith('shard:')).map(it => it.slice(6)) };
  for (const field in names) for (const name of names[field].sort(byName)) $(`by-${field}`).add(new Option(`${field} ${name}`, name));
  $('entities').innerHTML = Object.keys({ ...data.histories.entity, ...data.histories.job }).sort(byName).map(it => `<option value="${it}">`).join('');
  for (const field of FIELDS) $(`by-${field}`).addEventListener('change', event => setField(field, event.target.value));
  $('filter').addEventListener('input', () => { readFilter($('filter').value); render(); });
  $('clear').addEventListener('click', () => setFilter('', 'filter'));
  $('slider').addEventListener('input', () => go(+$('slider').value));
  $('number').addEventListener('change', () => go(rowOf(+$('number').value)));
  $('play').addEventListener('click', () => play());
  $('speed').addEventListener('change', () => now.timer && play(true));
  $('lines').addEventListener('scroll', () => drawList(false));
  for (const [id, act] of Object.entries({ first: () => go(0), 'order-back': () => stepOrder(-1), back: () => step(-1), on: () => step(1),
      'order-on': () => stepOrder(1), end: () => go(last) })) $(id).addEventListener('click', act);
  $('ask').addEventListener('click', () => $('help').showModal());
  $('diagram').parentElement.addEventListener('toggle', render);
  document.addEventListener('keydown', pressed);
  document.addEventListener('click', clicked);
  window.addEventListener('hashchange', readHash);
  window.addEventListener('resize', render);
  readFilter('');
  readHash();
}
begin();
