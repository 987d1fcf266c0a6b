"""A layout as SVG."""
from __future__ import annotations

from html import escape
from typing import List, Optional, Sequence, Set, Tuple

from facts import Trace, cut_off
from layout import BAR, BAR_CHARACTER, BAR_STEP, CHARACTER, NUMBER_WIDTH, ROW, TRACK, Arrow, Lane, Layout
from actors import Packet
from choosing import WrongWords
from story import BAR_KINDS, FAMILIES, Span, Story, family_of

MOST_TOLD = 60          # facts in the description for screen readers
LABEL_ROWS = 30         # a long bar, and a lane, has its label again after so many rows

# the facts that the description for screen readers tells
TOLD = {'up', 'gone', 'granted', 'freed', 'moving', 'allocated', 'terminated', 'start', 'active', 'stop', 'writefailed',
        'wrote', 'confirmed', 'reshard', 'upgrade', 'did'}

STYLE = '''
text{font-family:ui-monospace,"DejaVu Sans Mono","Liberation Mono",Menlo,Consolas,monospace;font-size:10.5px;fill:#24292f}
.ground{fill:#ffffff}
.head{font-size:12px;font-weight:bold}
.strong{font-weight:bold}
.quiet{fill:#57606a}
.bad{fill:#c1121f;font-weight:bold}
.number,.again-label{font-size:8.5px;fill:#6e7781}
.number,.legend{user-select:none;-webkit-user-select:none}
.life{fill:#f3f5f8;stroke:#c4cad2}
.order{stroke:#9aa2ac;stroke-dasharray:3 3;fill:none}
.down{stroke:#d8dce1;stroke-dasharray:1 4}
.marked{fill:#fff0a8}
.pointer,.dead{fill:#c1121f}
.cross{stroke:#c1121f;stroke-width:2;fill:none}
.crash{stroke:#c1121f;stroke-width:2.5;fill:none}
.arrow path,.arrow circle{stroke-width:1.2}
.line{fill:none}
.repeat .line{stroke-dasharray:5 3}
.arrow:hover path{stroke-width:3}
.bar{stroke:none}
.in-bar{font-size:8.5px;fill:#10161d}
.coordinator{fill:#f0888a}.shard{fill:#84b1e0}.queue{fill:#86cb8d}.entity{fill:#edcd62}.entity.pale{fill:#f7ebc0}
.command path,.command circle{stroke:#0b63c4}.command .tip{fill:#0b63c4}
.answer path,.answer circle{stroke:#1a7f37}.answer .tip{fill:#1a7f37}
.homes path,.homes circle{stroke:#8250df}.homes .tip{fill:#8250df}
.handoff path,.handoff circle{stroke:#bc4c00}.handoff .tip{fill:#bc4c00}
.inner path,.inner circle{stroke:#9a6700}.inner .tip{fill:#9a6700}
.members path,.members circle{stroke:#7d8590}.members .tip{fill:#7d8590}
.arrow .cross{stroke:#c1121f}
@media (prefers-color-scheme:dark){
text{fill:#e6edf3}
.ground{fill:#0d1117}
.quiet{fill:#9aa4af}
.bad{fill:#ff8a83}
.number,.again-label{fill:#8b949e}
.life{fill:#1a212b;stroke:#3d4754}
.order{stroke:#6b7580}
.down{stroke:#2c333d}
.marked{fill:#51430a}
.pointer,.dead{fill:#ff7b72}
.cross,.crash,.arrow .cross{stroke:#ff7b72}
.in-bar{fill:#10161d}
.entity.pale{fill:#a8945a}
.command path,.command circle{stroke:#6cb6ff}.command .tip{fill:#6cb6ff}
.answer path,.answer circle{stroke:#57ab5a}.answer .tip{fill:#57ab5a}
.homes path,.homes circle{stroke:#c297ff}.homes .tip{fill:#c297ff}
.handoff path,.handoff circle{stroke:#f0883e}.handoff .tip{fill:#f0883e}
.inner path,.inner circle{stroke:#d4a72c}.inner .tip{fill:#d4a72c}
.members path,.members circle{stroke:#8b949e}.members .tip{fill:#8b949e}
}
'''


def number_text(value: float) -> str:
    """A measure, to a tenth of a pixel."""
    return f'{value:.1f}'.rstrip('0').rstrip('.')


def text_at(x: float, y: float, content: str, css: str = '', title: str = '',
            note: str = '', note_css: str = 'quiet', turned: bool = False) -> str:
    place = f'x="{number_text(x)}" y="{number_text(y)}"'
    if turned:
        place = f'transform="translate({number_text(x)} {number_text(y)}) rotate(90)"'
    shown = escape(content, quote=False) + (f'<tspan class="{note_css}">{escape(note, quote=False)}</tspan>' if note else '')
    tip = f'<title>{escape(title, quote=False)}</title>' if title else ''
    return f'<text {place}' + (f' class="{css}"' if css else '') + f'>{tip}{shown}</text>'


def rounded(points: Sequence[Tuple[float, float]], radius: float = 4) -> str:
    """A path along these points, level and upright in turn, with round corners."""
    parts = [f'M{number_text(points[0][0])} {number_text(points[0][1])}']
    for before, corner, after in zip(points, points[1:], points[2:]):
        near = [towards(corner, other, radius) for other in (before, after)]
        parts.append(f'L{number_text(near[0][0])} {number_text(near[0][1])}'
                     f'Q{number_text(corner[0])} {number_text(corner[1])} {number_text(near[1][0])} {number_text(near[1][1])}')
    parts.append(f'L{number_text(points[-1][0])} {number_text(points[-1][1])}')
    return ''.join(parts)


def towards(start: Tuple[float, float], end: Tuple[float, float], most: float) -> Tuple[float, float]:
    """The point at most so far from the start on the way to the end, and not past the middle."""
    across, down = end[0] - start[0], end[1] - start[1]
    length = abs(across) + abs(down)
    step = min(most, length / 2) / length if length else 0
    return start[0] + across * step, start[1] + down * step


class Painter:
    """Draws a layout; each method gives pieces of SVG."""

    def __init__(self, layout: Layout, story: Story, trace: Trace, mark: Optional[int]) -> None:
        self.layout, self.story, self.trace = layout, story, trace
        self.window = layout.window
        self.header = 34 + 14 * len(self._notes())
        self.top = self.header + 22
        self.bottom = self.top + ROW * len(layout.rows)
        self.marked = self._marked_row(mark)
        self.labels = self._label_rows()

    def _marked_row(self, mark: Optional[int]) -> Optional[int]:
        if mark is None:
            return None
        for row in range(self.window.first, self.window.last + 1):
            if self.story.rows[row].fact.line == mark:
                return row
        raise WrongWords(f'--mark {mark}: no fact in that line of the picture')

    def y(self, row: int) -> float:
        """The middle of a row; of one outside the window, the edge."""
        place = -1 if row < self.window.first else len(self.layout.rows) if row > self.window.last else self.window.place(row)
        return self.top + place * ROW + ROW / 2

    def text_end(self, row: int) -> float:
        """Where the text of a row ends; it stands beside a node."""
        told = self.story.rows[row]
        assert told.node is not None
        if not self.window.is_shown(row):
            return self.layout.lanes[told.node].text_left
        return self.layout.lanes[told.node].text_left + CHARACTER * told.length

    def svg(self) -> str:
        legend, height = self._legend(self.bottom + 22)
        width = number_text(self.layout.width)
        pieces = [f'<svg xmlns="http://www.w3.org/2000/svg" xml:space="preserve" width="{width}" height="{height}" viewBox="0 0 {width} {height}" '
                  'role="img" aria-labelledby="title description">',
                  f'<title id="title">{escape(self._title())}</title>',
                  f'<desc id="description">{escape(self._description(), quote=False)}</desc>',
                  f'<style>{STYLE}</style>',
                  '<rect class="ground" width="100%" height="100%"/>']
        for part in (self._lives(), self._mark(), self._order_lines(), self._arrows(), self._bars(), self._crashes(),
                     self._heads(), self._numbers(), self._texts(), legend):
            pieces += part
        return '\n'.join(pieces) + '\n</svg>\n'

    # what it says about itself
    def _title(self) -> str:
        nodes = ', '.join(map(str, self.layout.lanes)) or 'none'
        first, last = self.layout.rows[0].fact.line, self.layout.rows[-1].fact.line
        plural = 's' if len(self.layout.lanes) != 1 else ''
        return f'Trace, lines {first} to {last}: node{plural} {nodes}'

    def _notes(self) -> List[str]:
        """The lines below the heading."""
        return wrapped('Left out: ' + '; '.join(self.layout.left_out), self.layout.width - 16) if self.layout.left_out else []

    def _description(self) -> str:
        told = [f'line {row.fact.line}: {row.fact.text}{row.note}' for row in self.layout.rows
                if row.fact.kind in TOLD or row.tone == 'bad' or (row.fact.kind == 'at' and row.note)]
        more = len(told) - MOST_TOLD
        parts = [' '.join(self.trace.comments)] if self.trace.comments else []
        parts.append('A sequence diagram: a lane for each node, a row for each fact, an arrow for each packet.')
        if self.layout.left_out:
            parts.append('Left out: ' + '; '.join(self.layout.left_out) + '.')
        parts.append('It shows, among other facts: ' + '; '.join(told[:MOST_TOLD]) + (f'; and {more} more.' if more > 0 else '.'))
        return ' '.join(parts)

    def _heads(self) -> List[str]:
        pieces = [text_at(8, 20, self._title(), 'head')]
        pieces += [text_at(8, 36 + 14 * n, note, 'quiet') for n, note in enumerate(self._notes())]
        for lane in self.layout.lanes.values():
            up = self._up_at(lane.node, self.window.first)
            name = up.labels[0] if up and up.start < self.window.first else ''
            pieces.append(text_at(lane.left, self.top - 7, f'node {lane.node}', 'head', note=f'  {name}' if name else ''))
        return pieces

    def _up_at(self, node: int, row: int) -> Optional[Span]:
        for span in self.story.spans:
            if span.kind == 'up' and span.node == node and span.start <= row and (span.end is None or span.end >= row):
                return span
        return None

    # ground
    def _mark(self) -> List[str]:
        if self.marked is None:
            return []
        y = self.y(self.marked)
        return [f'<rect class="marked" x="0" y="{number_text(y - ROW / 2)}" width="100%" height="{ROW}"/>',
                f'<path class="pointer" d="M2 {number_text(y - 5)}l9 5l-9 5z"><title>marked: line '
                f'{self.story.rows[self.marked].fact.line}</title></path>']

    def _lives(self) -> List[str]:
        """The boxes of incarnations, and a dotted line where a node isn't up."""
        pieces = []
        for lane in self.layout.lanes.values():
            pieces.append(f'<path class="down" d="M{number_text(lane.left)} {number_text(self.top)}V{number_text(self.bottom)}'
                          f'M{number_text(lane.right)} {number_text(self.top)}V{number_text(self.bottom)}"/>')
        for span in self.story.spans:
            if span.kind == 'up' and self.window.meets(span.start, span.end):
                lane = self.layout.lanes[span.node]
                y, height = self._extent(span.start, span.end)
                pieces.append(f'<rect class="life" x="{number_text(lane.left)}" y="{number_text(y)}" rx="4" '
                              f'width="{number_text(lane.right - lane.left)}" height="{number_text(height)}">'
                              f'<title>{self._lasting(span, "is up")}</title></rect>')
        return pieces

    def _extent(self, start: int, end: Optional[int]) -> Tuple[float, float]:
        """Top and height of what lasts from one row to another, within the window."""
        above = self.top if start < self.window.first else self.y(start) - ROW / 2 + 1
        below = self.bottom if end is None or end > self.window.last else self.y(end) + ROW / 2 - 1
        return above, below - above

    def _lasting(self, span: Span, what: str) -> str:
        rows = self.story.rows
        until = f' to {rows[span.end].fact.line}' if span.end is not None else ' on'
        return f'{span.labels[0]} {what}, node {span.node}, from line {rows[span.start].fact.line}{until}'

    def _rows(self) -> List[int]:
        """The rows that stand by themselves."""
        return [row for place, row in enumerate(self.window.places) if place not in self.window.folds]

    def _label_rows(self) -> Set[int]:
        """Rows of orders in which the lanes' names stand again."""
        found, last = set(), self.window.first
        for row in self._rows():
            if self.story.rows[row].fact.kind == 'at' and self.window.place(row) - self.window.place(last) >= LABEL_ROWS:
                found.add(row)
                last = row
        return found

    def _order_lines(self) -> List[str]:
        pieces = []
        for row in self._rows():
            if self.story.rows[row].fact.kind == 'at':
                y = number_text(self.y(row))
                path = f'M{number_text(NUMBER_WIDTH + CHARACTER * self.story.rows[row].length + 6)} {y}'
                for lane in self.layout.lanes.values() if row in self.labels else ():
                    path += f'H{number_text(lane.text_left - 4)}M{number_text(lane.text_left + len(self._lane_label(lane, row)) * BAR_CHARACTER + 5)} {y}'
                pieces.append(f'<path class="order" d="{path}H{number_text(self.layout.width - 4)}"/>')
        return pieces

    # packets
    def _arrows(self) -> List[str]:
        return [self._arrow(arrow) for arrow in self.layout.arrows]

    def _arrow(self, arrow: Arrow) -> str:
        inside = arrow.packet.row >= self.window.first
        reached = arrow.delivery is not None and arrow.delivery.row <= self.window.last
        if arrow.delivery is None:
            body = self._never(arrow.packet)
        else:
            start = [(self._leaves(arrow.packet), self.y(arrow.packet.row))] if inside else []
            end = [(self._arrives(arrow), self.y(arrow.delivery.row))] if reached else []
            upright = self._track(arrow)
            way = start + [(upright, self.y(arrow.packet.row)), (upright, self.y(arrow.delivery.row))] + end
            body = f'<path class="line" d="{rounded(way)}"/>'
            body += dot(*start[0]) if start else ''
            body += self._tip(arrow, *end[0]) if end else ''
        css = f'arrow {family_of(arrow.packet)}' + (' repeat' if arrow.again else '')
        return f'<g class="{css}"><title>{escape(self._tooltip(arrow), quote=False)}</title>{body}</g>'

    def _leaves(self, packet: Packet) -> float:
        """Where its arrow begins: behind its text, or before it where it goes to the left."""
        if packet.source > packet.target:
            return self.layout.lanes[packet.source].text_left - 5
        return self.text_end(packet.row) + 5

    def _arrives(self, arrow: Arrow) -> float:
        if arrow.packet.source < arrow.packet.target:
            return self.layout.lanes[arrow.packet.target].left - 1
        return self.text_end(arrow.end) + 6

    def _track(self, arrow: Arrow) -> float:
        side, node = arrow.channel
        if side == 'own':
            return self.layout.lanes[node].own_left + TRACK * arrow.track
        nodes = list(self.layout.lanes)
        beside = self.layout.lanes[node if side == 'right of' else nodes[nodes.index(node) - 1]]
        return beside.gap_left + TRACK * arrow.track

    def _never(self, packet: Packet) -> str:
        """A packet that is never got: a short line and a cross."""
        lane, y = self.layout.lanes[packet.source], self.y(packet.row)
        start = self._leaves(packet)
        end = lane.left - 9 if packet.source > packet.target else lane.right + 9
        return f'<path class="line" d="{rounded([(start, y), (end, y)])}"/>{dot(start, y)}{cross(end, y, 4)}'

    def _tip(self, arrow: Arrow, x: float, y: float) -> str:
        if arrow.delivery is not None and arrow.delivery.lost:
            return cross(x, y, 4)
        back = -7 if arrow.packet.source < arrow.packet.target else 7
        return f'<path class="tip" d="M{number_text(x)} {number_text(y)}l{back} -3.5v7z"/>'

    def _tooltip(self, arrow: Arrow) -> str:
        packet, rows = arrow.packet, self.story.rows
        sent = f'packet {packet.number}: {packet.text}; to {packet.addressee}; sent in line {rows[packet.row].fact.line}'
        if arrow.delivery is None:
            return f'{sent}, never got in this trace'
        again = ' once more' if arrow.again else ''
        lost = f', lost: {arrow.delivery.lost}' if arrow.delivery.lost else ''
        return f'{sent}, got{again} in line {rows[arrow.delivery.row].fact.line}{lost}'

    # bars
    def _bars(self) -> List[str]:
        return [piece for bar in self.layout.bars for piece in self._bar(bar.span, bar.column)]

    def _bar(self, span: Span, column: int) -> List[str]:
        lane = self.layout.lanes[span.node]
        x = (lane.entities_left if span.kind == 'entity' else lane.left + 3) + BAR_STEP * column
        y, height = self._extent(span.start, span.end)
        what = 'is live' if span.kind == 'entity' else 'is held'
        group = [f'<g><title>{self._lasting(span, what)}</title>']
        pale = 0.0
        if span.kind == 'entity':
            read = span.active if span.active is not None else span.end
            pale = height if read is None else min(max(self.y(read) - ROW / 2 - y, 0), height)
        for css, above, tall in ((f'bar {span.kind} pale', y, pale), (f'bar {span.kind}', y + pale, height - pale)):
            if tall > 0:
                group.append(f'<rect class="{css}" x="{number_text(x)}" y="{number_text(above)}" width="{BAR}" '
                             f'height="{number_text(tall)}"/>')
        return group + self._bar_labels(span, x, y, height) + ['</g>']

    def _bar_labels(self, span: Span, x: float, y: float, height: float) -> List[str]:
        """The longest label that fits, again and again along a long bar."""
        label = next((label for label in span.labels if len(label) * BAR_CHARACTER + 4 <= height), None)
        if label is None and span.kind == 'entity' and height > 3 * BAR_CHARACTER:
            label = cut_off(span.labels[0], int((height - 4) / BAR_CHARACTER))
        if label is None:
            return []
        count = max(1, int((height - len(label) * BAR_CHARACTER - 4) // (LABEL_ROWS * ROW)) + 1)
        return [text_at(x + 3.2, y + 3 + n * LABEL_ROWS * ROW, label, 'in-bar', turned=True) for n in range(count)]

    def _crashes(self) -> List[str]:
        pieces = []
        for span in self.story.spans:
            if span.crashed and span.end is not None and self.window.first <= span.end <= self.window.last:
                lane, y = self.layout.lanes[span.node], self.y(span.end)
                pieces.append(f'<g><title>{span.labels[0]} is gone</title><path class="crash" d="M{number_text(lane.text_left - 2)} '
                              f'{number_text(y + ROW / 2 - 0.5)}H{number_text(lane.right)}"/>'
                              + cross(self.text_end(span.end) + 12, y, 5, 'crash') + '</g>')
        return pieces

    # texts
    def _numbers(self) -> List[str]:
        """Line numbers, of every fifth line, of orders and of what is marked."""
        return [text_at(14, self.y(n) + 3, str(row.fact.line), 'number') for n, row in zip(self.window.places, self.layout.rows)
                if row.fact.line % 5 == 0 or row.fact.kind == 'at' or n == self.marked or self.window.folds]

    def _texts(self) -> List[str]:
        pieces = []
        for n, row in zip(self.window.places, self.layout.rows):
            y = self.y(n) + 3.5
            x = NUMBER_WIDTH if row.node is None else self.layout.lanes[row.node].text_left
            pieces.append(text_at(x, y, row.shown, '' if row.tone == 'plain' else row.tone, row.tooltip, row.note, row.note_tone))
            if n in self.labels:
                pieces += self._lane_labels(n)
        return pieces

    def _lane_label(self, lane: Lane, row: int) -> str:
        up = self._up_at(lane.node, row)
        return f'node {lane.node}: {up.labels[0] if up else "not up"}'

    def _lane_labels(self, row: int) -> List[str]:
        return [text_at(lane.text_left, self.y(row) + 3, self._lane_label(lane, row), 'again-label')
                for lane in self.layout.lanes.values()]

    def _legend(self, top: float) -> Tuple[List[str], int]:
        """What the signs mean, of those that are there; and the height of the picture with it."""
        pieces, x, y = ['<g class="legend">'], 8.0, top
        for sign, words in self._signs():
            wide = 34 + CHARACTER * len(words) + 14
            if x > 8 and x + wide > self.layout.width:
                x, y = 8.0, y + 16
            pieces += [f'<g transform="translate({number_text(x)} {number_text(y)})">{sign}{text_at(34, 3.5, words, "quiet")}</g>']
            x += wide
        return pieces + ['</g>'], int(y + 18)

    def _signs(self) -> List[Tuple[str, str]]:
        bars = {bar.span.kind for bar in self.layout.bars}
        families = {family_of(arrow.packet) for arrow in self.layout.arrows}
        signs = [('<rect class="life" x="2" y="-6" width="26" height="12" rx="3"/>', 'an incarnation')]
        if any(row.fact.kind == 'at' for row in self.layout.rows):
            signs.insert(0, ('<path class="order" d="M2 0H28"/>', 'an order'))
        signs += [(f'<rect class="bar {kind}" x="15" y="-6" width="{BAR}" height="12"/>', words) for kind, words in BAR_KINDS.items()
                  if kind in bars]
        signs += [(f'<g class="arrow {family}"><path class="line" d="M2 0H22"/><path class="tip" d="M28 0l-7 -3.5v7z"/></g>', words)
                  for family, (words, _) in FAMILIES.items() if family in families]
        if any(arrow.again for arrow in self.layout.arrows):
            signs.append(('<g class="arrow members repeat"><path class="line" d="M2 0H28"/></g>', 'delivered once more'))
        if any(arrow.delivery is None or arrow.delivery.lost for arrow in self.layout.arrows):
            signs.append((cross(22, 0, 4), 'lost, or never got in this trace'))
        if any(span.crashed for span in self.story.spans if span.end and self.window.first <= span.end <= self.window.last):
            signs.append((cross(21, 0, 5, 'crash'), 'a crash'))
        return signs


def dot(x: float, y: float) -> str:
    return f'<circle class="tip" cx="{number_text(x)}" cy="{number_text(y)}" r="1.8"/>'


def cross(x: float, y: float, size: float, css: str = 'cross') -> str:
    return (f'<path class="{css}" d="M{number_text(x - size)} {number_text(y - size)}l{number_text(2 * size)} {number_text(2 * size)}'
            f'm0 {number_text(-2 * size)}l{number_text(-2 * size)} {number_text(2 * size)}"/>')


def wrapped(text: str, width: float) -> List[str]:
    """Lines of at most this width."""
    lines = ['']
    for word in text.split(' '):
        if lines[-1] and (len(lines[-1]) + 1 + len(word)) * CHARACTER > width:
            lines.append(word)
        else:
            lines[-1] = f'{lines[-1]} {word}'.lstrip()
    return lines
