"""Where everything stands: lanes, the columns of bars, the tracks of arrows."""
from __future__ import annotations

from dataclasses import dataclass
from typing import Dict, Iterable, List, Optional, Sequence, Tuple

from facts import Fact, Trace
from actors import Delivery, Packet
from choosing import Choice, Window, choose
from story import Row, Span, Story

# in pixels
ROW = 16                # the height of a row
CHARACTER = 6.4         # the width of a character of facts (10.5 pixels high), rounded up
BAR_CHARACTER = 5.2     # of one in a bar (8.5 pixels high)
BAR, BAR_STEP = 12, 14  # the width of a bar, and from one to the next
TRACK = 7               # from one upright arrow to the next
PAD = 18                # beside a lane, for crosses and heads of arrows
NUMBER_WIDTH = 44       # of the column of line numbers
LEAST_WIDTH = 520       # of a picture

MOST_TRACKS = 12        # upright arrows beside one another; what comes more shares the last to become free
MOST_BARS = 16          # leases of a node beside one another, and entities; what comes more is left out
MOST_OF_ALL = 64        # of all nodes together: with more nodes each has fewer bars, and fewer tracks


@dataclass
class Arrow:
    """One delivery of a packet, or that it never came."""
    packet: Packet
    delivery: Optional[Delivery]
    again: bool                 # it isn't the first delivery
    track: int = 0

    @property
    def end(self) -> int:
        return self.packet.row if self.delivery is None else self.delivery.row

    @property
    def channel(self) -> Tuple[str, int]:
        """Where it stands upright: right of its own lane, or beside the lane that it goes to."""
        source, target = self.packet.source, self.packet.target
        if source == target:
            return 'own', source
        return ('left of', target) if source < target else ('right of', target)


@dataclass
class Bar:
    span: Span
    column: int


@dataclass
class Lane:
    """A node's place; all in pixels."""
    node: int
    left: float = 0
    entities_left: float = 0    # the columns of entities begin here
    text_left: float = 0
    right: float = 0
    own_left: float = 0         # tracks of packets to itself begin here
    gap_left: float = 0         # tracks of packets between this lane and the next


@dataclass
class Layout:
    window: Window
    rows: List[Row]
    lanes: Dict[int, Lane]
    arrows: List[Arrow]
    bars: List[Bar]
    width: float
    left_out: List[str]


def arrows_of(packets: Iterable[Packet], window: Window) -> List[Arrow]:
    """Those that are seen in the window, in the order in which the packets were sent."""
    found = []
    for packet in packets:
        shown = [row for row in (packet.row, *(delivery.row for delivery in packet.deliveries)) if window.is_shown(row)]
        if window.folds and not shown:
            continue        # both its ends are folded
        if not packet.deliveries and window.meets(packet.row, packet.row):
            found.append(Arrow(packet, None, False))
        for count, delivery in enumerate(packet.deliveries):
            if window.meets(packet.row, delivery.row):
                found.append(Arrow(packet, delivery, count > 0))
    return found


def give_tracks(arrows: Sequence[Arrow], channel_of: Dict[Tuple[str, int], Tuple[str, int]], nodes: int) -> Dict[Tuple[str, int], int]:
    """Gives each arrow a track of its channel, and tells how many each channel needs."""
    most = min(MOST_TRACKS, max(4, MOST_OF_ALL // max(nodes, 1)))
    ends: Dict[Tuple[str, int], List[int]] = {}
    for arrow in arrows:
        if arrow.delivery is None:
            continue
        taken = ends.setdefault(channel_of[arrow.channel], [])
        arrow.track = next((n for n, end in enumerate(taken) if end < arrow.packet.row), len(taken))
        if arrow.track >= most:
            arrow.track = taken.index(min(taken))
        taken[arrow.track:arrow.track + 1] = [max([arrow.end] + taken[arrow.track:arrow.track + 1])]
    return {channel: len(taken) for channel, taken in ends.items()}


def give_columns(spans: Sequence[Span], window: Window, nodes: int) -> Tuple[List[Bar], Dict[Tuple[bool, int], int], int]:
    """The bars; how many columns each node needs, of entities (True) and of leases; how many bars find no column."""
    most = min(MOST_BARS, max(4, MOST_OF_ALL // max(nodes, 1)))
    bars: List[Bar] = []
    ends: Dict[Tuple[bool, int], List[Optional[int]]] = {}
    missing = 0
    for span in spans:
        if span.kind == 'up' or not window.meets(span.start, span.end):
            continue
        taken = ends.setdefault((span.kind == 'entity', span.node), [])
        column = next((n for n, end in enumerate(taken) if end is not None and end < span.start), len(taken))
        if column >= most:
            missing += 1
            continue
        taken[column:column + 1] = [span.end]
        bars.append(Bar(span, column))
    return bars, {key: len(taken) for key, taken in ends.items()}, missing


def nodes_seen(rows: Sequence[Row], arrows: Sequence[Arrow], spans: Sequence[Span], window: Window) -> List[int]:
    nodes = {row.node for row in rows if row.node is not None}
    nodes |= {node for arrow in arrows for node in (arrow.packet.source, arrow.packet.target)}
    nodes |= {span.node for span in spans if window.meets(span.start, span.end)}
    return sorted(nodes)


def place_lanes(nodes: Sequence[int], rows: Sequence[Row], columns: Dict[Tuple[bool, int], int],
                tracks: Dict[Tuple[str, int], int]) -> Tuple[Dict[int, Lane], float]:
    """The lanes from left to right, each as wide as its texts and bars, with its tracks behind it; and where they end."""
    lanes: Dict[int, Lane] = {}
    right = NUMBER_WIDTH + CHARACTER * max([8] + [row.length for row in rows if row.node is None])
    for node in nodes:
        lane = Lane(node, left=right + PAD)
        lane.entities_left = lane.left + 3 + BAR_STEP * columns.get((False, node), 0)
        lane.text_left = lane.entities_left + 5 + BAR_STEP * columns.get((True, node), 0)
        lane.right = lane.text_left + CHARACTER * max([14] + [row.length for row in rows if row.node == node]) + PAD
        lane.own_left = lane.right + PAD
        lane.gap_left = lane.own_left + TRACK * tracks.get(('own', node), 0)
        right = lane.gap_left + TRACK * tracks.get(('gap', node), 0)
        lanes[node] = lane
    return lanes, right


def lay_out(story: Story, trace: Trace, choice: Choice) -> Layout:
    window = choose(story, trace, choice)
    rows = rows_shown(story.rows, window)
    arrows = arrows_of(story.packets, window)
    spans = spans_shown(story.spans, choice)
    nodes = nodes_seen(rows, arrows, spans, window)
    bars, columns, missing = give_columns(spans, window, len(nodes))
    channels = {('own', node): ('own', node) for node in nodes}
    for before, node in zip(nodes, nodes[1:]):
        channels['left of', node] = channels['right of', before] = ('gap', before)
    tracks = give_tracks(arrows, channels, len(nodes))

    lanes, right = place_lanes(nodes, rows, columns, tracks)
    return Layout(window, rows, lanes, arrows, bars, max(right + 6, LEAST_WIDTH),
                  what_is_missing(trace, story.rows, window, rows, missing))


def rows_shown(rows: Sequence[Row], window: Window) -> List[Row]:
    """A row for each place; one of dots where rows are folded."""
    return [fold_row(rows[row].fact, window.count(place)) if place in window.folds else rows[row] for place, row in enumerate(window.places)]


def fold_row(fact: Fact, count: int) -> Row:
    return Row(fact, None, f'···  {count} lines', 'quiet', tooltip=f'{count} lines are folded here, from line {fact.line} on')


def spans_shown(spans: Sequence[Span], choice: Choice) -> List[Span]:
    """Of an entity or a shard the bars of others are left away."""
    if choice.entity is None and choice.shard is None:
        return list(spans)
    return [span for span in spans if span.kind in ('up', 'coordinator', 'queue')
            or span.kind == 'entity' and choice.entity in (None, span.labels[0])
            or span.kind == 'shard' and (choice.shard is None or span.labels[0].split(' ')[0] == f'shard:{choice.shard}')]


def what_is_missing(trace: Trace, rows: Sequence[Row], window: Window, shown: Sequence[Row], bars: int) -> List[str]:
    """What isn't drawn, in words."""
    said = []
    if window.first > 0:
        said.append(f'lines {rows[0].fact.line} to {rows[window.first - 1].fact.line}')
    if window.last + 1 < len(rows):
        said.append(f'lines {rows[window.last + 1].fact.line} to {rows[-1].fact.line}')
    if window.folds:
        said.append(f'{sum(map(window.count, window.folds))} lines that are folded')
    if bars:
        said.append(f'{bars} bars of more than have room at once at a node')
    shortened = sum(row.is_cut for row in shown)
    if shortened:
        said.append(f'the ends of texts in {shortened} rows (their tooltips have them)')
    if trace.report_lines:
        said.append(f'the report ({trace.report_lines} lines)')
    return said
