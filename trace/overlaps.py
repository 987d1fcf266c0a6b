#!/usr/bin/env python3
"""Says which texts of these pictures a line crosses, or another text: trace/overlaps.py PICTURE.svg ..

Status 0 where there is none, 1 otherwise. It reads the SVG that `draw.py` writes, by itself: texts as boxes, as
wide as a monospace font makes them, and paths as their straight pieces. Bars are left out: their texts stand on them.
"""
from __future__ import annotations

import re
import sys
import xml.etree.ElementTree as tree
from dataclasses import dataclass
from typing import Iterator, List, Tuple

sys.dont_write_bytecode = True      # no __pycache__ beside these files

from ending import run     # noqa: E402

SVG = '{http://www.w3.org/2000/svg}'
SIZES = {'head': 12.0, 'number': 8.5, 'again-label': 8.5}   # heights of fonts by class; of all others 10.5
LINES = {'line', 'order', 'tip', 'cross', 'crash'}          # classes of paths


@dataclass
class Box:
    left: float
    top: float
    right: float
    bottom: float
    what: str

    def meets(self, other: Box) -> bool:
        return (self.left < other.right and other.left < self.right
                and self.top < other.bottom and other.top < self.bottom)


def text_box(element: tree.Element) -> Box:
    tooltips = ''.join(part.text or '' for part in element.iter(SVG + 'title'))
    shown = ''.join(element.itertext())[len(tooltips):]     # a tooltip comes first
    size = SIZES.get(element.get('class', ''), 10.5)
    x, y = float(element.get('x', 0)), float(element.get('y', 0))
    return Box(x, y - 0.72 * size, x + 0.602 * size * len(shown), y + 0.2 * size, shown)


def pieces_of(path: str) -> Iterator[Tuple[float, float, float, float]]:
    """The straight pieces of a path; a round corner counts as one."""
    x = y = 0.0
    for step, words in re.findall('([MmLlHVQv])([^A-Za-z]*)', path):
        at = [float(word) for word in re.findall(r'-?[\d.]+', words)]
        to = {'M': at[-2:], 'L': at[-2:], 'Q': at[-2:], 'H': [at[0], y], 'V': [x, at[0]], 'v': [x, y + at[0]],
              'm': [x + at[0], y + at[-1]], 'l': [x + at[0], y + at[-1]]}[step]
        if step not in 'Mm':
            yield x, y, to[0], to[1]
        x, y = to


def line_boxes(element: tree.Element) -> Iterator[Box]:
    for x, y, x_end, y_end in pieces_of(element.get('d', '')):
        yield Box(min(x, x_end) - 0.5, min(y, y_end) - 0.5, max(x, x_end) + 0.5, max(y, y_end) + 0.5, 'a line')


def overlaps(picture: str) -> List[str]:
    root = tree.parse(picture).getroot()
    legend = root.find(f"{SVG}g[@class='legend']")
    if legend is not None:
        root.remove(legend)
    texts = [text_box(element) for element in root.iter(SVG + 'text') if element.get('transform') is None]
    lines = [box for element in root.iter(SVG + 'path') if element.get('class') in LINES for box in line_boxes(element)]
    boxes = sorted(texts + lines, key=lambda box: box.top)
    found: List[str] = []
    open_boxes: List[Box] = []      # those that reach below where the next one begins
    for box in boxes:
        open_boxes = [other for other in open_boxes if other.bottom > box.top]
        found += [f'{picture}: {box.what!r} and {other.what!r}' for other in open_boxes
                  if box.meets(other) and not box.what == other.what == 'a line']
        open_boxes.append(box)
    return found


def main() -> int:
    faults = [fault for picture in sys.argv[1:] for fault in overlaps(picture)]
    print('\n'.join(faults) if faults else 'no text is crossed')
    return 1 if faults else 0


if __name__ == '__main__':
    run(main)
