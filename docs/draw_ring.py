#!/usr/bin/env python3
"""Prints docs/ring.svg: the slots of a heap ring before and after a push over the oldest item.

It goes through the pushes by the rule of the code, `(start + k) & mask`, and stops if a name that the picture uses is
no longer in the file that it is taken from.
"""

import pathlib
import sys

ROOT = pathlib.Path(__file__).resolve().parent.parent
NAMES = {
    "crates/ring_slots/src/place.rt": ["masked", "mask"],
    "crates/ringbuffer/src/fixed/steps.rt": ["put_over", "start", "len"],
    "crates/ringbuffer/src/fixed/slices.rt": ["as_slices"],
    "crates/ringbuffer/src/fixed/ring_buffer.rt": ["capacity", "get_signed"],
}

SIZE, CAPACITY, PUSHES = 8, 5, 10
MASK = SIZE - 1
BOX, LEFT = 76, 40
WIDTH = LEFT + SIZE * BOX + 330
INK, FULL, READ, WRITTEN = "#1b1f24", "#dbe9f6", "#f9d5c9", "#cdeccd"


class Ring:
    def __init__(self):
        self.slots, self.start, self.len = [None] * SIZE, 0, 0

    def place(self, k):
        return (self.start + k) & MASK

    def push(self, item):
        """Returns the place that it read and the one that it wrote."""
        written, read = self.place(self.len), None
        if self.len == CAPACITY:
            read = self.start
            self.slots[read] = None
            self.start = self.place(1)
        else:
            self.len += 1
        self.slots[written] = item
        return read, written

    def slices(self):
        first = min(self.len, SIZE - self.start)
        return range(self.start, self.start + first), range(self.len - first)


def text(x, y, words, size=15, anchor="start", weight="normal"):
    return (
        f'<text x="{x}" y="{y}" font-size="{size}" text-anchor="{anchor}" font-weight="{weight}" fill="{INK}">'
        f"{words}</text>"
    )


def middle(place):
    return LEFT + place * BOX + BOX // 2


def row(ring, top, tints):
    """The slots, with the number of each above it and the start's arrow above that."""
    drawn = []
    for place, item in enumerate(ring.slots):
        tint = tints.get(place, FULL if item is not None else "white")
        drawn.append(
            f'<rect x="{LEFT + place * BOX}" y="{top}" width="{BOX}" height="48" fill="{tint}" stroke="{INK}"/>'
        )
        drawn.append(text(middle(place), top - 8, f"place {place}", 12, "middle"))
        if item is not None:
            drawn.append(text(middle(place), top + 31, f"item {item}", 16, "middle", "bold"))
    x = middle(ring.start)
    drawn.append(text(x, top - 44, f"start = {ring.start}", 14, "middle", "bold"))
    drawn.append(f'<path d="M{x} {top - 38} v12 m-4 -5 l4 5 l4 -5" fill="none" stroke="{INK}" stroke-width="1.5"/>')
    return drawn


def bracket(places, top, words):
    x, end = LEFT + places[0] * BOX + 4, LEFT + (places[-1] + 1) * BOX - 4
    return [
        f'<path d="M{x} {top} v8 H{end} v-8" fill="none" stroke="{INK}"/>',
        text((x + end) // 2, top + 26, words, 14, "middle"),
    ]


def picture():
    ring = Ring()
    for item in range(1, PUSHES):
        ring.push(item)
    before, start, oldest = Ring(), ring.start, ring.slots[ring.start]
    before.slots, before.start, before.len = list(ring.slots), ring.start, ring.len
    read, written = ring.push(PUSHES)
    side = LEFT + SIZE * BOX + 20
    first, second = ring.slices()
    items = lambda places: ", ".join(str(ring.slots[place]) for place in places)
    drawn = [
        text(LEFT, 32, f"A push onto a full heap ring: capacity {CAPACITY}, memory for {SIZE} items, mask = {MASK}", 17, weight="bold"),
        *row(before, 120, {read: READ}),
        text(side, 128, "put_over reads and empties", 14),
        text(side, 148, f"place start = {read}: item {oldest}", 14),
        text(side, 168, "gives way and is handed back", 14),
        *row(ring, 268, {written: WRITTEN}),
        text(side, 276, "it writes place", 14),
        text(side, 296, f"(start + len) &amp; mask = ({start} + {CAPACITY}) &amp; {MASK} = {written},", 14),
        text(side, 316, f"and start = ({start} + 1) &amp; {MASK} = {ring.start}; len stays", 14),
        *bracket(first, 324, f"as_slices().0 = [{items(first)}]"),
        *bracket(second, 324, f"as_slices().1 = [{items(second)}]"),
        text(LEFT, 388, f"get(k) reads place (start + k) &amp; mask, for k below len. get_signed(-1) is the newest: ({ring.start} + {ring.len - 1}) &amp; {MASK} = {ring.place(ring.len - 1)}.", 14),
    ]
    return (
        f'<svg xmlns="http://www.w3.org/2000/svg" viewBox="0 0 {WIDTH} 410" font-family="sans-serif">\n'
        f'<rect width="{WIDTH}" height="410" fill="white"/>\n' + "\n".join(drawn) + "\n</svg>\n"
    )


def main():
    for file, names in NAMES.items():
        code = (ROOT / file).read_text(encoding="utf-8")
        for name in names:
            if name not in code:
                sys.exit(f"{file} has no {name}: the picture says what is no more")
    sys.stdout.write(picture())


main()
