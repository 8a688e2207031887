"""Pictures of a build, as shapes with their places; a template draws frames, then curves, then labels."""

from collections.abc import Sequence
from dataclasses import dataclass

from cnb.report.layers import Layer, Stack
from cnb.report.text import cut, size
from cnb.report.tried import PlanMember, edges

WIDTH = 360
PILL, ROW, GAP, TITLE = 20, 26, 12, 26


@dataclass(frozen=True)
class Label:
    """A box with a text that may be cut, and the whole text."""

    x: int
    y: int
    width: int
    height: int
    text: str
    whole: str
    kind: str
    note: str = ""


@dataclass(frozen=True)
class Curve:
    """A curve from the right of one box to the left of another."""

    x: int
    y: int
    to_x: int
    to_y: int
    kind: str

    @property
    def path(self) -> str:
        middle = (self.x + self.to_x) // 2
        return f"M{self.x},{self.y} C{middle},{self.y} {middle},{self.to_y} {self.to_x},{self.to_y}"


@dataclass(frozen=True)
class Picture:
    title: str
    description: str
    height: int
    frames: Sequence[Label]
    curves: Sequence[Curve]
    labels: Sequence[Label]


# The plan: a box for each member from the top down, what it provides at its left and what it requires at its right.

PILL_WIDTH = 138
LEFT, RIGHT = 12, WIDTH - 12 - PILL_WIDTH
PILL_LETTERS, TITLE_LETTERS, ROW_LETTERS = 19, 46, 13
MOST_NAMES, MOST_MEMBERS, MOST_CURVES = 40, 60, 2_000


def plan_picture(plan: Sequence[PlanMember]) -> Picture:
    """Who provides what to whom."""
    boxes: list[Label] = []
    pills: dict[tuple[int, str, str], Label] = {}
    top = 1
    for place, member in enumerate(plan[:MOST_MEMBERS]):
        rows = max(len(member.provides[:MOST_NAMES]), len(member.requires[:MOST_NAMES]))
        height = TITLE + rows * ROW + (4 if rows else 0)
        boxes.append(Label(1, top, WIDTH - 2, height, cut(member.name, TITLE_LETTERS), cut(member.name, 300), "member"))
        for kind, names, x in (("provides", member.provides, LEFT), ("requires", member.requires, RIGHT)):
            for at, name in enumerate(names[:MOST_NAMES]):
                pills[place, kind, name] = _pill(x, top + TITLE + at * ROW, name, kind)
        top += height + GAP
    curves = [
        _between(pills[place, "provides", name], pills[other, "requires", name], "plan")
        for place, other, name in edges(plan[:MOST_MEMBERS])
        if (place, "provides", name) in pills and (other, "requires", name) in pills
    ][:MOST_CURVES]
    said = [f"{plan[other].name} is provided {name} by {plan[place].name}" for place, other, name in edges(plan[:MOST_MEMBERS])]
    return Picture("Who provides what to whom", cut(". ".join(said), 2_000), top, boxes, curves, list(pills.values()))


def _pill(x: int, y: int, name: str, kind: str) -> Label:
    return Label(x, y, PILL_WIDTH, PILL, cut(name, PILL_LETTERS), cut(name, 300), kind)


def _between(one: Label, other: Label, kind: str) -> Curve:
    return Curve(one.x + one.width, one.y + one.height // 2, other.x, other.y + other.height // 2, kind)


# The image: its rows from the top down, beside those of the image before.

COLUMN = 152
HEAD = 22


def stack_picture(stack: Stack, most: int) -> Picture:
    """The rows of an image beside those of the image before; of more than `most` rows the uppermost."""
    now, before = list(reversed(stack.now))[:most], list(reversed(stack.before))[:most]
    x = WIDTH - 1 - COLUMN if before else (WIDTH - COLUMN) // 2
    right = [_layer(x, at, layer, layer.state.replace(" ", "-")) for at, layer in enumerate(now)]
    left = [_layer(1, at, layer, "before") for at, layer in enumerate(before)]
    places = {layer.row.digest: at for at, layer in reversed(list(enumerate(before)))}
    curves = [
        _between(left[places[layer.row.digest]], right[at], layer.state) for at, layer in enumerate(now) if layer.row.digest in places
    ]
    heads = [Label(x, 0, COLUMN, HEAD - 4, "this build", "", "head")] if now else []
    heads += [Label(1, 0, COLUMN, HEAD - 4, "the build before", "", "head")] if before else []
    said = [f"{layer.name}, {size(layer.size)}, {layer.state}" for layer in now]
    height = HEAD + max(len(now), len(before)) * (ROW + 4) + 1
    return Picture("The rows of the image, from the top down", cut("; ".join(said), 2_000), height, (), curves, [*heads, *left, *right])


def _layer(x: int, at: int, layer: Layer, kind: str) -> Label:
    whole = f"{layer.row.by}, at {layer.row.place}, {size(layer.size)}"
    note = size(layer.size) if layer.size is not None else "?"
    return Label(x, HEAD + at * (ROW + 4), COLUMN, ROW, cut(layer.name, ROW_LETTERS), cut(whole, 300), kind, note)
