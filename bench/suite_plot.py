"""Draws the suite's figures as an SVG: the ratio of each row, and what an item costs by the size of its operand.

No library is needed. The drawing has a ground of its own, so it can be read on a light page and on a dark one; where
the reader asks for dark colours, it takes them.
"""
import math
from xml.sax.saxutils import escape

WIDTH, MARGIN = 960, 20
LINE, HEADING = 15, 26  # heights in the panel of ratios
LABELS, RATIOS_END = 118, 500  # where labels end and the panel of ratios does
COSTS, COSTS_END, COST_HEIGHT = 575, 872, 156  # the panels of costs
TICKS = [digit * 10.0**power for power in range(-3, 7) for digit in (1, 2, 5)]
# How each kind of line, dot and text looks, whatever the page; and its colours on a light page and on a dark one.
SHAPES = """
text { font: 12px -apple-system, "Segoe UI", "DejaVu Sans", sans-serif; stroke: none !important }
.title { font-size: 15px; font-weight: 600 } .heading { font-weight: 600 } .soft { font-size: 11px }
.even, .bar { stroke-width: 1.5 } .bar { stroke-dasharray: 3 2 } circle { fill-opacity: 0.4 }
path.curve { fill: none; stroke-width: 2 } .other { stroke-dasharray: 2 4 }
"""
COLOURS = {
    "text": ("#1f2328", "#e6edf3"), ".soft": ("#59636e", "#9198a1"), ".grid": ("#d8dee4", "#2a313c"),
    ".even, .bar": ("#1f2328", "#e6edf3"), ".meets, .of0": ("#2a78d6", "#58a6ff"),
    ".misses, .of1": ("#d9480f", "#ff922b"), ".of2": ("#2b8a3e", "#56d364"), ".of3": ("#9c36b5", "#da77f2"),
}
GROUND = (".ground { fill: #ffffff; stroke: #d1d9e0 }\n", ".ground { fill: #0d1117; stroke: #3d444d }\n")
# The panels of costs: a part, what stands under the heading, and the operations that are drawn.
COST_PANELS = (
    ("b", "long texts, by the byte", ("set", "escape", "slice", "reverse")),
    ("c", "maps, by the pair", ("set", "eq", "cmp", "print")),
    ("c", "maps, by the look-up", ("item", "attr", "path")),
    ("d", "arrays, by the item", ("set", "eq", "reverse", "print")),
)


def colours(page):
    """The styles of one page, light (0) or dark (1)."""
    told = (f"{kinds} {{ fill: {it[page]}; stroke: {it[page]} }}\n" for kinds, it in COLOURS.items())
    return "".join(told) + GROUND[page]


class Picture:
    def __init__(self):
        self.parts = []

    def text(self, x, y, words, kind="", anchor="start"):
        self.parts.append(f'<text x="{x:.1f}" y="{y:.1f}" class="{kind}" text-anchor="{anchor}">{escape(words)}</text>')

    def line(self, x, y, to_x, to_y, kind):
        self.parts.append(f'<path d="M{x:.1f} {y:.1f}L{to_x:.1f} {to_y:.1f}" class="{kind}"/>')

    def curve(self, points, kind):
        told = "L".join(f"{x:.1f} {y:.1f}" for x, y in points)
        self.parts.append(f'<path d="M{told}" class="curve {kind}"/>')

    def dot(self, x, y, radius, kind, words=""):
        title = f"<title>{escape(words)}</title>"
        self.parts.append(f'<circle cx="{x:.1f}" cy="{y:.1f}" r="{radius}" class="{kind}">{title}</circle>')

    def save(self, path, height):
        ground = f'<rect x="0.5" y="0.5" width="{WIDTH - 1}" height="{height - 1:.0f}" rx="6" class="ground"/>'
        style = f"<style>{SHAPES}{colours(0)}@media (prefers-color-scheme: dark) {{\n{colours(1)}}}\n</style>"
        size = f'viewBox="0 0 {WIDTH} {height:.0f}" width="{WIDTH}" height="{height:.0f}"'
        with open(path, "w", encoding="utf-8") as it:
            it.write(f'<svg xmlns="http://www.w3.org/2000/svg" {size}>\n{style}\n{ground}\n')
            it.write("\n".join(self.parts) + "\n</svg>\n")


def log_scale(low, high, start, end):
    """Where a number between the two stands, on a scale of logarithms."""
    return lambda it: start + (end - start) * math.log(it / low) / math.log(high / low)


def around(numbers):
    """The nearest ticks below and above all of them."""
    low, high = min(numbers), max(numbers)
    return max(it for it in TICKS if it <= low), min(it for it in TICKS if it >= high and it > low)


def short_number(number):
    if number >= 1000:
        return f"{number / 1000:g}k" if number < 1_000_000 else f"{number / 1_000_000:g}m"
    return f"{number:g}"


# ---- ratios


def groups(results):
    """Headings, and below them labels, each with its rows: those that have a bar and a ratio."""
    made = {}
    for it in results:
        row = it.row
        part = "maps in maps" if row.part == "c" and row.kind else "others" if row.part in "zf" else row.heading
        label = row.operation + (", ascii" if row.kind == "ascii" else "")
        if row.bar and it.ratio(it.instructions):
            made.setdefault(part, {}).setdefault(label, []).append(it)
    return sorted(made.items(), key=lambda it: it[0] == "others")


def draw_ratios(picture, results, name, top):
    """A line for each operation and a dot for each size; answers where the panel ends."""
    picture.text(MARGIN, top, f"Instructions: {name} against the best other", "title")
    picture.text(MARGIN, top + 18, "a dot is a row of the suite, larger where its operand is;", "soft")
    picture.text(MARGIN, top + 33, "orange is over its bar: 1, or 0.5 where a dashed line stands", "soft")
    lines, start = [], top + 60
    end = start
    for part, labels in groups(results):
        end += HEADING
        picture.text(MARGIN, end - 8, part, "heading")
        for label, rows in labels.items():
            picture.text(LABELS, end + LINE / 2, label, "soft", "end")
            picture.line(LABELS + 10, end + LINE / 2 - 4, RATIOS_END, end + LINE / 2 - 4, "grid")
            lines.append((end + LINE / 2 - 4, [(it, it.ratio(it.instructions)) for it in rows]))
            end += LINE
    low, high = around([ratio for _, rows in lines for _, ratio in rows] + [0.2, 1.5])
    place = log_scale(low, high, LABELS + 10, RATIOS_END)
    for tick in (it for it in TICKS if low <= it <= high):
        picture.line(place(tick), start - 4, place(tick), end, "even" if tick == 1 else "grid")
        for y in (start - 8, end + 14):
            picture.text(place(tick), y, short_number(tick), "soft", "middle")
    for y, rows in lines:
        draw_rows(picture, rows, y, place)
    return end + 20


def draw_rows(picture, rows, y, place):
    """The rows of one operation, the largest dots first."""
    bar = rows[0][0].row.bar
    if bar < 1:
        picture.line(place(bar), y - LINE / 2, place(bar), y + LINE / 2, "bar")
    for turn, (it, ratio) in reversed(list(enumerate(rows))):
        radius = 3 + 1.2 * turn if len(rows) > 1 else 4
        picture.dot(place(ratio), y, radius, "misses" if ratio > bar else "meets", f"{it.row.name}: {ratio:.3f}")


# ---- costs


def draws_cost(row):
    """Whether the row is one whose cost is drawn, if it is measured."""
    return bool(row.size) and not row.kind and any(row.part == it and row.operation in of for it, _, of in COST_PANELS)


def costs(results, part, operation):
    """The sizes of an operation, with what an item costs the last program and the best other."""
    rows = [it for it in results if it.row.part == part and it.row.operation == operation and not it.row.kind]
    return [(it.row.size, *cost) for it in rows if it.row.size and (cost := it.costs())]


def draw_costs(picture, results, name, top):
    picture.text(COSTS - 40, top, "Instructions by size", "title")
    picture.text(COSTS - 40, top + 18, f"solid: {name}; dotted: the best other;", "soft")
    picture.text(COSTS - 40, top + 33, "what setting the operands takes is left out", "soft")
    top += 72
    for part, words, operations in COST_PANELS:
        drawn = {it: found for it in operations if len(found := costs(results, part, it)) > 1}
        if drawn:
            draw_cost_panel(picture, words, drawn, top)
            top += COST_HEIGHT + 58
    return top


def draw_cost_panel(picture, words, drawn, top):
    points = [it for found in drawn.values() for it in found]
    sizes = sorted({it[0] for it in points})
    low, high = around([cost for _, *both in points for cost in both])
    x = log_scale(sizes[0], sizes[-1], COSTS, COSTS_END)
    y = log_scale(low, high, top + COST_HEIGHT, top)
    picture.text(COSTS - 40, top - 10, words, "heading")
    for size in sizes:
        picture.line(x(size), top, x(size), top + COST_HEIGHT, "grid")
        picture.text(x(size), top + COST_HEIGHT + 15, short_number(size), "soft", "middle")
    ticks = [it for it in TICKS if low <= it <= high]
    ticks = ticks if len(ticks) < 8 else [it for it in ticks if math.log10(it) % 1 < 1e-9]
    for tick in ticks:
        picture.line(COSTS, y(tick), COSTS_END, y(tick), "grid")
        picture.text(COSTS - 8, y(tick) + 4, short_number(tick), "soft", "end")
    ends = {}
    for turn, (operation, found) in enumerate(drawn.items()):
        picture.curve([(x(size), y(best)) for size, _, best in found], f"of{turn} other")
        picture.curve([(x(size), y(ours)) for size, ours, _ in found], f"of{turn}")
        for size, ours, _ in found:
            picture.dot(x(size), y(ours), 2.5, f"of{turn}", f"{operation}, {size}: {ours:.1f}")
        ends[operation] = (y(found[-1][1]), f"of{turn}")
    for operation, (at, kind) in apart(ends).items():
        picture.text(COSTS_END + 10, at + 4, operation, kind)


def apart(ends, room=13):
    """The same labels, moved down where they would stand on one another."""
    made, last = {}, -math.inf
    for name, (at, kind) in sorted(ends.items(), key=lambda it: it[1]):
        last = max(at, last + room)
        made[name] = (last, kind)
    return made


def draw(path, results, names):
    picture = Picture()
    ends = [draw_ratios(picture, results, names[-1], 34), draw_costs(picture, results, names[-1], 34)]
    picture.save(path, max(ends) + 12)
