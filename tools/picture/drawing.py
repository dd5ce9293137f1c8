"""Writes a scene as SVG, or as a page of HTML around it."""

from __future__ import annotations

from collections.abc import Iterator
from html import escape

from scene import FONT, TITLE, Arrow, Box, Group, Item, Label, Line, Mark, Scene, Shape

# Colours for light and dark background, by name.
COLOURS = {
    "paper": ("#ffffff", "#0d1117"),
    "ink": ("#1f2328", "#e6edf3"),
    "soft": ("#59636e", "#9198a1"),
    "faint": ("#d1d9e0", "#30363d"),
    "band": ("#f3f5f7", "#171c24"),
    "gives": ("#54aeff", "#388bfd"),
    "revokes": ("#ff8182", "#da3633"),
    "helped": ("#d4a72c", "#d29922"),
    "unknown": ("#818b98", "#7d8590"),
}
# Colours that tell scheduling contexts or protection domains apart.
PALETTE = (
    ("#0969da", "#58a6ff"),
    ("#bc4c00", "#f0883e"),
    ("#1a7f37", "#3fb950"),
    ("#8250df", "#bc8cff"),
    ("#bf3989", "#f778ba"),
    ("#0f7b83", "#39c5cf"),
    ("#7d4e00", "#d8b53a"),
    ("#cf222e", "#ff7b72"),
)
# Marks with a hole, in which nothing else is seen.
HOLLOW = frozenset({Shape.RING, Shape.SLASHED, Shape.MINUS, Shape.STRUCK, Shape.CLOCK})
# Rules without colours.
SHAPES = f"""\
text{{font:{FONT}px ui-monospace,"DejaVu Sans Mono",Menlo,Consolas,monospace;fill:currentColor;white-space:pre}}
.title{{font-size:{TITLE}px;font-weight:bold}}
.head{{font-weight:bold}}
.small{{font-size:9px}}
.mid{{text-anchor:middle}}
.end{{text-anchor:end}}
path{{fill-rule:evenodd}}
line,polygon{{stroke:currentColor}}
.head-full{{fill:currentColor}}
.runs{{stroke-width:2}}
.parked{{stroke-width:1;stroke-dasharray:1 4}}
.waits{{stroke-width:1.5;stroke-dasharray:5 4}}
.helps{{stroke-width:2;stroke-dasharray:2 2}}
.call,.exit,.reply,.help,.abort,.wake,.make{{stroke-width:1.3}}
.reply{{stroke-dasharray:6 3}}
.help{{stroke-dasharray:2 2}}
.wake{{stroke-dasharray:8 3 2 3}}
.make{{stroke-dasharray:1 3}}
.unsure{{opacity:.5}}
.frame{{fill:none;stroke:currentColor}}
.gone{{stroke-dasharray:3 3}}
.bar{{opacity:.45}}
.hit{{fill:transparent}}"""


def _colours(theme: int) -> str:
    """The rules of the light (0) or dark (1) background."""
    named = {name: both[theme] for name, both in COLOURS.items()}
    rules = [
        f"svg{{color:{named['ink']}}}",
        f".paper{{fill:{named['paper']}}}",
        f"text.soft{{fill:{named['soft']}}}",
        f".guide{{stroke:{named['faint']}}}",
        f".rule{{stroke:{named['soft']}}}",
        f".headbox{{fill:{named['paper']};stroke:{named['soft']}}}",
        f".head-open,.hollow,text.on{{fill:{named['paper']}}}",
        f".band{{fill:{named['band']}}}",
        f".tick{{fill:{named['soft']}}}",
        f".halo{{stroke:{named['paper']};stroke-width:1.5;paint-order:stroke}}",
    ]
    rules += [f".{name}{{fill:{named[name]}}}" for name in ("gives", "revokes", "helped", "unknown")]
    for at, both in enumerate(PALETTE):
        rules.append(f".c{at}{{fill:{both[theme]}}}.s{at}{{stop-color:{both[theme]}}}.r-c{at}{{stroke:{both[theme]}}}")
    return "\n".join(rules)


def style() -> str:
    """The style sheet, for light background and, where the reader's system asks for it, for dark."""
    return f"{SHAPES}\n{_colours(0)}\n@media (prefers-color-scheme: dark){{\n{_colours(1)}\n}}"


def colour(rank: int) -> str:
    """The class of the colour of that rank; the colours come again after the last one."""
    return f"c{rank % len(PALETTE)}"


def number(value: float) -> str:
    """A number of pixels, to a tenth."""
    return f"{value:.1f}".removesuffix(".0")


def _class(name: str) -> str:
    return f' class="{name}"' if name else ""


def _blend(colours: tuple[str, ...]) -> str:
    return "blend-" + "-".join(colours)


def _draw(item: Item) -> Iterator[str]:
    match item:
        case Line():
            ends = f'x1="{number(item.x1)}" y1="{number(item.y1)}" x2="{number(item.x2)}" y2="{number(item.y2)}"'
            yield f"<line{_class(item.style)} {ends}/>"
        case Box():
            corners = f' rx="{number(item.round)}"' if item.round else ""
            size = f'width="{number(item.width)}" height="{number(item.height)}"'
            yield f'<rect{_class(item.style)} x="{number(item.x)}" y="{number(item.y)}" {size}{corners}/>'
        case Label():
            text = escape(item.text, quote=False)
            yield f'<text{_class(item.style)} x="{number(item.x)}" y="{number(item.y)}">{text}</text>'
        case Mark():
            yield _draw_mark(item)
        case Arrow():
            yield from _draw_arrow(item)
        case Group():
            yield f"<g><title>{escape(item.hint, quote=False)}</title>"
            for inner in item.items:
                yield from _draw(inner)
            yield "</g>"


def _draw_mark(mark: Mark) -> str:
    x, y, name = number(mark.x), number(mark.y), mark.shape.name.lower()
    ground = f'<circle class="paper" cx="{x}" cy="{y}" r="5"/>' if mark.shape in HOLLOW else ""
    one = len(mark.colours) == 1
    filled = f'class="halo {mark.colours[0]}"' if one else f'class="halo" fill="url(#{_blend(mark.colours)})"'
    return f'{ground}<use {filled} href="#{name}" x="{x}" y="{y}"/>'


def _draw_arrow(arrow: Arrow) -> Iterator[str]:
    back = -7.0 if arrow.x2 > arrow.x1 else 7.0
    neck = arrow.x2 + back
    yield from _draw(Line(arrow.x1, arrow.y, neck, arrow.y, arrow.style))
    points = " ".join(f"{number(x)},{number(y)}" for x, y in ((neck, arrow.y - 4), (arrow.x2, arrow.y), (neck, arrow.y + 4)))
    yield f'<polygon class="{"head-open" if arrow.open_head else "head-full"}" points="{points}"/>'


def _marks(items: list[Item] | tuple[Item, ...]) -> Iterator[Mark]:
    for item in items:
        if isinstance(item, Mark):
            yield item
        elif isinstance(item, Group):
            yield from _marks(item.items)


def _definitions(scene: Scene) -> Iterator[str]:
    """The outlines of the marks that are drawn, and the blends of several colours."""
    marks = list(_marks(scene.items))
    drawn = {mark.shape for mark in marks}
    for shape in Shape:
        if shape in drawn:
            yield f'<path id="{shape.name.lower()}" d="{shape.value}"/>'
    for colours in sorted({mark.colours for mark in marks if len(mark.colours) > 1}):
        yield f'<linearGradient id="{_blend(colours)}">'
        for at, name in enumerate(colours):
            stop = "s" + name[1:]
            for end in (at, at + 1):
                yield f'<stop class="{stop}" offset="{end / len(colours):.3f}"/>'
        yield "</linearGradient>"


def svg(scene: Scene) -> str:
    """The picture as SVG."""
    size = f'width="{number(scene.width)}" height="{number(scene.height)}"'
    box = f'viewBox="0 0 {number(scene.width)} {number(scene.height)}"'
    lines = [
        f'<svg xmlns="http://www.w3.org/2000/svg" {size} {box} role="img" aria-label="{escape(scene.title)}">',
        f"<style>\n{style()}\n</style>",
        "<defs>",
        *_definitions(scene),
        "</defs>",
        '<rect class="paper" width="100%" height="100%"/>',
    ]
    for item in scene.items:
        lines.extend(_draw(item))
    lines.append("</svg>")
    return "\n".join(lines) + "\n"


PAGE = """\
<!doctype html>
<html lang="en">
<meta charset="utf-8">
<title>{title}</title>
<style>
:root{{color-scheme:light dark}}
body{{margin:0;padding-bottom:2.5em}}
#line{{position:fixed;left:0;right:0;bottom:0;min-height:1.3em;margin:0;padding:.5em 1em;font:13px monospace;white-space:pre-wrap;\
background:Canvas;color:CanvasText;border-top:1px solid GrayText}}
</style>
{svg}<pre id="line">Rest the pointer on a mark to see its line of the report.</pre>
<script>
const line = document.getElementById("line");
document.querySelector("svg").addEventListener("pointerover", (event) => {{
  const mark = event.target.closest("g");
  if (mark) line.textContent = mark.querySelector("title").textContent;
}});
</script>
</html>
"""


def page(scene: Scene) -> str:
    """The picture in a page of HTML, which shows the hint of what the pointer rests on at its lower end."""
    return PAGE.format(title=escape(scene.title), svg=svg(scene))
