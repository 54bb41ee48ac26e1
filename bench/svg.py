"""What the drawings share: marks of SVG, and colours that follow the reader's choice of light or dark."""

from html import escape

WIDTH = 760
STYLE = """
  .card { fill: #ffffff; stroke: #d0d7de; }
  text { font: 12px system-ui, sans-serif; fill: #1f2328; }
  .title { font-size: 15px; font-weight: 600; }
  .head { font-size: 13px; font-weight: 600; }
  .soft { fill: #59636e; }
  .small { font-size: 10px; }
  .code { font: 12px ui-monospace, "DejaVu Sans Mono", monospace; }
  .byte { font: 11px ui-monospace, "DejaVu Sans Mono", monospace; }
  .halo { paint-order: stroke; stroke: #ffffff; stroke-width: 4px; }
  .box { fill: #f6f8fa; stroke: #afb8c1; }
  .grid { stroke: #d8dee4; }
  .line { fill: none; stroke: #afb8c1; stroke-width: 1.5; }
  .a0 { fill: #0969da; } .a1 { fill: #1a7f37; } .a2 { fill: #8250df; } .a3 { fill: #9a6700; } .grey { fill: #8c959f; }
  .l0 { stroke: #0969da; } .l1 { stroke: #1a7f37; } .l2 { stroke: #8250df; } .l3 { stroke: #9a6700; } .way { stroke: #cf222e; }
  .t0 { fill: #ddf4ff; stroke: #54aeff; } .t1 { fill: #dafbe1; stroke: #4ac26b; } .t2 { fill: #fbefff; stroke: #c297ff; } .t3 { fill: #fff8c5; stroke: #d4a72c; }
  .red { fill: #cf222e; }
  @media (prefers-color-scheme: dark) {
    .card { fill: #0d1117; stroke: #3d444d; }
    text { fill: #e6edf3; }
    .soft { fill: #9198a1; }
    .halo { stroke: #0d1117; }
    .box { fill: #151b23; stroke: #656c76; }
    .grid { stroke: #30363d; }
    .line { stroke: #656c76; }
    .a0 { fill: #58a6ff; } .a1 { fill: #3fb950; } .a2 { fill: #bc8cff; } .a3 { fill: #d29922; } .grey { fill: #7d8590; }
    .l0 { stroke: #58a6ff; } .l1 { stroke: #3fb950; } .l2 { stroke: #bc8cff; } .l3 { stroke: #d29922; } .way { stroke: #ff7b72; }
    .t0 { fill: #0c2d4f; stroke: #1f6feb; } .t1 { fill: #0f3320; stroke: #238636; } .t2 { fill: #2d1c4d; stroke: #8957e5; } .t3 { fill: #3a2a05; stroke: #9e6a03; }
    .red { fill: #ff7b72; }
  }
"""


def text(x: float, y: float, words: str, kind: str = "", anchor: str = "middle") -> str:
    return f'<text class="{kind}" x="{x:g}" y="{y:g}" text-anchor="{anchor}">{words}</text>'


def box(x: float, y: float, width: float, height: float, kind: str = "box") -> str:
    return f'<rect class="{kind}" x="{x:g}" y="{y:g}" width="{width:g}" height="{height:g}" rx="4"/>'


def path(kind: str, way: str, end: str = "") -> str:
    """A line or an arrow; `end` is a further attribute."""
    return f'<path class="{kind}" d="{way}"{end and " "}{end}/>'


def spaced(words: str) -> str:
    """Text in which spaces stay as they are."""
    return words.replace(" ", "\u00a0")


def said(words: str) -> str:
    """Text whose signs mean nothing to SVG."""
    return escape(words)


def tip(name: str, colour: str) -> str:
    """The head of an arrow. A colour in brackets is a class."""
    look = f'class="{colour[1:-1]}"' if colour.startswith("[") else f'fill="{colour}"'
    return (
        f'<defs><marker id="{name}" viewBox="0 0 8 8" refX="7" refY="4" markerWidth="8" markerHeight="8" markerUnits="userSpaceOnUse" orient="auto">'
        f'<path {look} d="M0 0.5 8 4 0 7.5z"/></marker></defs>'
    )


def page(title: str, height: float, marks: list[str], style: str = STYLE) -> str:
    """A drawing on a card of its own."""
    return "\n".join(
        [
            f'<svg xmlns="http://www.w3.org/2000/svg" viewBox="0 0 {WIDTH} {height:g}" width="{WIDTH}" height="{height:g}" role="img">',
            f"<title>{title}</title>",
            f"<style>{style}</style>",
            f'<rect class="card" x="0.5" y="0.5" width="{WIDTH - 1}" height="{height - 1:g}" rx="6"/>',
            *marks,
            "</svg>\n",
        ]
    )
