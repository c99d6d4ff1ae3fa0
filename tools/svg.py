"""A picture as SVG text: boxes, lines and words at places in pixels."""

from html import escape

FONT = "font-family='monospace' font-size='12'"


class BadInput(Exception):
    """What is read is not what a picture is made of."""


class Picture:
    """What is drawn so far, and how far right and down it goes."""

    def __init__(self):
        self.parts, self.right, self.down = [], 0, 0

    def reach(self, x, y):
        self.right, self.down = max(self.right, x), max(self.down, y)

    def box(self, x, y, width, height, fill="white", stroke="#444"):
        self.reach(x + width, y + height)
        self.parts.append(f"<rect x='{x:g}' y='{y:g}' width='{width:g}' height='{height:g}' rx='3' fill='{fill}' stroke='{stroke}'/>")

    def words(self, x, y, text, anchor="start", fill="#111"):
        """Words whose foot is at y; to the right of x, to its left, or around it (`start`, `end`, `middle`)."""
        width = 7.3 * len(text)
        self.reach(x + {"start": width, "end": 0, "middle": width / 2}[anchor], y + 4)
        self.parts.append(f"<text x='{x:g}' y='{y:g}' {FONT} fill='{fill}' text-anchor='{anchor}'>{escape(text)}</text>")

    def line(self, x, y, to_x, to_y, ends="", stroke="#444", dash=""):
        """A line; `ends` has `<` and `>` for a head at its start and at its end."""
        self.reach(max(x, to_x), max(y, to_y))
        heads = (" marker-start='url(#head)'" if "<" in ends else "") + (" marker-end='url(#head)'" if ">" in ends else "")
        dashed = f" stroke-dasharray='{dash}'" if dash else ""
        self.parts.append(f"<line x1='{x:g}' y1='{y:g}' x2='{to_x:g}' y2='{to_y:g}' stroke='{stroke}'{dashed}{heads}/>")

    def text(self):
        width, height = self.right + 12, self.down + 12
        head = (
            f"<svg xmlns='http://www.w3.org/2000/svg' width='{width:g}' height='{height:g}' viewBox='0 0 {width:g} {height:g}'>"
            "<defs><marker id='head' viewBox='0 0 8 8' refX='8' refY='4' markerWidth='7' markerHeight='7' orient='auto-start-reverse'>"
            "<path d='M0,0 L8,4 L0,8 z' fill='#444'/></marker></defs>"
            f"<rect width='{width:g}' height='{height:g}' fill='white'/>"
        )
        return "\n".join([head, *self.parts, "</svg>"])
