"""An SVG in black and white that is written part by part: lines and boxes, and above all of them
the texts."""
from html import escape

MARGIN = 14
LETTER = 6.3  # width of a letter of 11 px, about
HALF_TAG = 10  # half the height of a box or a tag
STYLE = (
    "text{font:11px 'DejaVu Sans',Verdana,sans-serif;paint-order:stroke;stroke:#fff;"
    "stroke-width:3px;stroke-linejoin:round}"
    ".middle{text-anchor:middle}.on-black{fill:#fff;stroke:none}.grey{fill:#444}"
    ".bold{font-weight:bold}.large{font-size:14px}"
)


def width_of(text: str, size: int = 11) -> float:
    return len(text) * LETTER * size / 11


class Picture:
    def __init__(self) -> None:
        self.parts, self.texts = list[str](), list[str]()
        self.width: float = 0
        self.y: float = MARGIN

    def add(self, text: str, right: float = 0) -> None:
        self.parts.append(text)
        self.width = max(self.width, right + MARGIN)

    def text(
        self,
        x: float,
        y: float,
        text: str,
        look: str = "",
        most: int | None = None,
        widens: bool = True,
    ) -> None:
        """Writes a text from x on, or around x where its look is `middle`. A text longer than
        `most` letters is cut."""
        shown = text if most is None or len(text) <= most else text[: most - 1] + "…"
        told = f"<title>{escape(text)}</title>" if shown != text else ""
        attribute = f' class="{look}"' if look else ""
        self.texts.append(f'<text x="{x:g}" y="{y:g}"{attribute}>{told}{escape(shown)}</text>')
        if widens and "middle" not in look:
            self.width = max(
                self.width, x + width_of(shown, 14 if "large" in look else 11) + MARGIN
            )

    def line(
        self,
        x: float,
        y: float,
        to_x: float,
        to_y: float,
        width: float = 1,
        dash: str = "",
        color: str = "black",
    ) -> None:
        # dashes of lines that meet go on
        start = (
            f' stroke-dashoffset="{x % sum(map(float, dash.split())):g}"'
            if dash and y == to_y
            else ""
        )
        dashes = f' stroke-dasharray="{dash}"{start}' if dash else ""
        self.add(
            f'<line x1="{x:g}" y1="{y:g}" x2="{to_x:g}" y2="{to_y:g}" stroke="{color}" '
            f'stroke-width="{width:g}"{dashes}/>',
            to_x,
        )

    def box(
        self,
        x: float,
        y: float,
        width: float,
        height: float,
        fill: str = "white",
        stroke: str = "black",
        dash: str = "",
        round: int = 0,
    ) -> None:
        dashes = f' stroke-dasharray="{dash}"' if dash else ""
        self.add(
            f'<rect x="{x:g}" y="{y:g}" width="{width:g}" height="{height:g}" rx="{round}" '
            f'fill="{fill}" '
            f'stroke="{stroke}"{dashes}/>',
            x + width,
        )

    def tag(self, x: float, y: float, width: float, dash: str = "") -> None:
        """A box around x that points back, to the left."""
        left, right, dashes = (
            x - width / 2 - 3,
            x + width / 2,
            f' stroke-dasharray="{dash}"' if dash else "",
        )
        self.add(
            f'<path d="M{left:g} {y:g} l9 {-HALF_TAG} H{right:g} v{2 * HALF_TAG} H{left + 9:g} z" '
            'fill="white" '
            f'stroke="black"{dashes}/>',
            right,
        )

    def circle(
        self, x: float, y: float, radius: float, fill: str = "white", dash: str = ""
    ) -> None:
        dashes = f' stroke-dasharray="{dash}"' if dash else ""
        self.add(
            f'<circle cx="{x:g}" cy="{y:g}" r="{radius:g}" fill="{fill}" stroke="black"{dashes}/>'
        )

    def cross(self, x: float, y: float, size: float) -> None:
        self.line(x - size, y - size, x + size, y + size, 2)
        self.line(x - size, y + size, x + size, y - size, 2)

    def end(self, x: float, y: float, committed: bool) -> None:
        self.circle(x, y, 7, "black" if committed else "white")
        if not committed:
            self.cross(x, y, 4)

    def triangle(self, x: float, y: float, up: bool) -> None:
        tip, base = (y - 8, y + 6) if up else (y + 8, y - 6)
        self.add(
            f'<path d="M{x:g} {tip:g} L{x - 8:g} {base:g} L{x + 8:g} {base:g} Z" '
            f'fill="{"white" if up else "black"}" '
            f'stroke="black"/>'
        )

    def arrow_head(self, x: float, y: float) -> None:
        self.add(f'<path d="M{x:g} {y:g} l-7 -4 v8 z"/>')

    def svg(self, title: str, description: str) -> str:
        width, height = round(self.width), round(self.y + MARGIN)
        return "\n".join(
            [
                f'<svg xmlns="http://www.w3.org/2000/svg" viewBox="0 0 {width} {height}" '
                f'width="{width}" height="{height}" '
                'role="img" aria-labelledby="title description">',
                f'<title id="title">{escape(title)}</title>',
                f'<desc id="description">{escape(description)}</desc>',
                f"<style>{STYLE}</style>",
                '<defs><pattern id="down" width="6" height="6" patternUnits="userSpaceOnUse" '
                'patternTransform="rotate(45)">'
                '<line x1="0" y1="0" x2="0" y2="6" stroke="#777" '
                'stroke-width="2"/></pattern></defs>',
                f'<rect width="{width}" height="{height}" fill="white"/>',
                *self.parts,
                *self.texts,
                "</svg>",
                "",
            ]
        )
