"""A picture as SVG, shape by shape. No text is measured, so that a picture is the same on each machine."""
from xml.sax.saxutils import escape

FONT = "DejaVu Sans, Helvetica, Arial, sans-serif"
BLUE, GREEN, YELLOW, RED, VIOLET, GREY, BLACK = "#3b6ea5", "#2f8f5b", "#f0b429", "#c0392b", "#7d3c98", "#555555", "#111111"
STRIPES = (
    '<defs><pattern id="stripes" width="6" height="6" patternTransform="rotate(45)" patternUnits="userSpaceOnUse">'
    f'<rect width="3" height="6" fill="{YELLOW}"/></pattern></defs>'
)


def number(value):
    return f"{value:.1f}".removesuffix(".0") if isinstance(value, float) else str(value)


def attributes(**named):
    return "".join(f' {name.replace("_", "-")}="{escape(number(value), {chr(34): "&quot;"})}"' for name, value in named.items())


class Picture:
    def __init__(self, width, height):
        self.parts = [
            f'<svg xmlns="http://www.w3.org/2000/svg"{attributes(width=width, height=height, viewBox=f"0 0 {width} {height}", font_family=FONT, font_size=11)}>',
            STRIPES,
        ]
        self.box(0, 0, width, height, "#ffffff")

    def box(self, x, y, width, height, fill, **named):
        self.parts.append(f"<rect{attributes(x=x, y=y, width=width, height=height, fill=fill, **named)}/>")

    def line(self, x1, y1, x2, y2, stroke, **named):
        self.parts.append(f"<line{attributes(x1=x1, y1=y1, x2=x2, y2=y2, stroke=stroke, **named)}/>")

    def dot(self, x, y, radius, fill):
        self.parts.append(f"<circle{attributes(cx=x, cy=y, r=radius, fill=fill)}/>")

    def cross(self, x, y, half):
        self.parts.append(f'<path d="M{number(x - half)} {number(y - half)} l{2 * half} {2 * half} m0 {-2 * half} l{-2 * half} {2 * half}"{attributes(stroke=BLACK, stroke_width=3)}/>')

    def curve(self, points, stroke):
        self.parts.append(f'<polyline{attributes(points=" ".join(f"{number(x)},{number(y)}" for x, y in points), fill="none", stroke=stroke, stroke_width=2)}/>')

    def text(self, x, y, text, **named):
        self.parts.append(f"<text{attributes(x=x, y=y, **named)}>{escape(text)}</text>")

    def begin(self, title):
        """What comes until `end` has this text as its tool tip."""
        self.parts.append(f"<g><title>{escape(title)}</title>")

    def end(self):
        self.parts.append("</g>")

    def whole(self):
        return "\n".join([*self.parts, "</svg>"]) + "\n"
