"""What the pictures are drawn with: their colours, which differ for the colour-blind too, shapes, text, the places of a ring, and the frame of a picture."""

import math

INK, PALE, ORANGE, BLUE, GREEN, PURPLE, WHITE = "#1a1a1a", "#b8b8b8", "#b3430a", "#0a5aa0", "#4d7a1f", "#a2457a", "#ffffff"

PLACES = 63


def path(points, more):
    return f'<path d="M {" L ".join(f"{x:.1f} {y:.1f}" for x, y in points)} Z" {more}/>'


def text(x, y, said, more=""):
    return f'<text x="{x:.1f}" y="{y + 5:.1f}" {more}>{said}</text>'


def painted(colour, filled):
    """How a shape is painted: filled with its colour, or white inside."""
    return f'fill="{colour if filled else WHITE}" stroke="{colour}" stroke-width="2"'


def arrow(tip, left, right, colour, filled):
    return path([tip, left, right], painted(colour, filled))


def dot(x, y, size, more):
    return f'<circle cx="{x:.1f}" cy="{y:.1f}" r="{size}" {more}/>'


def on_ring(centre, place, radius):
    """Where a place of a ring lies: place 0 at the top, the others clockwise."""
    angle = 2 * math.pi * place / PLACES
    return centre[0] + radius * math.sin(angle), centre[1] - radius * math.cos(angle)


def framed(head, width, height, elements, described=(), writer="tools/tables"):
    """A picture as a file's text, with its head as title for whoever does not see it, a description where there is one, and the tool that writes it."""
    lines = [
        f"<!-- {head} {writer} writes it. -->",
        f'<svg xmlns="http://www.w3.org/2000/svg" viewBox="0 0 {width} {height}" width="{width}" height="{height}" role="img" '
        'font-family="Helvetica, Arial, sans-serif" font-size="14">',
        f"<title>{head[:-1] if head.endswith('.') else head}</title>",
        *(f"<desc>{words}</desc>" for words in described),
        f'<rect width="{width}" height="{height}" fill="{WHITE}"/>',
        *elements,
        "</svg>",
    ]
    return "\n".join(lines) + "\n"
