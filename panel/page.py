"""The pages of the panel. What they are handed is numbers and what panel text wrote; of the film itself this file sees nothing."""

import html

import drawing
from reading import MANY_STARTS, film
from film_command import words

TITLE = "Film panel"
RADII = range(6)
# in the place of a radius: the one that the tray file names
OWN = "own"
SAMPLES = {
    "notes": "Notes, a template and rings",
    "old-harm": "The old harm: a note that ran as script",
    "hostile": "Hostile notes",
    "full": "Every kind of item",
    "paper": "The paper's own case",
}
# the refusals that a line or ring of a tray can meet, in an operator's words
REFUSED = {
    **{number: words.REFUSED[number] for number in (2, 3, 6, 14, 15)},
    MANY_STARTS: f"{words.REFUSED[MANY_STARTS].format(starts='more than one start')}. Read it with a smaller radius, or find the start mark",
}


def framed(title, content):
    """A whole page."""
    return (f'<!DOCTYPE html>\n<html lang="en"><head><meta charset="utf-8"><meta name="viewport" content="width=device-width"><title>{title}</title>'
            f'<link rel="stylesheet" href="/panel.css"></head>\n<body><header><h1><a href="/">{TITLE}</a></h1></header>\n<main>{content}</main></body></html>\n')


def counted(count, one):
    return f"{count:d} {one}{'' if count == 1 else 's'}"


# ---- the forms


def select(name, options, chosen):
    """A choice among values, each with its title, one of them chosen."""
    listed = "".join(f'<option value="{value}"{" selected" if value == chosen else ""}>{html.escape(title)}</option>' for value, title in options.items())
    return f'<select name="{name}">{listed}</select>'


def forms(sample=None, radius=OWN):
    """Where a tray is handed over, or a sample is chosen."""
    radii = f"<label>Radius {select('radius', {OWN: 'as the tray says', **{str(r): str(r) for r in RADII}}, radius)}</label>"
    return (f'<form method="post" action="/tray" enctype="multipart/form-data"><label>Tray file <input type="file" name="tray" required></label>'
            f"{radii}<button>Show the tray</button></form>\n"
            f'<form method="get" action="/sample"><label>Sample {select("name", SAMPLES, sample)}</label>{radii}<button>Show the sample</button></form>\n')


def home():
    return framed(TITLE, f"{forms()}<p>The notes of a tray of film: its lines and rings, each mended and shown as text, or refused by number.</p>\n")


def unfit(status, words):
    """The page of a request that is not met."""
    return framed(f"{status:d}", f"{forms()}<h2>{status:d}</h2><p>{html.escape(words)}</p>\n")


# ---- the rows of a tray


def ways(starts):
    """A list of starts in words."""
    forward, backward = [[f"{start:d}" for start in starts if (start < drawing.PLACES) == way] for way in (True, False)]
    return "; ".join(f"{way} {', '.join(those)}" for way, those in (("forward", forward), ("backward", backward)) if those)


def figure(starts):
    """The drawing of a list of starts, and the list in words."""
    return (f"<figure>{drawing.drawing(starts)}<figcaption>It fits at {counted(len(starts), 'start')}: {ways(starts)}."
            "<br>An arrow points the way that is read: forward outside the ring, backward inside.</figcaption></figure>")


def refused(row):
    """The refusal in words with its number, and where a ring fits at several starts, these."""
    why = REFUSED.get(row.refusal) or film.REFUSALS[row.refusal]
    return f"<strong>Refused ({row.refusal:d})</strong>: {html.escape(why)}.{figure(row.starts) if row.starts else ''}"


def cells(row):
    """A line or ring as a row of the table."""
    head = f'<th scope="row">{row.kind} {row.item:d}</th>'
    if row.refusal:
        return f'<tr class="refused">{head}<td colspan="4">{refused(row)}</td></tr>\n'
    start = f"{row.start:d}" if row.kind == "Ring" else ""
    return f"<tr>{head}<td><samp>{row.shown}</samp></td><td>{row.number:d}</td><td>{row.distance:d}</td><td>{start}</td></tr>\n"


def table(rows):
    names = "".join(f'<th scope="col">{name}</th>' for name in ("Item", "Note", "Number", "Wrong", "Start"))
    return f"<table><thead><tr>{names}</tr></thead><tbody>\n{''.join(map(cells, rows))}</tbody></table>\n"


def said(tray, radius):
    """What was read, in a sentence; and that blocks, which have no text, are not shown."""
    own = ", as the tray says" if radius == tray.radius else f" (the tray says {tray.radius:d})"
    count = len(tray.blocks)
    blocks = f" Blocks have no text: {counted(count, 'block')} of the tray {'is' if count == 1 else 'are'} not shown." if count else ""
    return f"<p>{counted(len(tray.lines), 'line')} and {counted(len(tray.rings), 'ring')}, read with radius {radius:d}{own}.{blocks}</p>\n"


def result(title, top, tray, radius, rows):
    """The page of a tray: the forms, and a row for each line and ring."""
    shapes = drawing.shapes() if any(row.starts for row in rows) else ""
    return framed(TITLE, f"{top}<h2>{html.escape(title)}</h2>\n{said(tray, radius)}{shapes}{table(rows)}")
