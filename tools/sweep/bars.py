"""The picture of a sweep: bars of the secrets by verdict and by crossing, as SVG that is written here."""
from xml.sax.saxutils import escape

WIDTH, LABEL, BAR, ROW, TOP = 900, 260, 480, 24, 34
ACCEPTED, REJECTED, CROSSING = "#4878a8", "#c87848", "#58a068"
MOST_BARS = 24


def bars(title, rows, top):
    """A block of bars, each as long as its count beside the greatest; one that counts is never without length."""
    greatest = max((count for _, count, _ in rows), default=1)
    parts = [f'<text x="16" y="{top + 20}" font-weight="bold">{escape(title)}</text>']
    for index, (label, count, color) in enumerate(rows):
        y = top + TOP + index * ROW
        length = max(BAR * count / max(greatest, 1), 2 if count else 0)
        parts.append(f'<text x="{LABEL - 8}" y="{y + 13}" text-anchor="end">{escape(label)}</text>')
        parts.append(f'<rect x="{LABEL}" y="{y}" width="{length:.1f}" height="{ROW - 7}" fill="{color}"/>')
        parts.append(f'<text x="{LABEL + length + 6:.1f}" y="{y + 13}">{count:,}</text>')
    return parts, top + TOP + len(rows) * ROW + 10


def least_of(rows):
    """At most so many bars; what is left is one bar more."""
    if len(rows) <= MOST_BARS:
        return rows
    rest = rows[MOST_BARS:]
    return rows[:MOST_BARS] + [(f"{len(rest)} others", sum(count for _, count, _ in rest), rest[0][2])]


def picture(merged, bound):
    """The whole picture, as bytes."""
    verdicts = [(row, merged.counts.get(row, 0), ACCEPTED if row == "accepted" else REJECTED)
                for row in merged.reasons()]
    if merged.unjudged:
        verdicts.append(("not judged", sum(last - first + 1 for _, first, last, _ in merged.unjudged), REJECTED))
    crossings = [(f"{crossing[:24]} ({bits} bit{'s' * (bits != 1)})", seen[1], CROSSING)
                 for (bits, crossing), seen in merged.crossings_by_count()]
    parts, top = bars(f"Verdicts of {merged.judged():,} secrets", least_of(verdicts), 8)
    title = f"Crossings of the accepted: {len(merged.crossings)} different, of at most {bound}"
    more, top = bars(title, least_of(crossings), top)
    head = (f'<svg xmlns="http://www.w3.org/2000/svg" width="{WIDTH}" height="{top}" viewBox="0 0 {WIDTH} {top}" '
            'font-family="sans-serif" font-size="13">')
    back = f'<rect width="{WIDTH}" height="{top}" fill="white"/>'
    return ("\n".join([head, back, *parts, *more, "</svg>"]) + "\n").encode()
