"""The lines that an `menclose` draws round and through what it encloses, as far as rules and simple curves can."""

from html import escape

LINE = 820
ROUND = 4096
NOTATIONS = {"longdiv", "actuarial", "box", "roundedbox", "circle", "left", "right", "top", "bottom", "updiagonalstrike",
             "downdiagonalstrike", "verticalstrike", "horizontalstrike", "madruwb", "updiagonalarrow", "northeastarrow",
             "phasorangle", "radical"}
SIDES = {"actuarial": ("top", "right"), "madruwb": ("bottom", "right"), "longdiv": ("top",), "phasorangle": ("bottom",)}


def enclosure_span(box):
    """Left, top, right and bottom of the lines of a box."""
    return box.x, box.y - box.ink_ascent, box.x + box.width, box.y + box.ink_descent


def enclosure_lines(box, notation, colour):
    """The elements of SVG that draw the notations of a box."""
    words = [side for word in notation.split() for side in (word, *SIDES.get(word, ()))]
    left, top, right, bottom = enclosure_span(box)
    half = LINE // 2
    left, top, right, bottom = left + half, top + half, right - half, bottom - half
    paths = {
        "box": f"M{left} {top}H{right}V{bottom}H{left}Z", "left": f"M{left} {top - half}V{bottom + half}",
        "right": f"M{right} {top - half}V{bottom + half}", "top": f"M{left - half} {top}H{right + half}",
        "bottom": f"M{left - half} {bottom}H{right + half}", "updiagonalstrike": f"M{left} {bottom}L{right} {top}",
        "downdiagonalstrike": f"M{left} {top}L{right} {bottom}", "verticalstrike": f"M{(left + right) // 2} {top}V{bottom}",
        "horizontalstrike": f"M{left} {(top + bottom) // 2}H{right}",
        "longdiv": f"M{left} {top}Q{left + 2048} {(top + bottom) // 2} {left} {bottom}",
        "phasorangle": f"M{left} {bottom}L{left + (bottom - top) // 2} {top}",
    }
    arrow = f"M{left} {bottom}L{right} {top}M{right - 4096} {top + 1024}L{right} {top}L{right - 1024} {top + 4096}"
    paths |= {"updiagonalarrow": arrow, "northeastarrow": arrow}
    pen = f'fill="none" stroke="{escape(colour)}" stroke-width="{LINE}"'
    lines = [f'<path class="enclosure" d="{paths[word]}" {pen}/>' for word in words if word in paths]
    if "roundedbox" in words:
        lines.append(f'<rect class="enclosure" x="{left}" y="{top}" width="{right - left}" height="{bottom - top}" rx="{ROUND}" {pen}/>')
    if "circle" in words:
        lines.append(f'<ellipse class="enclosure" cx="{(left + right) // 2}" cy="{(top + bottom) // 2}" '
                     f'rx="{(right - left) // 2}" ry="{(bottom - top) // 2}" {pen}/>')
    return lines
