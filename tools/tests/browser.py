"""What a browser says of a page, where there is one."""

import html
import json
import re
import shutil
import subprocess
import unittest
import zlib
from pathlib import Path

CHROMIUM = shutil.which("chromium") or shutil.which("chromium-browser") or shutil.which("google-chrome")
SECONDS = 400
NO_CHROMIUM = "no Chromium here: Debian's chromium has it"
WORDS = ["--headless", "--no-sandbox", "--disable-gpu", "--hide-scrollbars", "--virtual-time-budget=10000"]
# How far each picture within a line stands below the baseline of its line. The mark that stands on the baseline is kept on the
# line of its picture.
MEASURE = """<script>addEventListener('load', () => {
  const marks = [], within = svg => svg.style.display !== 'block';
  for (const svg of Array.from(document.querySelectorAll('svg.mathlay')).filter(within)) {
    const row = document.createElement('span'), mark = document.createElement('span');
    row.style.cssText = 'white-space:nowrap';
    mark.style.cssText = 'display:inline-block;width:0;height:0';
    svg.replaceWith(row);
    row.append(mark, svg);
    marks.push([svg, mark]);
  }
  const found = marks.map(([svg, mark]) => {
    const frame = svg.getBoundingClientRect(), view = svg.viewBox.baseVal;
    return frame.top - view.y * frame.height / view.height - mark.getBoundingClientRect().bottom;
  });
  document.body.innerHTML = '<pre id="found">' + JSON.stringify(found) + '</pre>';
})</script>"""


def browse(words):
    """What the browser writes; the test is skipped where it doesn't end, as on a machine that is busy with much else."""
    try:
        return subprocess.run([CHROMIUM, *WORDS, *words], check=True, capture_output=True, text=True, timeout=SECONDS).stdout
    except subprocess.TimeoutExpired:
        raise unittest.SkipTest(f"Chromium didn't end within {SECONDS} seconds") from None


def baselines(path):
    """How many px each picture within a line of the page stands below its baseline."""
    text = Path(path).read_text(encoding="utf-8")
    measured = path + ".measured.html"
    Path(measured).write_text(text.replace("</body>", MEASURE + "</body>"), encoding="utf-8")
    written = browse(["--dump-dom", f"file://{measured}"])
    return json.loads(html.unescape(re.search(r'<pre id="found">(.*?)</pre>', written)[1]))


def screenshot(path, picture, width=900, height=1400, scale=1):
    """Writes a picture of a page as the browser shows it."""
    browse([f"--window-size={width},{height}", f"--force-device-scale-factor={scale}", f"--screenshot={picture}", f"file://{path}"])


BAND = 60
SIZES = range(12, 28)


def lines_of_two():
    """A page of lines with a red letter and a blue formula, each of whose ink ends at the baseline, in several sizes."""
    rows = [f'<div style="height:{BAND}px;line-height:{BAND}px;font-size:{size}px"><span style="color:#f00">H</span> '
            '<math mathcolor="#00f"><mn>1</mn></math></div>' for size in SIZES]
    return f'<!DOCTYPE html><html><body style="margin:0;background:#fff">{"".join(rows)}</body></html>'


def ink_below(picture):
    """Of each line of that page, how many px the formula's ink ends below the letter's."""
    rows = pixels(picture)
    found = []
    for band in range(len(SIZES)):
        ends = [max(ink_end(rows, band, colour), default=0) for colour in (0, 2)]
        found.append(ends[1] - ends[0])
    return found


def ink_end(rows, band, colour):
    """Where ink of a colour ends in a band: the row's lower edge, where a row that is half inked counts half."""
    other = 2 - colour
    for number, row in enumerate(rows[band * BAND:(band + 1) * BAND]):
        strengths = [255 - pixel[other] for pixel in row if pixel[colour] > pixel[other]]
        if strengths and max(strengths) > 8:
            yield number + max(strengths) / 255


def pixels(path):
    """The rows of a PNG of 8 bits a colour, each pixel as its colours."""
    data = Path(path).read_bytes()
    place, packed = 8, b""
    while place < len(data):
        length, kind = int.from_bytes(data[place:place + 4], "big"), data[place + 4:place + 8]
        chunk = data[place + 8:place + 8 + length]
        if kind == b"IHDR":
            width, height, channels = int.from_bytes(chunk[:4], "big"), int.from_bytes(chunk[4:8], "big"), {2: 3, 6: 4}[chunk[9]]
        packed += chunk if kind == b"IDAT" else b""
        place += 12 + length
    raw, size, rows, before = zlib.decompress(packed), width * channels, [], bytes(width * channels)
    for number in range(height):
        line = raw[number * (size + 1):(number + 1) * (size + 1)]
        before = unfiltered(line[0], line[1:], before, channels)
        rows.append([before[at:at + 3] for at in range(0, size, channels)])
    return rows


def unfiltered(kind, line, before, channels):
    """A row of a PNG as its bytes."""
    made = bytearray(line)
    for at, value in enumerate(line):
        left = made[at - channels] if at >= channels else 0
        up, corner = before[at], before[at - channels] if at >= channels else 0
        if kind == 4:
            guess = left + up - corner
            near = min((abs(guess - left), 0, left), (abs(guess - up), 1, up), (abs(guess - corner), 2, corner))[2]
        else:
            near = (0, left, up, (left + up) // 2)[kind]
        made[at] = (value + near) & 255
    return bytes(made)
