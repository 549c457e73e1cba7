"""Pictures as PNG and PDF, made of SVG by what the machine has."""

import shutil
import subprocess
from pathlib import Path

from companion.command import Fault

FORMATS = ("svg", "png", "pdf")
NONE = ("no program here makes {} of SVG: install Debian's librsvg2-bin (`rsvg-convert`) or python3-cairosvg, or write SVG by "
        "-o NAME.svg")


def format_of(output, given=None):
    """The format that a name of an output asks for, which is SVG where it asks for none."""
    suffix = Path(output or "").suffix.lower().lstrip(".")
    return given or (suffix if suffix in FORMATS else "svg")


def rendered(svg, kind):
    """The bytes of a picture in a format; raises a Fault."""
    data = svg.encode()
    if kind == "svg":
        return data
    if tool := shutil.which("rsvg-convert"):
        return by_program([tool, "-f", kind], data)
    if tool := shutil.which("cairosvg"):
        return by_program([tool, "-f", kind, "-"], data)
    try:
        import cairosvg
    except ImportError:
        raise Fault(NONE.format(kind.upper())) from None
    return {"png": cairosvg.svg2png, "pdf": cairosvg.svg2pdf}[kind](bytestring=data)


def by_program(words, data):
    """What a program makes of SVG; raises a Fault."""
    done = subprocess.run(words, input=data, capture_output=True)
    if done.returncode != 0 or not done.stdout:
        raise Fault(f"{words[0]}: {done.stderr.decode('utf-8', 'replace').strip() or 'made nothing'}")
    return done.stdout
