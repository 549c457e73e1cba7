#!/usr/bin/env python3
"""A small viewer: shows a formula in a browser, and gives the element that is clicked another text.

    PYTHONPATH=bindings/python python3 examples/python/viewer.py METRICS TREE [PORT]

Characters are drawn by the browser, in a font of the metrics' that is installed. Larger glyphs and those that are built of parts
are drawn as their base glyph.
"""
import html
import http.server
import json
import sys
import urllib.parse

from mathlay import Session

PAGE = """<!doctype html><meta charset="utf-8"><title>mathlay</title>
<p>Click an element, and type its text: <input id="text"> <output id="told"></output></p><div id="formula">{svg}</div><script>
let node = 0
const ask = async words => {{ const all = await (await fetch("/?" + new URLSearchParams(words))).json()
  document.getElementById("told").textContent = all.told; if (all.svg) document.getElementById("formula").innerHTML = all.svg
  return all }}
document.getElementById("formula").onclick = async event => {{ const svg = document.querySelector("svg")
  const at = new DOMPoint(event.clientX, event.clientY).matrixTransform(svg.getScreenCTM().inverse())
  node = (await ask({{x: Math.floor(at.x), y: Math.floor(at.y)}})).node }}
document.getElementById("text").onkeyup = event => ask({{node, text: event.target.value}})
</script>
"""


def characters(metrics):
    """The character of each glyph's name, by the `char` lines of a metrics file; a larger glyph has that of its base."""
    names, larger = {}, {}
    for kind, *words in (line.split() for line in metrics.decode().splitlines() if line.strip()):
        if kind == "char":
            names[words[1]] = chr(int(words[0], 16))
        elif kind in ("vvariant", "hvariant"):
            larger[words[1]] = words[0]
    return {**{name: names.get(base, "?") for name, base in larger.items()}, **names}


def picture(session, names):
    """An SVG of all marks, in the box of the whole formula."""
    frame = session.root()
    parts = []
    for line in session.show().decode().splitlines():
        kind, *words = line.split()
        if kind == "rule":
            x, y, width, height = words
            parts.append(f'<rect x="{x}" y="{y}" width="{width}" height="{height}"/>')
        elif kind in ("glyph", "built"):
            x, y, size = words[:3]
            name = words[3] if kind == "glyph" else words[4]
            parts.append(f'<text x="{x}" y="{y}" font-size="{size}">{html.escape(names.get(name, "?"))}</text>')
    box = f"-1024 {-frame.ascent - 1024} {frame.width + 2048} {frame.ascent + frame.descent + 2048}"
    return f'<svg viewBox="{box}" height="200" font-family="Latin Modern Math">{"".join(parts)}</svg>'


def answer(session, names, words):
    """What a page is told that asks for this."""
    if "x" in words:
        node = session.hit(int(words["x"]), int(words["y"]))
        return {"node": node or 0, "told": f"element {node}" if node else "nothing"}
    edit = {"op": "text", "node": int(words["node"]), "text": words["text"]}
    told = session.line(json.dumps(edit).encode())
    return {"told": told.decode().strip(), "svg": picture(session, names)}


def main():
    with open(sys.argv[1], "rb") as file:
        metrics = file.read()
    with open(sys.argv[2], "rb") as file, Session(metrics, file.read()) as session:
        names = characters(metrics)

        class Handler(http.server.BaseHTTPRequestHandler):
            def do_GET(self):
                words = dict(urllib.parse.parse_qsl(urllib.parse.urlsplit(self.path).query, keep_blank_values=True))
                text = json.dumps(answer(session, names, words)) if words else PAGE.format(svg=picture(session, names))
                self.send_response(200)
                self.send_header("Content-Type", "application/json" if words else "text/html; charset=utf-8")
                self.end_headers()
                self.wfile.write(text.encode())

        port = int(sys.argv[3]) if len(sys.argv) > 3 else 8000
        with http.server.HTTPServer(("127.0.0.1", port), Handler) as server:
            print(f"http://127.0.0.1:{server.server_port}/", flush=True)
            server.serve_forever()


if __name__ == "__main__":
    main()
