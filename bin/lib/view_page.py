"""Puts a page of a run together: bin/lib/view/ has its parts, and a package of Debian's the library that draws.

Run by itself it only looks whether the library is there, and ends with status 4 where it is not.
"""
import base64
import gzip
import html
import json
import os
import re
import sys

HERE = os.path.join(os.path.dirname(os.path.realpath(__file__)), "view")
SCRIPTS = "data.js words.js state.js network.js messages.js charts.js panel.js player.js main.js".split()
PACKAGE = "libjs-d3"
# (tests have another folder with both)
FOLDER = os.environ.get("GUNTHARU_D3")
LIBRARY = f"{FOLDER or '/usr/share/javascript/d3'}/d3.min.js"
LICENCE = f"{FOLDER or f'/usr/share/doc/{PACKAGE}'}/copyright"
PLACE = re.compile(r"<!--\[(\w+)\]-->")


class Missing(Exception):
    """Says which package is missing."""


def text_of(place):
    with open(place, encoding="utf-8") as it:
        return it.read()


def library():
    """The drawing library, and its licence."""
    try:
        return text_of(LIBRARY), text_of(LICENCE)
    except OSError as why:
        raise Missing(f"{why.filename} can't be read; apt-get install {PACKAGE} brings it") from why


def packed(data):
    """What a page knows of the run: JSON, compressed, in base64."""
    text = json.dumps(data, separators=(",", ":"), ensure_ascii=False)
    return base64.b64encode(gzip.compress(text.encode(), compresslevel=6, mtime=0)).decode()


def script(text):
    """The text of a script, with nothing in it that would end it."""
    return text.replace("</script", "<\\/script").replace("<!--", "<\\!--")


def page_of(data):
    """The whole page, as text."""
    code, licence = library()
    parts = {
        "title": html.escape(data["name"]),
        "style": text_of(f"{HERE}/style.css"),
        "licence": html.escape(licence),
        "library": script(code),
        "data": packed(data),
        "scripts": "\n".join(f"<script>\n{script(text_of(f'{HERE}/{it}'))}</script>" for it in SCRIPTS),
    }
    return PLACE.sub(lambda found: parts[found[1]], text_of(f"{HERE}/page.html"))


if __name__ == "__main__":
    try:
        library()
    except Missing as why:
        print(f"gossip_view: {why}", file=sys.stderr)
        sys.exit(4)
