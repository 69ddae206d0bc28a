"""docs/answers.md for the browser, and how long a disk lasts: what a page's advice leads to."""
import html
import re
from pathlib import Path

from aiohttp import web
from lapyrei import plan

try:
    import markdown
except ImportError:  # Debian's python3-markdown isn't there.
    markdown = None

HERE = Path(__file__).resolve()
# Beside the page where it is installed, and in the sources.
PLACES = (HERE.parents[1] / "answers.md", HERE.parents[3] / "docs/answers.md")
# A link to another file of docs/, which this server hasn't.
ELSEWHERE = re.compile(r"\[((?:[^]\[]|\[[^]]*\])*)\]\((?!#)[^)]*\)")
HEAD = """<!doctype html>
<html lang="en">
<head>
<meta charset="utf-8">
<meta name="viewport" content="width=device-width, initial-scale=1">
<title>Answers: the laboratory's page</title>
<link rel="icon" href="/static/icon.svg">
<link rel="stylesheet" href="/static/page.css">
<link rel="stylesheet" href="/static/answers.css">
</head>
<body class="answers">
<main>
<p><a href="/">Back to the page</a></p>
"""
ASKED = {"size": "1920x1080", "form": "YM12", "bits": "8", "rate": "25", "room": "2TB"}
LABELS = {
    "size": "Size",
    "form": "Format",
    "bits": "Bits a sample",
    "rate": "Frames a second",
    "room": "Room, or time",
}


def source() -> str:
    """The text of docs/answers.md, without links to what isn't here."""
    place = next((it for it in PLACES if it.exists()), None)
    text = place.read_text(encoding="utf-8") if place else "# Answers\n\nThey aren't installed.\n"
    return ELSEWHERE.sub(r"\1", text)


def body_of(text: str) -> str:
    """It as HTML, with an anchor for each heading; as it is written where it can't be turned."""
    if markdown is None:
        marked = re.sub(r'<a id="([\w-]+)"></a>', "\0\\1\1", text)
        return "<pre>" + re.sub("\0([\\w-]+)\1", r'<a id="\1"></a>', html.escape(marked)) + "</pre>"
    return markdown.markdown(text, extensions=["tables", "toc", "sane_lists"])


def reckoned(asked: dict[str, str]) -> str:
    """What a station makes of so much room, in sentences; or why it makes nothing."""
    try:
        found = plan.planned(*(asked[key] for key in ASKED))
    except plan.Unfit as unfit:
        return f"Not so: {unfit}."
    many = f"{found.stores} stores" if found.stores > 1 else "One store"
    brought = plan.amount(found.geometry.size * found.geometry.rate())
    return (
        f"{plan.duration(found.seconds)}: the newest {found.frames:,} frames, for certain while "
        f"nothing is locked. {many}, {plan.amount(found.bytes)} together. The camera brings "
        f"{brought} a second: so fast has the disk to write, and half of that again."
    )


def form_of(asked: dict[str, str], is_given: bool) -> str:
    """How long a disk lasts: what is asked, and the answer."""
    fields = "".join(
        f'<label>{LABELS[key]} <input name="{key}" value="{html.escape(value)}" size="11" '
        'maxlength="32"></label> '
        for key, value in asked.items()
    )
    said = f'<p id="how-long-says" role="status">{html.escape(reckoned(asked))}</p>'
    return (
        '<section aria-labelledby="how-long"><h2 id="how-long">How long does it last?</h2>'
        f'<form method="get" action="/answers#how-long">{fields}<button>Reckon</button></form>'
        f"{said if is_given else ''}</section>\n"
    )


class Guide:
    """The page of answers, whose text is turned once."""

    def __init__(self) -> None:
        self.body = body_of(source())

    async def page(self, request: web.Request) -> web.Response:
        """All of it; with what a form asked, if one did."""
        asked = {key: request.query.get(key, value) for key, value in ASKED.items()}
        form = form_of(asked, is_given=bool(request.query))
        text = f"{HEAD}{form}{self.body}\n</main>\n</body>\n</html>\n"
        return web.Response(text=text, content_type="text/html", charset="utf-8")
