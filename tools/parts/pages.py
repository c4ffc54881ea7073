"""A page in one file, and its tables: for tools/page and tools/term."""
import html, json, os

HERE = os.path.dirname(os.path.abspath(__file__))


def seconds(at):
    return f"{int(at // 60)}:{at % 60:05.2f}" if at >= 60 else f"{at:.2f}\u00a0s"


def many(n, one, more=None):
    return f"{n:,} {one if n == 1 else more or one + 's'}"


def shell(title, body, data=None, script=None):
    """A page that loads nothing: its browser is told to refuse whatever would be asked for."""
    with open(os.path.join(HERE, "page.css")) as f:
        style = f.read()
    parts = ""
    if script:
        with open(os.path.join(HERE, script)) as f:
            text = json.dumps(data, separators=(",", ":")).replace("<", "\\u003c")
            parts = f'<script type="application/json" id="data">{text}</script>\n<script>\n{f.read()}</script>\n'
    return f"""<!DOCTYPE html>
<html lang="en">
<head>
<meta charset="utf-8">
<meta name="viewport" content="width=device-width, initial-scale=1">
<meta name="color-scheme" content="light dark">
<meta http-equiv="Content-Security-Policy" content="default-src 'none'; style-src 'unsafe-inline'; script-src 'unsafe-inline'; media-src blob:">
<title>{html.escape(title)}</title>
<style>
{style}</style>
</head>
<body>
{body}
{parts}</body>
</html>
"""


def table(name, caption, heads, rows):
    """A table; the first cell of a row is its heading. Cells are HTML already. A wide one is moved within its own box, by keyboard too."""
    head = "".join(f'<th scope="col">{cell}</th>' for cell in heads)
    body = "\n".join(f'<tr><th scope="row">{row[0]}</th>' + "".join(f"<td>{cell}</td>" for cell in row[1:]) + "</tr>" for row in rows)
    return (
        f'<div class="wide" tabindex="0" role="region" aria-labelledby="{name}-caption"><table id="{name}"><caption id="{name}-caption">{caption}</caption>\n'
        f"<thead><tr>{head}</tr></thead>\n<tbody>\n{body}\n</tbody></table></div>"
    )


def details(heading, content):
    return f"<details><summary>{heading}</summary>\n{content}\n</details>\n"
