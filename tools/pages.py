"""Pages of HTML that print on A4 as they look, and need nothing else. They are well-formed XML too."""
from xml.sax.saxutils import escape

from drawing import printable

# What a table's width has room for at its largest size.
MOST_LETTERS, LARGEST = 94, 8.5
STYLE = """
@page { size: A4; margin: 14mm; }
* { box-sizing: border-box; print-color-adjust: exact; -webkit-print-color-adjust: exact; }
body { width: 182mm; margin: 8mm auto; color: #222; background: #fff; font: 10pt/1.35 Helvetica, Arial, 'DejaVu Sans', sans-serif; }
@media print { body { margin: 0; } }
h1 { font-size: 17pt; margin: 0 0 2mm; overflow-wrap: anywhere; }
h2 { font-size: 12pt; margin: 6mm 0 2mm; break-after: avoid; }
p { margin: 2mm 0; }
pre { font: 7.8pt/1.3 'DejaVu Sans Mono', Courier, monospace; white-space: pre-wrap; border-left: 1mm solid #C00000; padding-left: 3mm; }
table { border-collapse: collapse; width: 100%; }
thead { display: table-header-group; }
tr, figure { break-inside: avoid; }
th, td { padding: 0.7mm 1.2mm; border-bottom: 0.2mm solid #bbb; text-align: right; font-variant-numeric: tabular-nums; }
th:first-child, td:first-child { text-align: left; white-space: nowrap; }
.nodes td { white-space: nowrap; }
.facts th { width: 38mm; font-weight: normal; color: #555; }
.facts td { text-align: left; overflow-wrap: anywhere; }
.refused { color: #C00000; font-weight: bold; }
figure { margin: 4mm 0 0; }
svg { width: 100%; height: auto; max-height: 245mm; border: 0.2mm solid #ddd; }
"""


def told(text):
    return escape(printable(str(text)))


def page(title, parts):
    head = f'<meta charset="utf-8"/><title>{told(title)}</title><style>{STYLE}</style>'
    body = "\n".join([f"<h1>{told(title)}</h1>", *parts])
    return f'<!DOCTYPE html>\n<html xmlns="http://www.w3.org/1999/xhtml" lang="en"><head>{head}</head>\n<body>\n{body}\n</body></html>\n'


def heading(text):
    return f"<h2>{told(text)}</h2>"


def paragraph(text, name, kind="plain"):
    return f'<p id="{name}" class="{kind}">{told(text)}</p>'


def listing(text):
    """Lines as they stand."""
    return f"<pre>{escape(text)}</pre>"


def figure(drawn):
    """A picture, which is SVG."""
    return f"<figure>{drawn}</figure>"


def facts(values):
    """A line for each name and its value."""
    lines = "".join(f"<tr><th>{told(name)}</th><td>{told(value)}</td></tr>" for name, value in values.items())
    return f'<table id="facts" class="facts"><tbody>{lines}</tbody></table>'


def table(headings, rows, name):
    """A table in letters small enough for the width of the page."""
    def line(cells, tag):
        return "<tr>" + "".join(f"<{tag}>{told(cell)}</{tag}>" for cell in cells) + "</tr>"

    letters = sum(max(len(str(cell)) for cell in column) for column in zip(*rows))
    size = LARGEST * min(1, MOST_LETTERS / letters)
    body = "".join(line(row, "td") for row in rows)
    head = f"<thead>{line(headings, 'th')}</thead>"
    return f'<table id="{name}" class="{name}" style="font-size: {size:.1f}pt">{head}<tbody>{body}</tbody></table>'
