"""The elements of a league's page, as HTML: lines of tables, links, paragraphs, and the graph of an interval."""
from html import escape

from .table import shown

# The graph of an interval: its width and height.
WIDTH, HEIGHT, MARGIN = 220, 18, 6
# How many shades a cell of the cross table has for values on each side of 0.
SHADES = 5


def row(cells, tag="td"):
    """A line of a table; cells are HTML, or pairs of classes and HTML. The first one names the line."""
    made = []
    for at, cell in enumerate(cells):
        kind, text = cell if isinstance(cell, tuple) else ("", cell)
        name = "th" if at == 0 else tag
        made.append(f'<{name} class="{kind}">{text}</{name}>' if kind else f"<{name}>{text}</{name}>")
    return f"<tr>{''.join(made)}</tr>"


def link(address, text, told=None):
    """A link; `told` is shown where somebody points at it."""
    title = f' title="{escape(told)}"' if told else ""
    return f'<a href="{escape(address)}"{title}>{escape(text)}</a>'


def table(header, rows, kind=""):
    lines, named = "\n".join(rows), f' class="{kind}"' if kind else ""
    return f'<div class="scroll"><table{named}><thead>{row(header, "th")}</thead>\n<tbody>\n{lines}\n</tbody></table></div>'


def section(title, *parts):
    return "<section>\n<h2>" + title + "</h2>\n" + "\n".join(parts) + "\n</section>"


def paragraph(text, kind=""):
    return f'<p class="{kind}">{escape(text)}</p>' if kind else f"<p>{escape(text)}</p>"


def valued(interval):
    """An interval as a table's cell, green or red where it leaves 0 out."""
    if interval is None:
        return "quiet", "–"
    kind = ("won" if interval.value > 0 else "lost") if interval.leaves_out(0) else ""
    return kind, shown(interval)


def noted(cell, notes):
    """A cell with notes in small letters below it."""
    kind, text = cell
    return kind, text + "".join(f"<small>{escape(note)}</small>" for note in notes)


def shade(value, most):
    """The class of a cell whose value is won or lost, the darker the nearer it is to the greatest one."""
    level = min(SHADES, int(SHADES * abs(float(value)) / most) + 1) if most else 0
    return f"{'up' if value > 0 else 'down'}{level}" if level and value else ""


def scale_of(standings):
    """Where a value is drawn: a function from values to pixels; and the least and the greatest value."""
    ends = [0.0]
    for it in standings.standings:
        if it.interval:
            ends += [float(it.interval.value) + sign * (it.interval.half or 0) for sign in (-1, 1)]
    least, most = min(ends), max(ends)
    width = (most - least) or 1.0
    return lambda value: MARGIN + (float(value) - least) / width * (WIDTH - 2 * MARGIN), least, most


def graph(interval, at):
    """A dot with its interval, and where 0 is. `at` says where a value is drawn."""
    if interval is None:
        return ""
    middle, zero = HEIGHT / 2, at(0)
    reach = interval.half or 0
    lines = f'<line class="zero" x1="{zero:.1f}" x2="{zero:.1f}" y1="0" y2="{HEIGHT}"/>'
    lines += f'<line x1="{at(float(interval.value) - reach):.1f}" x2="{at(float(interval.value) + reach):.1f}" y1="{middle}" y2="{middle}"/>'
    dot = f'<circle cx="{at(interval.value):.1f}" cy="{middle}" r="4"/>'
    return f'<svg width="{WIDTH}" height="{HEIGHT}" viewBox="0 0 {WIDTH} {HEIGHT}" role="img" aria-label="{shown(interval)}">{lines}{dot}</svg>'
