"""Writes the page: one file of HTML, with all that it needs inside."""
import html
import json
import os
import re

from report.chart import chart
from report.session import GRANTED, STILL
from report.tables import Lengths, Place, tables

HERE = os.path.dirname(os.path.realpath(__file__))
SCRIPTS = "data.js", "draw.js", "words.js", "moves.js"
BUCKETS = 700
# How waits and refused requests are drawn, and what they say in the legend. The scripts use them by these names.
HATCHES = ("granted", GRANTED), ("eintr", "EINTR"), ("ebadf", "EBADF"), ("enolck", "ENOLCK"), ("still", STILL)
HATCH_LINES = {
    "granted": "M-2 2L2 -2M-1 9L9 -1M6 10L10 6", "eintr": "M-2 6L2 10M-1 -1L9 9M6 -2L10 2", "ebadf": "M0 2H8M0 6H8", "enolck": "M2 0V8M6 0V8",
    "still": "M1 1h2M5 5h2M1 5h0M5 1h0",
}
MARKS = ("eagain", "M0 -4L4 0L0 4L-4 0Z", "EAGAIN"), ("edeadlk", "M-4 -4L4 4M4 -4L-4 4", "EDEADLK"), \
    ("enolck", "M-3.5 -3.5H3.5V3.5H-3.5Z", "ENOLCK"), ("other", "M0 -4L4 3H-4Z", "another error")
MARK_STYLES = {
    "eagain": 'fill="#fff" stroke="#000" stroke-width="1.5"', "edeadlk": 'fill="none" stroke="#000" stroke-width="2.6"',
    "enolck": 'fill="var(--enolck)" stroke="#000"', "other": 'fill="#000"',
}


def file_text(name):
    with open(f"{HERE}/{name}", encoding="utf-8") as file:
        return file.read()


def script_text():
    """The scripts as one, which leaves no names in the page."""
    return "\"use strict\";\n(() => {\n" + "\n".join(map(file_text, SCRIPTS)) + "})();\n"


def text(it):
    return html.escape(str(it))


# ---- Tables

def cell_html(cell, number):
    """A cell. `number` is that of the place 0."""
    if isinstance(cell, Place):
        return f'<td><a href="#at={cell.at + number}">{text(cell.text)}</a></td>'
    if isinstance(cell, list):
        return f"<td><ol>{''.join(f'<li>{text(it)}</li>' for it in cell)}</ol></td>"
    is_number = re.fullmatch(r"[\d,.]+", cell)
    return f'<td{" class=n" if is_number else ""}>{text(cell)}</td>'


def table_html(table, number):
    about = f" <span>{text(table.about)}</span>" if table.about else ""
    if not table.rows:
        return f'<div class="wide"><table><caption>{text(table.title)}{about}</caption><tbody><tr><td>{text(table.nothing)}</td></tr></tbody></table></div>'
    numbers = [isinstance(it, str) and re.fullmatch(r"[\d,.]+", it) for it in table.rows[0]]
    heads = "".join(f'<th scope="col"{" class=n" if is_number else ""}>{text(it)}</th>' for it, is_number in zip(table.heads, numbers))
    rows = "".join(f"<tr>{''.join(cell_html(cell, number) for cell in it)}</tr>" for it in table.rows)
    more = f"<p>{len(table.rows):,} of {table.count:,} are shown.</p>" if table.count > len(table.rows) else ""
    return (f'<div class="wide"><table><caption>{text(table.title)}{about}</caption><thead><tr>{heads}</tr></thead>'
            f"<tbody>{rows}</tbody></table></div>{more}")


# ---- The overview

def most_in_buckets(session, clock):
    """The most locks held and the most requests waiting in each of so many parts of the axis."""
    count, held, waiting = len(session.counts), [0] * BUCKETS, [0] * BUCKETS
    places = clock.places if clock else range(count)
    end = max(places[-1] if clock and count else count, 1)
    at, before = 0, (0, 0)
    for place, found in zip(places, session.counts):
        last = min(place * BUCKETS // end, BUCKETS - 1)
        for at in range(at + 1, last):
            held[at], waiting[at] = before
        at, before = last, found
        held[at], waiting[at] = max(held[at], found[0]), max(waiting[at], found[1])
    for at in range(at + 1, BUCKETS):
        held[at], waiting[at] = before
    return held, waiting


def area(values, base, height):
    """A path of steps over this base line."""
    most = max(max(values), 1)
    steps = "".join(f"V{base - height * it / most:.1f}H{at + 1}" for at, it in enumerate(values))
    return f"M0 {base}{steps}V{base}Z"


def overview_html(session, clock):
    held, waiting = most_in_buckets(session, clock)
    words = f"At most {max(waiting):,} requests waited at once, and at most {max(held):,} locks were held."
    return (f'<svg viewBox="0 0 {BUCKETS} 100" preserveAspectRatio="none" role="img" aria-labelledby="over-title over-desc">'
            f'<title id="over-title">Requests that wait and locks that are held, over the whole trace</title><desc id="over-desc">{words}</desc>'
            f'<path d="{area(waiting, 48, 44)}" fill="#d55e00"/><path d="{area(held, 98, 44)}" fill="#0072b2"/>'
            f'<path d="M0 48.5H{BUCKETS}" stroke="#888" vector-effect="non-scaling-stroke"/></svg>'
            f'<span class="scale" style="top:2px">requests that wait, at most {max(waiting):,}</span>'
            f'<span class="scale" style="top:54px">locks held, at most {max(held):,}</span><div id="brush"></div>')


# ---- Legend, facts and notes

def patterns_html():
    found = "".join(f'<pattern id="{name}" width="8" height="8" patternUnits="userSpaceOnUse"><rect width="8" height="8" fill="#fff"/>'
                    f'<path d="{HATCH_LINES[name]}" stroke="var(--{name})" stroke-width="2" stroke-linecap="square"/></pattern>' for name, _ in HATCHES)
    marks = "".join(f'<path id="mark-{name}" d="{path}" {MARK_STYLES[name]}/>' for name, path, _ in MARKS)
    return f'<svg width="0" height="0" class="hidden" aria-hidden="true"><defs>{found}{marks}</defs></svg>'


def swatch(inside, words):
    return f'<li><svg width="34" height="14" aria-hidden="true">{inside}</svg>{text(words)}</li>'


def legend_html():
    box = '<rect x="1" y="1" width="32" height="12" {}/>'
    found = [swatch(box.format('fill="var(--read)"'), "read lock held"), swatch(box.format('fill="var(--write)"'), "write lock held")]
    found.append(swatch(box.format('fill="var(--write)" stroke="#000" stroke-width="1.5" rx="6"') + '<path d="M6 7H28" stroke="#fff" stroke-width="2"/>',
                        "whole-file lock (flock): round, with a line"))
    for name, words in HATCHES:
        ended = "waits at the end of the trace" if words == STILL else f"waited, then {words}"
        found.append(swatch(box.format(f'fill="url(#{name})" stroke="var(--{name})" stroke-width="1.5"'), ended))
    found += [swatch(f'<use href="#mark-{name}" x="17" y="7"/>', f"refused with {words}") for name, _, words in MARKS]
    found.append(swatch('<rect x="1" y="1" width="32" height="12" fill="#999"/><rect x="17" y="1" width="16" height="5" fill="#d55e00"/>',
                        "several, of which some waited: zoom in"))
    return patterns_html() + "".join(found)


def facts_html(trace, session, clock):
    lengths = Lengths(clock)
    owners = {(it.key.flock, it.key.owner) for it in session.held}
    found = [("Orders", len(trace.orders)), ("Files", len(session.files.names)), ("Owners of locks", len(owners)), ("Locks held", len(session.held)),
             ("Requests that waited", len(session.waits)), ("Requests with an error", len(session.refused)), ("Deadlocks", len(session.deadlocks))]
    facts = [(words, f"{number:,}") for words, number in found] + [(f"Longest wait, {lengths.unit}", lengths.longest(session.waits))]
    return "".join(f"<li>{words} <b>{number}</b></li>" for words, number in facts)


def notes_html(trace, session):
    found = []
    if trace.head:
        found.append(f"The trace begins with a head, which stands at 0, before order 1, and tells of {trace.head.before:,} orders and replies before. It doesn't tell "
                     f"how long locks were held by then, and requests waited. Its rules are <code>{trace.head.rules()}</code>.")
    if trace.is_cut:
        found.append("The last line is cut off, and isn't shown. Its order may lack replies.")
    if session.strays:
        found.append(f"{session.strays:,} replies belong to no request. So the trace breaks the rules: <code>lockd check</code> says where.")
    return "".join(f'<p class="note">{it}</p>' for it in found)


def ends(trace, clock):
    if clock:
        return "0 ms", f"{clock.places[-1] / 1_000_000:,.3f} ms"
    return "the head" if trace.head else "order 1", f"order {len(trace.orders):,}"


def data_html(data):
    """JSON that no tag can end."""
    return json.dumps(data, separators=(",", ":")).replace("<", "\\u003c")


def page(title, trace, session, clock):
    begin, end = ends(trace, clock) if trace.orders else ("", "")
    parts = {
        "title": text(title), "style": file_text("page.css"), "script": script_text(), "notes": notes_html(trace, session),
        "facts": facts_html(trace, session, clock), "overview": overview_html(session, clock), "begin": begin, "end": end, "legend": legend_html(),
        "tables": "\n".join(table_html(it, 1 - trace.first()) for it in tables(session, clock)), "data": data_html(chart(trace, session, clock)),
    }
    return re.sub(r"\{\{(\w+)\}\}", lambda it: parts[it[1]], file_text("page.html"))
