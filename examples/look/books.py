#!/usr/bin/env python3
"""Makes one page of a copy of the books, for a browser: where the value is, the payments that are lost or under way, with what
would settle each, what members owe each other, the largest purses, and each statement. It asks the questions of
docs/OPERATING.md, "Questions to the file", reads only, and writes the page to standard output.

books.py COPY [LARGEST] > books.html    LARGEST is how many of the largest purses are shown: 20 where it isn't given

COPY is a copy that `serve --copy` makes, or a file that no process has open. The page stands alone: it loads nothing and runs
nothing. It has no token, and all balances and names, so it is as secret as they are. It needs python3 (3.9 or later) with its
module sqlite3, of SQLite 3.38 or later, and nothing else. The status is 0, or 1 where the copy can't be read.
"""
import html
import os
import signal
import sqlite3
import sys
import urllib.parse

VIEWS = """
CREATE TEMP VIEW logged AS
  SELECT purse.name AS purse, entry.value AS details
    FROM purse, json_each('["' || replace(log, ';', '","') || '"]') AS entry WHERE log <> ''
  UNION SELECT purse, details FROM archive;
CREATE TEMP VIEW sent AS
  SELECT purse, details FROM logged UNION SELECT name, details FROM purse WHERE status = 'epa';
CREATE TEMP VIEW payment AS
  SELECT details, parts ->> 0 AS payer, parts ->> 1 AS payee, CAST(parts ->> 2 AS INTEGER) AS value
    FROM (SELECT details, '["' || replace(details, ',', '","') || '"]' AS parts
      FROM (SELECT details FROM purse WHERE details <> '' UNION SELECT details FROM logged));
"""
LOST = """
SELECT details, payer, payee, value, ((payer, details) IN archive), ((payee, details) IN archive),
    ((payer, details) IN tray), ((payee, details) IN tray), ((payer, details) IN logged)
  FROM payment WHERE (payer, details) IN sent AND (payee, details) IN logged
    AND details NOT IN (SELECT details FROM settled) ORDER BY payer, details
"""
UNDER_WAY = """
SELECT details, payer, payee, value,
    (SELECT status FROM purse WHERE name = payer AND purse.details = payment.details),
    (SELECT status FROM purse WHERE name = payee AND purse.details = payment.details),
    (payer, details) IN logged, (payee, details) IN logged,
    EXISTS (SELECT 1 FROM inbox WHERE purse = payee AND kind = 'val' AND inbox.details = payment.details),
    EXISTS (SELECT 1 FROM line WHERE purse = payee AND kind = 'received' AND note = payment.details),
    value * ((payer, details) IN sent
      AND (payee, details) IN (SELECT name, details FROM purse WHERE status = 'epv'))
  FROM payment WHERE details IN (SELECT details FROM purse) ORDER BY payer, details
"""
MEMBERS = """
SELECT member.name, granted, unspent, coalesce(sum(balance), 0), coalesce(sum(loaded), 0), coalesce(sum(redeemed), 0),
    coalesce(sum(uncollected), 0), count(purse.name)
  FROM member LEFT JOIN holder ON holder.member = member.name LEFT JOIN purse ON purse.holder = holder.name
    LEFT JOIN (SELECT purse, sum(amount) AS loaded FROM load GROUP BY purse) AS loads ON loads.purse = purse.name
    LEFT JOIN (SELECT purse, sum(amount) AS redeemed, sum(amount * (1 - collected)) AS uncollected FROM redemption GROUP BY purse)
      AS redemptions ON redemptions.purse = purse.name
  GROUP BY member.name ORDER BY member.name
"""
LARGEST = """
SELECT purse.name, purse.holder, holder.member, balance, status FROM purse JOIN holder ON holder.name = purse.holder
  ORDER BY balance DESC, purse.name LIMIT ?
"""
LINES = """
SELECT purse.name, purse.balance, purse.status, number, kind, amount, line.balance, note
  FROM purse LEFT JOIN line ON line.purse = purse.name ORDER BY purse.name, number
"""
STYLE = """
:root { color-scheme: light dark; --ground: #f5f3ee; --card: #fffefb; --ink: #1d2523; --soft: #56625e; --line: #dcd8cd; --accent: #0f6b62;
  --coin: #c98f14; --bad: #a1262b; }
@media (prefers-color-scheme: dark) { :root { --ground: #121816; --card: #1a2220; --ink: #e8ece9; --soft: #a3b1ac; --line: #2f3b37;
  --accent: #6cc7b8; --coin: #e9b949; --bad: #ff9b95; } }
* { box-sizing: border-box; }
body { margin: 0 auto; max-width: 68rem; padding: 1.5rem 1rem 4rem; background: var(--ground); color: var(--ink);
  font: 1rem/1.5 system-ui, "Noto Sans", "DejaVu Sans", sans-serif; overflow-wrap: anywhere; }
h1 { font-size: 1.5rem; margin: 0 0 1rem; } h2 { font-size: 1.15rem; margin: 0 0 .75rem; } p { margin: 0 0 .6rem; }
section, details { background: var(--card); border: 1px solid var(--line); border-radius: 16px; padding: 1.2rem 1.3rem; margin: 0 0 1rem; }
details { padding: .7rem 1.1rem; margin: 0 0 .5rem; } summary { cursor: pointer; display: flex; gap: 1rem; align-items: center; flex-wrap: wrap; }
summary b { min-width: 9rem; } summary svg { margin-left: auto; width: 9rem; }
.soft { color: var(--soft); font-size: .9rem; } code { font-family: ui-monospace, "DejaVu Sans Mono", monospace; font-size: .875em; }
.scrolls { overflow-x: auto; } table { width: 100%; border-collapse: collapse; font-size: .95rem; }
th { text-align: left; font-size: .85rem; color: var(--soft); white-space: nowrap; } td code { white-space: nowrap; } th, td { overflow-wrap: normal; padding: .4rem .7rem .4rem 0; border-bottom: 1px solid var(--line); vertical-align: top; }
tr:last-child > * { border-bottom: 0; } .wide { min-width: 16rem; } .number { text-align: right; font-variant-numeric: tabular-nums; white-space: nowrap; }
td svg { display: block; width: 100%; min-width: 8rem; } rect { fill: var(--accent); } .float { fill: var(--soft); } .transit { fill: var(--coin); } .lost, .owes { fill: var(--bad); }
.uncollected { fill: var(--line); stroke: var(--soft); } .whole { display: block; width: 100%; border-radius: 10px; margin: 0 0 1rem; }
.mid { stroke: var(--soft); } polyline { fill: none; stroke: var(--accent); stroke-width: 1.5; } .wrong { color: var(--bad); font-weight: 600; }
:focus-visible { outline: 3px solid var(--accent); outline-offset: 2px; }
"""
HEAD = f"""<!doctype html>
<html lang="en"><head><meta charset="utf-8"><meta name="viewport" content="width=device-width, initial-scale=1">
<meta http-equiv="Content-Security-Policy" content="default-src 'none'; style-src 'unsafe-inline'; form-action 'none'; base-uri 'none'">
<title>The books</title><style>{STYLE}</style></head><body><main><h1>The books</h1>
"""
WAYS = {"epr": "waits for the req", "epv": "waits for the val", "epa": "has paid, waits for the ack"}
POINTS = 120


class Raw(str):
    """A piece of the page. What isn't one is a text, and is escaped."""


def text(value):
    return value if isinstance(value, Raw) else Raw(html.escape(f"{value:,}" if isinstance(value, int) else str(value)))


def code(value):
    return Raw(f"<code>{text(str(value))}</code>")


def wide(value):
    return Raw(f'<div class="wide">{text(value)}</div>')


def table(heads, rows, numbers=()):
    """A table: its heads, its rows of texts and pieces, and which columns are numbers."""
    def row(name, cells):
        style = [' class="number"' if place in numbers else "" for place in range(len(heads))]
        return "<tr>" + "".join(f"<{name}{at}>{text(cell)}</{name}>" for at, cell in zip(style, cells)) + "</tr>"

    body = "".join(row("td", cells) for cells in rows)
    return Raw(f'<div class="scrolls" tabindex="0"><table><thead>{row("th", heads)}</thead><tbody>{body}</tbody></table></div>')


def section(title, *parts):
    return f"<section><h2>{text(title)}</h2>{''.join(text(part) for part in parts)}</section>\n"


def paragraph(words, style="soft"):
    return Raw(f'<p class="{style}">{text(words)}</p>')


def bar(value, most, style):
    width = 100 * value / most if most else 0
    return Raw(f'<svg viewBox="0 0 100 10" height="14" preserveAspectRatio="none" aria-hidden="true"><rect class="{style}" width="{width:.3f}" height="10"/></svg>')


def position_bar(value, most):
    """To the right what others owe, to the left what is owed."""
    width = 50 * abs(value) / most if most else 0
    start, style = (50, "has") if value >= 0 else (50 - width, "owes")
    return Raw(f'<svg viewBox="0 0 100 10" height="14" preserveAspectRatio="none" aria-hidden="true"><rect class="{style}" x="{start:.3f}" width="{width:.3f}" height="10"/>'
               '<line class="mid" x1="50" x2="50" y1="0" y2="10" vector-effect="non-scaling-stroke"/></svg>')


def where(sums, members):
    granted = sum(row[1] for row in members)
    names = [("balances", "held by purses"), ("transit", "under way"), ("lost", "lost"), ("uncollected", "redeemed, not collected"), ("float", "float of members")]
    at, whole = 0, ""
    for name, _ in names:
        width = 100 * sums[name] / granted if granted else 0
        whole += f'<rect class="{name}" x="{at:.3f}" width="{width:.3f}" height="10"/>'
        at += width
    label = ", ".join(f"{sums[name]:,} {word}" for name, word in names)
    whole = Raw(f'<svg class="whole" viewBox="0 0 100 10" height="36" preserveAspectRatio="none" role="img" aria-label="{text(label)}">{whole}</svg>')
    most = max(sums[name] for name, _ in names)
    rows = [(word, sums[name], bar(sums[name], most, name)) for name, word in names]
    held = sums["balances"] + sums["transit"] + sums["lost"] + sums["redeemed"]
    is_right = held == sums["issued"] and granted == sum(sums[name] for name, _ in names)
    told = f"{granted:,} were granted, {sums['issued']:,} issued, and {sums['redeemed']:,} redeemed in all."
    wrong = "" if is_right else paragraph("These sums don't fit each other: run check over the copy.", "wrong")
    return section("Where the value is", whole, table(["Where", "Value", ""], rows, [1]), paragraph(told), wrong)


def steps_of(row):
    """What would settle a lost payment."""
    details, payer, payee, _, *rest = row
    archived, read, is_logged = rest[0:2], rest[2:4], rest[4]
    steps = []
    for name, is_archived, is_read in zip((payer, payee), archived, read):
        if not is_archived:
            first = "" if is_read else f"the holder of {name} reads its log" + ("" if name != payer or is_logged else ", which breaks the payment off") + ", then "
            steps.append(f"{first}the operator archives {name}")
    steps.append(f"the operator settles {details}")
    return "; ".join(steps)


def lost(rows):
    if not rows:
        return section("Lost payments", paragraph("None."))
    cells = [(code(row[0]), row[3], f"{row[4] + row[5]} of 2", wide(steps_of(row))) for row in rows]
    return section("Lost payments", table(["Details", "Value", "Archived", "What settles it"], cells, [1]))


def way_of(row):
    """What happened to a payment under way, and what is to be done: the table of docs/OPERATING.md, "Lost payments"."""
    payer_status, payee_status, payer_logged, payee_logged, has_val, is_received = row[4:10]
    has_sent = payer_status == "epa" or payer_logged
    if is_received:
        return "The value came. The payer handles the ack, or aborts."
    if has_sent and payee_status == "epv":
        return "The value is on its way. The paid purse handles the val." if has_val else "The value is on its way, and its val is gone. The paid purse aborts, then it is settled."
    if has_sent and payee_logged:
        return "The value is lost: see above."
    if payer_status == "epr" and payee_status == "epv":
        return "Nothing is paid. The payer handles the req, or both abort, the payer first."
    if payer_status == "epr" and payee_logged:
        return "Nothing is paid. The payer aborts: what it paid now would be lost."
    if payer_status == "epr":
        return "Nothing is paid. The payee has to start it too, or the payer aborts."
    return "Nothing is paid. The payer has to start it too, or the paid purse aborts, once it knows that the payer won't."


def under_way(rows):
    if not rows:
        return section("Payments under way", paragraph("None."))
    def status(name, value):
        return f"{name}: {WAYS.get(value, 'not in it')}"
    cells = [(code(row[0]), row[3], row[10], status(row[1], row[4]), status(row[2], row[5]), wide(way_of(row))) for row in rows]
    return section("Payments under way", table(["Details", "Value", "On its way", "Payer", "Payee", "What to do"], cells, [1, 2]))


def signed(value):
    return f"{value:+,}".replace("-", "−") if value else "0"


def positions(members, sums):
    found = [(name, balance + redeemed - issued) for name, _, _, balance, issued, redeemed, _, _ in members]
    most = max((abs(value) for _, value in found), default=0)
    rows = [(name, signed(value), position_bar(value, most)) for name, value in found]
    told = (f"Above 0 the others owe the member so much, and below 0 the member owes it. All positions come to {signed(sum(value for _, value in found))}: "
            f"what is under way ({sums['transit']:,}) and lost ({sums['lost']:,}) has left the payers' members.")
    return section("What members owe each other", table(["Member", "Position", "Owes | is owed"], rows, [1]), paragraph(told))


def of_members(members):
    rows = [(name, granted, unspent, uncollected, issued, redeemed, balance, purses) for name, granted, unspent, balance, issued, redeemed, uncollected, purses in members]
    heads = ["Member", "Granted", "Float", "Uncollected", "Issued", "Redeemed", "Held", "Purses"]
    return section("Members", table(heads, rows, range(1, 8)))


def largest(rows):
    most = max((row[3] for row in rows), default=0)
    cells = [(name, holder, member, balance, bar(balance, most, "balances"), WAYS.get(status, "at rest")) for name, holder, member, balance, status in rows]
    return section("The largest purses", table(["Purse", "Holder", "Member", "Balance", "", "Status"], cells, [3]))


def line_of(balances):
    """The balance from line to line; of many lines so many as can be seen."""
    every = max(1, -(-len(balances) // POINTS))
    shown = balances[::every] + ([] if (len(balances) - 1) % every == 0 else balances[-1:])
    most, step = max(1, *shown), 100 / max(1, len(shown) - 1)
    points = " ".join(f"{place * step:.2f},{27 - 25 * value / most:.2f}" for place, value in enumerate(shown))
    return Raw(f'<svg viewBox="0 0 100 28" height="28" preserveAspectRatio="none" aria-hidden="true"><polyline points="{points}" vector-effect="non-scaling-stroke"/></svg>')


def statement(name, balance, status, lines):
    told = f"{len(lines):,} line{'' if len(lines) == 1 else 's'}, {WAYS.get(status, 'at rest')}"
    rows = [(str(number), kind, amount, after, code(note)) for number, kind, amount, after, note in lines]
    inside = table(["Line", "Kind", "Amount", "Balance", "Note"], rows, [0, 2, 3]) if rows else paragraph("No lines.")
    picture = line_of([0] + [line[3] for line in lines])
    return f'<details><summary><b>{text(name)}</b><span class="number">{text(balance)}</span><span class="soft">{text(told)}</span>{picture}</summary>{inside}</details>\n'


def statements(books):
    """Purse by purse, in one pass."""
    purse, lines = None, []
    for name, balance, status, *line in books.execute(LINES):
        if purse and purse[0] != name:
            yield statement(*purse, lines)
            lines = []
        purse = name, balance, status
        if line[0] is not None:
            lines.append(line)
    if purse:
        yield statement(*purse, lines)


def page(books, count):
    """The page, piece by piece, of one state of the books."""
    books.executescript(VIEWS)
    books.execute("BEGIN")
    lost_rows, ways, members = (books.execute(question).fetchall() for question in (LOST, UNDER_WAY, MEMBERS))
    sums = {
        "lost": sum(row[3] for row in lost_rows), "transit": sum(row[10] for row in ways), "float": sum(row[2] for row in members),
        "balances": sum(row[3] for row in members), "issued": sum(row[4] for row in members),
        "redeemed": sum(row[5] for row in members), "uncollected": sum(row[6] for row in members),
    }
    yield HEAD
    yield where(sums, members)
    yield lost(lost_rows)
    yield under_way(ways)
    yield positions(members, sums)
    yield of_members(members)
    yield largest(books.execute(LARGEST, [count]).fetchall())
    yield "<h2>Statements</h2>\n"
    yield from statements(books)
    yield "</main></body></html>\n"


def main(path, count="20"):
    signal.signal(signal.SIGPIPE, signal.SIG_DFL)
    try:
        books = sqlite3.connect(f"file:{urllib.parse.quote(os.path.abspath(path))}?mode=ro", uri=True, isolation_level=None)
        for piece in page(books, int(count)):
            sys.stdout.write(piece)
    except sqlite3.Error as error:
        print(f"books.py: {path}: {error}", file=sys.stderr)
        return 1
    return 0


if __name__ == "__main__":
    sys.stdout.reconfigure(encoding="utf-8")
    if not 2 <= len(sys.argv) <= 3:
        sys.exit(__doc__)
    sys.exit(main(*sys.argv[1:]))
