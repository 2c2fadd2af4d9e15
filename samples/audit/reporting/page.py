"""The report as one HTML page, made of the same values as the JSON and of nothing else. It has no
script and fetches nothing."""

import html
import json
from typing import Literal, Sequence, TypedDict

from . import pictures
from .making import Report
from .period import Figures, OfDay
from .pictures import Bar

MOST_DIFFERENCES, MOST_BARS, MOST_ROWS = 100, 40, 366
STYLE = """
body { color: #111; background: #fff; font: 1rem/1.5 system-ui, sans-serif; margin: 0 auto; padding: 0 1rem 2rem; max-width: 60rem; }
h1 { font-size: 1.6rem; line-height: 1.2; } h2 { font-size: 1.25rem; margin-top: 2.5rem; } h3 { font-size: 1.05rem; }
table { border-collapse: collapse; } caption { text-align: left; font-weight: bold; padding: .3rem 0; }
th, td { border-bottom: 1px solid #999; padding: .25rem 1.2rem .25rem 0; text-align: left; vertical-align: top; }
td.s { white-space: nowrap; } td.n, th.n { text-align: right; font-variant-numeric: tabular-nums; white-space: nowrap; }
.wide { overflow-x: auto; } .wide + .wide { margin-top: 1rem; } code, .sum { overflow-wrap: anywhere; font-family: ui-monospace, monospace; font-size: .9em; }
.good, .bad { border: 2px solid #111; padding: .6rem 1rem; font-weight: bold; } .good { border-color: #1b5e20; } .bad { border-color: #a10000; color: #a10000; }
.pair { display: grid; gap: 0 2rem; grid-template-columns: repeat(auto-fit, minmax(min(17rem, 100%), 1fr)); align-items: start; } .pair > * { min-width: 0; }
figure { margin: 0 0 1rem; max-width: 30rem; } figcaption { font-weight: bold; padding: .3rem 0; } svg { width: 100%; height: auto; }
svg text { fill: #111; font: 130px system-ui, sans-serif; }
.sign dd { border-bottom: 1px solid #111; margin: 0 0 .5rem; min-height: 2.5rem; } .sign dt { font-size: .9rem; }
small { color: #333; } @media (max-width: 30rem) { table { font-size: .8rem; } th, td { padding-right: .5rem; } .wide small { display: block; } }
@media print { body { max-width: none; font-size: 10pt; } h2, h3, caption { break-after: avoid; } tr, figure, .sign { break-inside: avoid; } .wide { overflow: visible; } }
"""

# What this can't show: always, and by what the store was compared with.
ENTERED = "That a rate is Treasury's, that a bond is genuine, and that a payee is who they said: the store has what the bank entered."
SENT_AGAIN = "How often a request was sent under its own number: it acts once, and a retry leaves no trace in the store."
UNUSED = "The unused bytes of a page: no row has them, and the program doesn't read them."
CONSISTENT = "taken out, added, moved or rewritten together with all that depends on it. Such a store is consistent, and so is one that was restored from an older copy."
ALONE = f"That no request was {CONSISTENT} An archive of the requests shows it (--archive); an earlier report shows it for the requests that it had (--earlier)."
SINCE = f"That no request since the earlier report was {CONSISTENT} An archive of the requests shows it (--archive)."
BEHIND = "Requests after the end of the archive: the test archive names those rows in a remark, and nothing vouches for them."
WRITTEN_ANEW = "That the archive is the one that was written: whoever can write its folder can make a right chain. Give the archive of a second machine too."
SIGNED = "That the earlier report is the one that was signed: compare its sum with the signed page."


def escaped(value: object) -> str:
    return html.escape(str(value))


def grouped_digits(value: object) -> str:
    """A number with a comma between thousands; a sum of money keeps its cents."""
    whole, point, rest = str(value).partition(".")
    return f"{int(whole):,}{point}{rest}"


def kind_of(cell: object, is_number: bool) -> str:
    """The class of a cell: a number, a short word or date that stays on one line, or nothing."""
    is_short = len(str(cell)) <= 17 and "<" not in str(cell)
    return ' class="n"' if is_number else ' class="s"' if is_short else ""


def table(
    caption: str, heads: list[str], rows: Sequence[Sequence[object]], numbers: set[int]
) -> str:
    """A table, or a line without rows; the columns whose places are in `numbers` hold numbers."""
    if not rows:
        return f"<p>{escaped(caption)}: none.</p>\n"
    head = "".join(
        f'<th scope="col"{kind_of(name, place in numbers)}>{escaped(name)}</th>'
        for place, name in enumerate(heads)
    )
    body = "\n".join(
        "<tr>"
        + "".join(
            f"<td{kind_of(cell, place in numbers)}>{cell}</td>" for place, cell in enumerate(row)
        )
        + "</tr>"
        for row in rows
    )
    return f'<div class="wide">\n<table>\n<caption>{escaped(caption)}</caption>\n<thead><tr>{head}</tr></thead>\n<tbody>\n{body}\n</tbody>\n</table>\n</div>\n'


def figure(caption: str, drawing: str) -> str:
    return f"<figure>\n<figcaption>{escaped(caption)}</figcaption>\n{drawing}\n</figure>\n"


def pair(*parts: str) -> str:
    """Parts that stand side by side where there is room."""
    return '<div class="pair">\n' + "".join(parts) + "</div>\n"


def dollars(money: str) -> int:
    return int(money.partition(".")[0])


# ---- what was tested


def verdict(report: Report) -> str:
    tests, differing = report["tests"], report["differing"]
    told = f"{len(tests)} tests of {grouped_digits(report['tested'])} rows: {grouped_digits(differing)} differing."
    if differing:
        names = [test["name"] for test in tests if test["differing"]]
        return f'<p class="bad">{told} See the test{"s" if len(names) > 1 else ""} {escaped(", ".join(names))}.</p>\n'
    return f'<p class="good">{told}</p>\n'


def what_was_read(report: Report) -> str:
    files = table(
        "Files",
        ["File", "Bytes", "SHA-256"],
        [
            [
                f"<code>{escaped(one['name'])}</code>",
                grouped_digits(one["bytes"]),
                f'<span class="sum">{one["sha256"]}</span>',
            ]
            for one in report["files"]
        ],
        {1},
    )
    store = report["store"]
    days = f"{store['first_day']} to {store['last_day']}" if store["first_day"] else "none"
    counts = ", ".join(f"{grouped_digits(count)} {name}" for name, count in store["rows"].items())
    opened = f"; {store['open_day']} is open" if store["open_day"] else ""
    return f"<h2>What was read</h2>\n{files}<p>A store of version {escaped(store['version'])}, as of {report['as_of']}. Days: {days}{opened}. Rows: {counts}.</p>\n"


def tests_table(report: Report) -> str:
    rows = [
        [
            escaped(test["name"]),
            f"{escaped(test['title'])}. <small>{escaped(test['source'])}</small>",
            grouped_digits(test["tested"]),
            grouped_digits(test["differing"]),
        ]
        for test in report["tests"]
    ]
    remarks = "".join(
        f"<p>{escaped(test['name'])}: {escaped(remark)}</p>\n"
        for test in report["tests"]
        for remark in test["remarks"]
    )
    return (
        "<h2>What was tested</h2>\n"
        + table("Tests", ["Test", "What it shows, and its rule", "Rows", "Differing"], rows, {2, 3})
        + remarks
    )


def differences(report: Report) -> str:
    parts = []
    for test in report["tests"]:
        if test["differing"]:
            shown = test["differences"][:MOST_DIFFERENCES]
            rows = [
                [
                    escaped(one["table"]),
                    escaped(one["row"]),
                    escaped(one["what"]),
                    f"<code>{escaped(one['found'])}</code>",
                    f"<code>{escaped(one['wanted'])}</code>",
                ]
                for one in shown
            ]
            left = test["differing"] - len(shown)
            more = (
                f"<p>And {grouped_digits(left)} more; report.json has the first {len(test['differences'])}.</p>\n"
                if left
                else ""
            )
            parts.append(
                table(
                    f"{test['name']}: {test['title']}",
                    ["Table", "Row", "What", "In the store", "By the rules"],
                    rows,
                    set(),
                )
                + more
            )
    return "<h2>What differs</h2>\n" + ("".join(parts) or "<p>Nothing.</p>\n")


def remarks_part(report: Report) -> str:
    parts = []
    for kind in report["remarks"]:
        if kind["count"]:
            shown = kind["rows"][:MOST_DIFFERENCES]
            left = kind["count"] - len(shown)
            more = f"<p>And {grouped_digits(left)} more.</p>\n" if left else ""
            parts.append(
                table(
                    f"{kind['title']}: {grouped_digits(kind['count'])}",
                    ["Row", "What"],
                    [[escaped(one["row"]), escaped(one["what"])] for one in shown],
                    set(),
                )
                + more
            )
    told = (
        "<p>Nothing here is against the rules. Ask the bank about each.</p>\n"
        if parts
        else "<p>None.</p>\n"
    )
    return "<h2>Remarks</h2>\n" + told + "".join(parts)


def not_shown(report: Report) -> str:
    names = {test["name"] for test in report["tests"]}
    lines = [
        ENTERED,
        *(
            (BEHIND, WRITTEN_ANEW)
            if "archive" in names
            else (SINCE,)
            if "earlier" in names
            else (ALONE,)
        ),
    ]
    lines += [*((SIGNED,) if "earlier" in names else ()), SENT_AGAIN, UNUSED]
    return (
        "<h2>What this can't show</h2>\n<ul>\n"
        + "".join(f"<li>{escaped(line)}</li>\n" for line in lines)
        + "</ul>\n"
    )


def digests_part(report: Report) -> str:
    found = report["digests"]
    shown = found[-MOST_ROWS:]
    left = len(found) - len(shown)
    rows = [
        [
            one["day"] or "since then",
            grouped_digits(one["requests"]),
            f'<span class="sum">{escaped(one["sha256"])}</span>',
        ]
        for one in shown
    ]
    told = "<p>Every digest is over the kept requests of its day, and over the digest before it. docs/AUDIT.md defines it. A later report compares its store with these (--earlier).</p>\n"
    more = f"<p>The {grouped_digits(left)} before stand in report.json.</p>\n" if left else ""
    return (
        "<h2>Digests of closed days</h2>\n"
        + told
        + table("Digests", ["Day", "Requests so far", "SHA-256"], rows, {1})
        + more
    )


def rates_table(report: Report) -> str:
    rows = [
        [one["from"], one["rate"], one["extension"], grouped_digits(one["bonds"])]
        for one in report["rates"]
    ]
    return (
        "<h2>Rates that were entered</h2>\n<p>The fixed rate, and the rate of extended maturity. Compare each with Treasury's announcement (--announced).</p>\n"
        + table("Rates", ["Issued from", "Fixed", "Extension", "Bonds"], rows, {1, 2, 3})
    )


# ---- a year's interest


def interest_part(report: Report) -> str:
    found = report["interest"]
    if found is None:
        return ""
    heads = ["Payee", "Bonds", "Paid", "Price", "Interest"]
    shown = found["payees"][:MOST_ROWS]
    rows = [
        [
            one["payee"],
            *(grouped_digits(one[name]) for name in ("bonds", "paid", "price", "interest")),
        ]
        for one in shown
    ]
    sums = (
        [
            [
                "all",
                *(
                    grouped_digits(found["sums"][name])
                    for name in ("bonds", "paid", "price", "interest")
                ),
            ]
        ]
        if rows
        else []
    )
    left = len(found["payees"]) - len(shown)
    more = (
        f"<p>{grouped_digits(left)} more payees stand in interest-{found['year']}.csv.</p>\n"
        if left
        else ""
    )
    told = "<p>What every payee was paid on the days of the year, the issue prices of those bonds, and the interest between the two. Customers are numbers here: the bank has their names.</p>\n"
    return (
        f"<h2>Interest paid in {found['year']}</h2>\n{told}"
        + table("By payee", heads, [*rows, *sums], set(range(5)))
        + more
    )


# ---- the period


def period_part(report: Report) -> str:
    figures = report["period"]
    name = report["month"] or "all days"
    if figures is None:
        return (
            f"<h2>The period: {name}</h2>\n<p>These rows allow no figures; see what differs.</p>\n"
        )
    sums = figures["sums"]
    told = f"<p>{grouped_digits(sums['bonds'])} bonds were paid with {grouped_digits(sums['total'])} dollars: {grouped_digits(sums['price'])} of price and {grouped_digits(sums['interest'])} of interest.</p>\n"
    parts = [
        days_part,
        issues_part,
        denominations_part,
        ages_part,
        refusals_part,
        desks_part,
        largest_part,
        outlook_part,
    ]
    return f"<h2>The period: {name}</h2>\n{told}" + "".join(part(figures) for part in parts)


class Merged(TypedDict):
    """A day, a month or a year, with its whole dollars."""

    day: str
    bonds: int
    total: int


def merged(days: list[OfDay]) -> tuple[str, list[Merged]]:
    """The days, or their months or years if there are more than a picture has room for."""
    for name, length in (("day", 10), ("month", 7), ("year", 4)):
        groups: dict[str, list[OfDay]] = {}
        for day in days:
            groups.setdefault(day["day"][:length], []).append(day)
        if len(groups) <= MOST_BARS:
            break
    return name, [
        {
            "day": key,
            "bonds": sum(one["bonds"] for one in group),
            "total": sum(dollars(one["total"]) for one in group),
        }
        for key, group in groups.items()
    ]


def days_part(figures: Figures) -> str:
    name, groups = merged(figures["days"])
    if not groups:
        return "<h3>By day</h3>\n<p>No day was opened.</p>\n"
    short = [
        one["day"][5:] if name == "day" and len({g["day"][:4] for g in groups}) == 1 else one["day"]
        for one in groups
    ]
    drawn = figure(
        f"Bonds paid by {name}",
        pictures.columns(
            f"Bonds paid by {name}", [Bar(label, one["bonds"]) for label, one in zip(short, groups)]
        ),
    )
    drawn += figure(
        f"Dollars paid by {name}",
        pictures.columns(
            f"Dollars paid by {name}",
            [Bar(label, one["total"]) for label, one in zip(short, groups)],
        ),
    )
    shown = figures["days"][-MOST_ROWS:]
    left = len(figures["days"]) - len(shown)
    rows = [
        [
            one["day"] + ("" if one["is_closed"] else " (open)"),
            grouped_digits(one["tickets"]),
            grouped_digits(one["bonds"]),
            grouped_digits(one["total"]),
        ]
        for one in shown
    ]
    more = f"<p>The {left} days before stand in report.json.</p>\n" if left else ""
    return (
        "<h3>By day</h3>\n"
        + pair(drawn)
        + table("Days", ["Day", "Tickets", "Bonds", "Dollars"], rows, {1, 2, 3})
        + more
    )


def of_groups(
    figures: Figures,
    key: Literal["issue_periods", "denominations"],
    name: str,
    heading: str,
    column: str,
) -> str:
    groups = figures[key]
    if not groups:
        return ""
    bars = [Bar(str(one[name]), dollars(one["total"])) for one in groups]
    caption = "Dollars paid " + heading.lower()
    rows = [
        [one[name], grouped_digits(one["bonds"]), grouped_digits(one["total"])] for one in groups
    ]
    shown = table(heading, [column, "Bonds", "Dollars"], rows, {1, 2})
    return f"<h3>{heading}</h3>\n" + pair(
        figure(caption, pictures.rows(caption, bars, [f"{bar.size:,}" for bar in bars])), shown
    )


def issues_part(figures: Figures) -> str:
    return of_groups(figures, "issue_periods", "period", "By issue period", "Period from")


def denominations_part(figures: Figures) -> str:
    return of_groups(figures, "denominations", "denom", "By denomination", "Denomination")


def ages_part(figures: Figures) -> str:
    ages = figures["ages"]
    if not ages:
        return ""
    years = range(min(one["years"] for one in ages), max(one["years"] for one in ages) + 1)
    found = {one["years"]: one for one in ages}
    bars = [
        Bar(str(year), found[year]["bonds"], found[year]["note"])
        if year in found
        else Bar(str(year), 0)
        for year in years
    ]
    caption = "Bonds paid by age in years (brown: P5, with three months' penalty; blue: no note; grey: MA, matured)"
    rows = [
        [one["years"], one["note"], grouped_digits(one["bonds"]), grouped_digits(one["total"])]
        for one in ages
    ]
    return "<h3>By age</h3>\n" + pair(
        figure(caption, pictures.columns(caption, bars)),
        table("Ages", ["Years", "Note", "Bonds", "Dollars"], rows, {0, 2, 3}),
    )


def refusals_part(figures: Figures) -> str:
    refusals = figures["refusals"]
    if not refusals:
        return "<h3>Refusals</h3>\n<p>No request was refused.</p>\n"
    bars = [Bar(f"{one['code']} {one['name']}", one["requests"], "second") for one in refusals]
    drawn = figure(
        "Refused requests by code",
        pictures.rows("Refused requests by code", bars, [f"{bar.size:,}" for bar in bars]),
    )
    rows = [[one["code"], one["name"], grouped_digits(one["requests"])] for one in refusals]
    return "<h3>Refusals</h3>\n" + pair(
        drawn, table("Refusals", ["Code", "Name", "Requests"], rows, {0, 2})
    )


def desks_part(figures: Figures) -> str:
    desks = figures["desks"]
    if not desks:
        return ""
    told = "<p>“Again” counts requests for the same act as an earlier one of that desk, under another number. A retry under its own number acts once and leaves no trace.</p>\n"
    most = sorted(desks, key=lambda one: (-one["again"], one["desk"]))[:MOST_BARS]
    bars = [
        Bar(f"desk {one['desk']}", one["again"], "second")
        for one in sorted(most, key=lambda one: one["desk"])
    ]
    caption = "Acts asked for again by desk"
    drawn = (
        figure(caption, pictures.rows(caption, bars, [f"{bar.size:,}" for bar in bars]))
        if any(bar.size for bar in bars)
        else ""
    )
    rows = [
        [one["desk"], *(grouped_digits(one[name]) for name in ("requests", "refused", "again"))]
        for one in desks
    ]
    return (
        "<h3>Desks and retries</h3>\n"
        + told
        + pair(drawn, table("Desks", ["Desk", "Requests", "Refused", "Again"], rows, {0, 1, 2, 3}))
    )


def largest_part(figures: Figures) -> str:
    rows = [
        [one["ticket"], one["day"], one["payee"], one["bonds"], grouped_digits(one["total"])]
        for one in figures["largest"]
    ]
    return "<h3>The largest tickets</h3>\n" + table(
        "Tickets", ["Ticket", "Day", "Payee", "Bonds", "Dollars"], rows, {0, 2, 3, 4}
    )


def outlook_part(figures: Figures) -> str:
    outlook = figures["outlook"]
    if outlook is None:
        return "<h3>Outlook</h3>\n<p>No bond is unpaid, or no day was opened.</p>\n"
    months = outlook["months"]
    told = f"<p>{grouped_digits(outlook['bonds'])} bonds, bought for {grouped_digits(outlook['price'])} dollars, are unpaid at the end of this store. This is what they are worth in every month until the last one matures, if none is paid before. Below 12 months after issue a bond counts at its price, and before issue at nothing. report.json has every month.</p>\n"
    caption = "Dollars that the unpaid bonds are worth, by month"
    drawn = figure(
        caption,
        pictures.area(caption, [Bar(one["month"], dollars(one["worth"])) for one in months]),
    )
    shown = [
        one
        for place, one in enumerate(months)
        if place in (0, len(months) - 1) or one["month"].endswith("-01")
    ]
    rows = [
        [one["month"], grouped_digits(one["worth"]), grouped_digits(one["earning"])]
        for one in shown
    ]
    return (
        "<h3>Outlook</h3>\n"
        + told
        + pair(
            drawn,
            table(
                "Worth in the first month, every January, and the last month",
                ["Month", "Dollars", "Bonds that earn"],
                rows,
                {1, 2},
            ),
        )
    )


# ---- the page


def sign_part(report: Report, of_files: dict[str, str]) -> str:
    sums = [
        [f"<code>{escaped(one['name'])}</code>", f'<span class="sum">{one["sha256"]}</span>']
        for one in report["files"]
    ]
    sums += [
        [f"<code>{name}</code>", f'<span class="sum">{one}</span>']
        for name, one in of_files.items()
    ]
    lines = "".join(
        f"<dt>{name}</dt>\n<dd>&nbsp;</dd>\n"
        for name in ("Name", "Organisation", "Place and date", "Signature")
    )
    told = (
        "<h2>To sign</h2>\n<p>I read this report, and compared the sums below with the files.</p>\n"
    )
    return f'<section class="sign">\n{told}{table("Sums", ["File", "SHA-256"], sums, set())}<dl>\n{lines}</dl>\n</section>\n'


def page(report: Report, of_files: dict[str, str]) -> str:
    """The page, with the SHA-256 of every file next to it."""
    title = f"Audit of {escaped(report['files'][0]['name'])}"
    parts = [
        verdict,
        what_was_read,
        tests_table,
        differences,
        remarks_part,
        not_shown,
        digests_part,
        rates_table,
        interest_part,
        period_part,
    ]
    body = "".join(part(report) for part in parts) + sign_part(report, of_files)
    head = f'<meta charset="utf-8">\n<meta name="viewport" content="width=device-width, initial-scale=1">\n<title>{title}</title>\n<style>{STYLE}</style>'
    about = "<p>Worked out from the rows of the store by rules and arithmetic that share no code with the program that made it. The same store gives the same report on the same day, byte for byte.</p>"
    return f'<!DOCTYPE html>\n<html lang="en">\n<head>\n{head}\n</head>\n<body>\n<main>\n<h1>{title}</h1>\n{about}\n{body}</main>\n</body>\n</html>\n'


def json_text(report: Report) -> str:
    return json.dumps(report, indent=1, sort_keys=True) + "\n"
