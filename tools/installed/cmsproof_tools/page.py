"""The page of `cmsproof-archive report --html`: one file, whose one script is in it. All that others named is escaped."""
from __future__ import annotations

import base64
import hashlib
import html
import json
from collections import Counter
from pathlib import Path
from typing import Any, NamedTuple, Optional, Tuple

from cmsproof_tools import plots, timelines, trees_of_rows
from cmsproof_tools.certificates import Certificate
from cmsproof_tools.cures import known_cures, plain
from cmsproof_tools.evidenced import Records
from cmsproof_tools.known import Known as Acknowledged
from cmsproof_tools.lines import counts_as, parts_of
from cmsproof_tools.periods import Period
from cmsproof_tools.report import is_new
from cmsproof_tools.rows import Row, time_text
from cmsproof_tools.running import DONE, shown
from cmsproof_tools.state import VERDICTS, Basis, State, grounds_in
from cmsproof_tools.texts import in_order, trust_entries

# how many rows the table has; those that are not accepted come first
MOST_ROWS = 200_000
DIGESTS = {
    "1.3.14.3.2.26": "SHA-1",
    "2.16.840.1.101.3.4.2.1": "SHA-256",
    "2.16.840.1.101.3.4.2.2": "SHA-384",
    "2.16.840.1.101.3.4.2.3": "SHA-512",
    "2.16.840.1.101.3.4.2.4": "SHA-224",
    "2.16.840.1.101.3.4.2.5": "SHA-512/224",
    "2.16.840.1.101.3.4.2.6": "SHA-512/256",
    "2.16.840.1.101.3.4.2.12": "SHAKE256",
}


ROLES, GOOD = ("tsa", "signer"), ("accepted", "stamped", "evidenced")
# by what it is said how long a certificate lasts
SERVING = "Certificates last here until they serve no more, also where it is known for a shorter time that nobody revoked them."
# how many kinds of evidence records are told apart, and how many of these have a picture: those that must be renewed first
MOST_KINDS, MOST_PICTURES = 10_000, 20
# what says when the last time-stamp of a record must be renewed: by what it was judged, its algorithms and its authority
Last = Tuple[int, str, str, Tuple[str, ...]]
# a line of a row, and what it counts as
Line = Tuple[str, str]
# a role, and the SHA-256 of a certificate in it
Place = tuple[str, str]
Pairs = Counter[Place]


class Known(NamedTuple):
    """What a reader is told of a certificate: its subject, and until when it lasts by itself and by the list."""

    subject: str
    until: str


class Tally:
    """What the rows add up to."""

    def __init__(self) -> None:
        self.verdicts, self.years, self.codes = Counter[str](), Counter[str](), Counter[str]()
        # how many rows are not acknowledged, in all and of each code; None where nobody said what is
        self.new: int | None = None
        self.new_codes = Counter[str]()
        self.words: dict[str, str] = {}
        self.grounds: Counter[str] = Counter()
        self.bases: Counter[int] = Counter()
        self.judged: tuple[int, int] = (0, 0)
        # how many files have evidence records with the same time-stamps, by their grounds and their basis, and one of the files; how many of
        # these kinds must be renewed at the same moment; and of how many files the time-stamps are not kept
        self.evidenced, self.shown_times = Counter[Tuple[str, int]](), Counter[str]()
        self.examples: dict[tuple[str, int], Row] = {}
        self.due, self.unkept = Counter[Last](), 0

    def add(self, row: Row, basis: int, new: bool | None) -> None:
        """One row more, and whether it is new."""
        verdict = counts_as(row.line, row.part)
        self.verdicts[verdict] += 1
        self.bases[basis] += 1
        first, last = self.judged
        self.judged = min(first or row.judged, row.judged), max(last, row.judged)
        if verdict == "accepted":
            self.years[row.line.partition(" ")[2][:4]] += 1
            self.grounds[row.grounds] += 1
        elif verdict == "evidenced":
            self.shown_times[row.line.partition(" ")[2][:4]] += 1
            if (kind := (row.grounds, basis)) in self.evidenced or self.is_told_apart(row, basis):
                self.evidenced[kind] += 1
                self.examples.setdefault(kind, row)
        elif code := code_of(row):
            self.codes[code] += 1
            self.new_codes[code] += bool(new)
            self.words.setdefault(code, verdict)
        if new is not None:
            self.new = (self.new or 0) + new

    def is_told_apart(self, row: Row, basis: int) -> bool:
        """Whether an evidence record is told from others: of those that must be renewed at the same moment the first ones have pictures."""
        chains = grounds_in(row.grounds).chains
        self.unkept += not chains
        if not chains or len(self.evidenced) >= MOST_KINDS:
            return False
        last = basis, chains[-1].algorithm, chains[-1].digest, chains[-1].authorities
        self.due[last] += 1
        return self.due[last] <= MOST_PICTURES


def code_of(row: Row) -> str:
    """The code of a row, if its line has one."""
    return (parts_of(row.status, row.line) or {}).get("code", "")


class Hanging:
    """On what accepted files hang: for each role and certificate on how many, and how many on it alone; digests for each role."""

    def __init__(self, grounds: Counter[str]) -> None:
        self.files, self.alone, self.digests = Pairs(), Pairs(), Pairs()
        for text, number in grounds.items():
            several = grounds_in(text).holds
            for role in ROLES:
                found = {ground.certificate for ground in several if ground.role == role}
                for certificate in found:
                    self.files[role, certificate] += number
                    self.alone[role, certificate] += number if len(found) == 1 else 0
                for digest in {ground.digest for ground in several if ground.role == role}:
                    self.digests[role, digest] += number


def known_in(trusted: bytes, wanted: set[Place]) -> dict[Place, Known]:
    """What a trust list says of certificates in their roles: until when they serve, at the latest, but not longer than they last."""
    found: dict[Place, Known] = {}
    for entry in trust_entries(trusted):
        place = entry.role, hashlib.sha256(entry.octets).hexdigest()
        if place in wanted:
            certificate, listed = Certificate(entry.octets), Period(last=entry.last, serves=entry.serves)
            until = Period(last=certificate.time_text("not_valid_after")).cut(listed).served
            before = found.get(place)
            if before is None or in_order(before.until, until):
                found[place] = Known(certificate.name_text("subject"), until)
    return found


def known_certificates(state: State, bases: list[Basis], wanted: set[Place]) -> dict[Place, Known]:
    """What is told of certificates in their roles, from the trust lists by which rows were judged: where these differ, the earliest
    end."""
    found: dict[Place, Known] = {}
    for trust in sorted({basis.trust for basis in bases}):
        try:
            for place, known in known_in(state.trust_list(trust), wanted).items():
                if place not in found or in_order(known.until, found[place].until):
                    found[place] = known
        except (ValueError, IndexError):
            continue  # (a list that cannot be read names nothing)
    return found


def day_of(time: str) -> str:
    """A moment of the program as a day."""
    return f"{time[:4]}-{time[4:6]}-{time[6:8]}" if len(time) >= 8 else ""


def table(head: list[tuple[str, str]], rows: list[list[tuple[str, str]]]) -> str:
    """A table, of a head and values with the classes of their cells, escaped. Each cell has what the head says of it, which a narrow page
    shows before it."""
    titles = [html.escape(title) for _, title in head]
    heads = "".join(f'<th class="{name}">{title}</th>' for (name, _), title in zip(head, titles))
    body = "\n".join(
        "<tr>"
        + "".join(
            f'<td class="{name}" data-head="{title}">{html.escape(text)}</td>' for (name, text), title in zip(row, titles)
        )
        + "</tr>"
        for row in rows
    )
    return f'<div class="scroll"><table class="cards"><thead><tr>{heads}</tr></thead><tbody>\n{body}\n</tbody></table></div>'


def section(name: str, title: str, inside: str) -> str:
    """A section of the page."""
    return f'<section aria-labelledby="{name}"><h2 id="{name}">{html.escape(title)}</h2>\n{inside}\n</section>'


def totals(tally: Tally) -> str:
    """How many rows of each verdict there are."""
    count = sum(tally.verdicts.values())
    found = [(word, number) for word in VERDICTS if (number := tally.verdicts[word])]
    items = [
        f'<li class="{word}"><strong>{number:,}</strong>{word}, {100 * number / count:.1f} %</li>' for word, number in found
    ]
    if tally.new is not None:
        items.append(f'<li class="new"><strong>{tally.new:,}</strong>new: not accepted, and not acknowledged</li>')
    return f'<ul class="totals"><li><strong>{count:,}</strong>in all</li>{"".join(items)}</ul>'


def certificates_table(hanging: Hanging, known: dict[Place, Known], role: str) -> str:
    """On which certificates of a role the accepted files hang; those that end first come first."""
    found = [certificate for kind, certificate in hanging.files if kind == role]
    rows = []
    for name in sorted(found, key=lambda name: (known.get((role, name), Known("", "")).until, name)):
        place, nothing = (role, name), "(not in a list that is kept)" if name else "(could not be found)"
        about = known.get(place, Known(nothing, ""))
        numbers = [("number", f"{hanging.files[place]:,}"), ("number", f"{hanging.alone[place]:,}")]
        rows.append([("day", day_of(about.until)), ("", about.subject), *numbers, ("sum", name)])
    head = [("day", "Lasts until"), ("", "Subject"), ("number", "Files"), ("number", "Of no other"), ("", "SHA-256")]
    return table(head, rows)


def digests_table(hanging: Hanging) -> str:
    """By which digest algorithms signatures and stamps of the accepted files were made."""
    found = sorted({digest for _, digest in hanging.digests})
    rows = [
        [("", DIGESTS.get(name, name)), *(("number", f"{hanging.digests[role, name]:,}") for role in ("signer", "tsa"))]
        for name in found
    ]
    return table([("", "Digest algorithm"), ("number", "Files, of a signer"), ("number", "Files, of a stamp")], rows)


def rules(tally: Tally) -> str:
    """The rules that refused files: how many, with a link to these, when each refuses, and what helps."""
    cures, found, most = known_cures(), [], max(tally.codes.values())
    for code, number in sorted(tally.codes.items(), key=lambda pair: (-pair[1], pair[0])):
        name, count = html.escape(code), f"{number:,} file{'s' * (number > 1)}"
        new = "" if tally.new is None else f", {tally.new_codes[code]:,} new"
        link = f'<a href="#files" data-code="{name}">{count}{new}</a>'
        kind = tally.words[code]
        found.append(f'<h3 id="rule-{name}" class="{html.escape(kind)}">{name} <small>{link}</small></h3>')
        found.append(plots.bar(number / most, kind))
        if cure := cures.get(code):
            texts = ("When it refuses", cure.when), ("What helps", f"{cure.cure} (REFUSALS.md, section {cure.section})")
            said = "".join(f"<div><dt>{title}</dt><dd>{html.escape(plain(text))}</dd></div>" for title, text in texts)
            found.append(f"<dl>{said}</dl>")
    return "\n".join(found)


class Renewal(NamedTuple):
    """Files whose records have the same time-stamps: what these serve for, how many files they are, one of them, and what tells them from others."""

    uses: list[timelines.Use]
    files: int
    row: Row
    kind: tuple[str, int]


def renewals_in(tally: Tally, known: dict[Place, Known], bases: dict[int, Basis]) -> list[Renewal]:
    """The evidence records that must be renewed first."""
    authorities = {name: (about.subject, about.until) for (role, name), about in known.items() if role == "tsa"}
    found = []
    for (grounds, basis), count in tally.evidenced.items():
        policy = timelines.policy_of(bases[basis].policy if basis in bases else "")
        if uses := timelines.uses_of(grounds_in(grounds).chains, policy, authorities):
            found.append(Renewal(uses, count, tally.examples[grounds, basis], (grounds, basis)))
    return sorted(found, key=lambda one: (timelines.in_turn(one.uses[-1].due), one.row))[:MOST_PICTURES]


def renewals(tally: Tally, first: list[Renewal], trees: dict[tuple[str, int], str]) -> str:
    """The evidence records that must be renewed first, each with its time-stamps on a line of time, and its hash tree if there is a picture of it."""
    found = []
    for uses, count, row, kind in first:
        due, others = uses[-1].due, f" and {count - 1:,} more" if count > 1 else ""
        title = f"{shown(row.name)}{others}: existed by {day_of(uses[0].time)}"
        last = f"renew before {day_of(due)}" if due else "no end of the last time-stamp is known"
        found.append(f"<h3>{html.escape(title)} <small>{html.escape(last)}</small></h3>")
        found.append(f'<div class="scroll">{timelines.timeline(uses, title)}</div>')
        found.append(f"<p>{html.escape(timelines.last_text(uses))}</p>")
        found += [trees[kind]] if kind in trees else []
    left = sum(tally.shown_times.values()) - sum(one.files for one in first)
    unkept = f" Of {tally.unkept:,} of them the time-stamps are not kept: when to renew these is not known."
    more = f"<p>And {left:,} files more.{unkept if tally.unkept else ''}</p>"
    return "\n".join([*found, *([more] if left else [])])


def trees_of(state: State, only: str, records: Optional[Records], first: list[Renewal]) -> dict[tuple[str, int], str]:
    """The hash trees of the evidence records that must be renewed first, if their folder is named."""
    if records is None or not first:
        return {}
    rows = trees_of_rows.rows_of(state, only, {one.kind: one.row for one in first})
    return {one.kind: trees_of_rows.drawn(records, rows[one.kind], one.uses[0]) for one in first}


def bases_table(tally: Tally, bases: dict[int, Basis]) -> str:
    """By what the files were judged."""
    rows = []
    for number, count in sorted(tally.bases.items()):
        basis = bases.get(number, Basis("(unknown)", "", "", ""))
        policy = basis.policy or "as it is by default"
        rows.append(
            [("number", f"{count:,}"), ("sum", basis.trust), ("", policy), ("", basis.versions), ("sum", basis.content)]
        )
    head = [
        ("number", "Rows"),
        ("", "SHA-256 of the trust list"),
        ("", "Policy"),
        ("", "Versions"),
        ("", "SHA-256 of --content"),
    ]
    return table(head, rows)


def sections(tally: Tally, hanging: Hanging, known: dict[Place, Known], bases: dict[int, Basis], renewed: str) -> str:
    """All that stands before the table of files. `renewed` is what is said of evidence records that must be renewed."""
    found = [section("totals", "In all", totals(tally))]
    if tally.years:
        what = "Counted are the accepted files with a valid stamp of the authority. What lasts "
        what += "shortest must be stamped anew first, above all files with stamps of no other authority. " + SERVING
        found += [
            section(
                "years",
                "Accepted: by which year",
                f'<div class="scroll">{plots.columns(tally.years, "Accepted files by the year of their moment")}</div>',
            ),
            section(
                "authorities",
                "On which authority they hang",
                f"<p>{what}</p>" + certificates_table(hanging, known, "tsa"),
            ),
            section("signers", "Under which signer's certificate", certificates_table(hanging, known, "signer")),
            section("digests", "By which digest algorithm", digests_table(hanging)),
        ]
    if tally.shown_times:
        plot = plots.columns(tally.shown_times, "Files with evidence records by the year of their moment")
        what = "A time-stamp serves until the next one takes over; the last one must be renewed before its authority or its algorithm ends. "
        what += "Dark is how long it serves, light how long it could. " + SERVING
        found.append(section("evidenced", "With evidence records: by which year", f'<div class="scroll">{plot}</div>'))
        found.append(section("renewals", "What of them must be renewed first", f"<p>{what}</p>{renewed}"))
    if tally.codes:
        found.append(section("rules", "Not accepted: by which rule, and what helps", rules(tally)))
    return "\n".join([*found, section("bases", "By what they were judged", bases_table(tally, bases))])


def row_data(name: str, row: Row, lines: dict[Line, int], places: dict[str, int], known: dict[Place, Known]) -> list[object]:
    """A row as the script of the page has it, whose file is shown by this name."""
    decided = grounds_in(row.grounds).decided if row.status == DONE else ()
    found = list(dict.fromkeys(authority for one in decided for authority in one.authorities))
    until = max((known["tsa", authority].until for authority in found if ("tsa", authority) in known), default="")
    place = lines.setdefault((row.line, counts_as(row.line, row.part)), len(lines))
    judged = "" if row.judged <= 0 else day_of(time_text(row.judged))
    return [name, place, judged, [places.setdefault(authority, len(places)) for authority in found], day_of(until)]


def embedded(value: object) -> str:
    """A value as JSON that stands in a script element: nothing in it can end the element (HTML 4.12.1.3)."""
    text = json.dumps(value, ensure_ascii=True, separators=(",", ":"))
    return text.replace("&", "\\u0026").replace("<", "\\u003c").replace(">", "\\u003e")


def read_all(state: State, only: str, acknowledged: Acknowledged | None) -> tuple[Tally, list[Row], int]:
    """What all rows add up to, the rows for the table, those that are not accepted before others, and how many of these there are."""
    tally, others, good = Tally(), list[Row](), list[Row]()
    for row, basis in state.rows(only):
        tally.add(row, basis, None if acknowledged is None else is_new(state, row, acknowledged))
        kept = good if row.status == DONE else others
        if len(kept) < MOST_ROWS:
            kept.append(row)
    return (
        tally,
        sorted((others + good)[:MOST_ROWS]),
        sum(number for word, number in tally.verdicts.items() if word not in GOOD),
    )


def left_out(tally: Tally, rows: list[Row], bad: int) -> str:
    """What the table does not have, of which so many rows are not accepted."""
    missing, missing_bad = sum(tally.verdicts.values()) - len(rows), max(0, bad - len(rows))
    what = f", of which {missing_bad:,} are not accepted" if missing_bad else ", all of them accepted, stamped or evidenced"
    return f"{missing:,} rows are not in this table{what}: --csv has them. " if missing else ""


def files_data(
    state: State, rows: list[Row], known: dict[Place, Known], acknowledged: Acknowledged | None
) -> dict[str, list[Any]]:
    """What the script of the page has of the files: their rows, the lines, what these count as and their codes, authorities, and which rows
    are new."""
    lines: dict[Line, int] = {}
    places: dict[str, int] = {}
    codes: dict[str, str] = {}
    data = [row_data(state.called(row), row, lines, places, known) for row in rows]
    for row in rows:
        if row.line not in codes:
            codes[row.line] = code_of(row) if row.status != DONE else ""
    return {
        "rows": data,
        "lines": [line for line, _ in lines],
        "verdicts": [verdict for _, verdict in lines],
        "codes": [codes[line] for line, _ in lines],
        "authorities": [known["tsa", name].subject if ("tsa", name) in known else name for name in places],
        "new": [] if acknowledged is None else [at for at, row in enumerate(rows) if is_new(state, row, acknowledged)],
    }


def codes_in(tally: Tally) -> str:
    """The choices of a rule in the form over the table."""
    return "".join(f"<option>{html.escape(code)}</option>" for code in sorted(tally.codes))


def page(state: State, only: str, acknowledged: Acknowledged | None = None, records: Optional[Records] = None) -> str:
    """The page of all rows, or of those of one verdict; with what is acknowledged it tells what is new, with records it has their hash trees."""
    tally, rows, bad = read_all(state, only, acknowledged)
    bases = state.bases()
    hanging = Hanging(tally.grounds)
    chained = {("tsa", name) for text, _ in tally.evidenced for link in grounds_in(text).chains for name in link.authorities}
    wanted = chained.union(hanging.files)
    known = known_certificates(state, [bases[number] for number in tally.bases if number in bases], wanted)
    first = renewals_in(tally, known, bases)
    renewed = renewals(tally, first, trees_of(state, only, records, first))
    folder = Path(__file__).parent
    script = (folder / "page.js").read_text(encoding="utf-8")
    said = f"The state {html.escape(shown(state.path))}" + (f", of which only what is {only} is counted" if only else "")
    said += f", judged from {day_of(time_text(tally.judged[0]))}"
    several = " Not all by the same list, policy and version: the part before the table says which." * (len(tally.bases) > 1)
    parts = {
        "@STYLE@": (folder / "page.css").read_text(encoding="utf-8"),
        "@INTRODUCTION@": f"{said} to {day_of(time_text(tally.judged[1]))}.{several}" if rows else "The state has no rows.",
        "@SECTIONS@": sections(tally, hanging, known, bases, renewed),
        "@LEFT_OUT@": left_out(tally, rows, bad),
        "@FOOTER@": "A record and no evidence: it says what the state says, also of files that are gone or changed since. <code>cmsproof-archive evidence</code> makes a bundle "
        "that shows a verdict again.",
        "@HASH@": base64.b64encode(hashlib.sha256(script.encode()).digest()).decode(),
        "@CODES@": codes_in(tally),
        "@NEW@": '<option value="new">new</option>' if acknowledged is not None else "",
        "@DATA@": embedded(files_data(state, rows, known, acknowledged)),
        "@SCRIPT@": script,
    }
    return filled((folder / "page.html").read_text(encoding="utf-8"), parts)


def filled(template: str, parts: dict[str, str]) -> str:
    """The template with each place filled; what is put is not looked at again, whatever it has."""
    text, places = [], template
    for name, part in sorted(parts.items(), key=lambda pair: template.index(pair[0])):
        before, _, places = places.partition(name)
        text += [before, part]
    return "".join([*text, places])
