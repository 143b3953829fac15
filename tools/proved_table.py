"""The tables in `rust/PROVED.md`: which Rust sources are proved sources, what departs from them and why, and what is
hand-written and why. `tools/bodies.py` writes them from what it found, and checks that they are up to date."""

from translation import SENTENCES

BEGIN, END = "<!-- written by tools/bodies.py -->", "<!-- end -->"


def with_table(text, report):
    """The document with this report's tables between its two markers. Without markers it stays unchanged."""
    head, begin, rest = text.partition(BEGIN)
    _, end, tail = rest.partition(END)
    sections = (modules, departures, items_by_hand, files_by_hand, preconditions, languages)
    tables = "\n".join(section(report) for section in sections)
    return f"{head}{BEGIN}\n\n{tables}\n{END}{tail}" if begin and end else text


def rows_of(heading, text, columns, rows):
    """A section with a table."""
    lines = [f"## {heading}", "", text, "", line_of(columns), "|---" * len(columns) + "|"]
    return "\n".join([*lines, *(line_of(row) for row in rows), ""])


def line_of(cells):
    return "| " + " | ".join(str(cell).replace("|", r"\|") for cell in cells) + " |"


def code(text):
    """A text as code, between double backticks if it contains a backtick."""
    text = " ".join(text.split())
    return f"`` {text} ``" if "`" in text else f"`{text}`"


def short(file):
    return code(file.removeprefix("rust/"))


def place(row):
    item = row.get("item")
    return f"{short(row.get('file'))}: {code(item)}" if item else f"{short(row.get('file'))} as a whole"


def modules(report):
    rows = []
    for file, names in report.modules.items():
        counts = [report.counts[file, kind] for kind in ("equal", "departure", "hand_written")]
        rows.append((short(file), ", ".join(code(name.removeprefix("crates/")) for name in names), *counts))
    total = [sum(row[column] for row in rows) for column in (2, 3, 4)]
    text = (
        "Each Rust file in this table has the items of a module of the proved crates. An item is a function, a"
        " constant, a type, a trait, an implementation, a module, or all `use` lines of a file."
    )
    columns = ("File", "Proved source, in `crates/`", "Items that are the same", "that depart", "hand-written")
    return rows_of("Modules", text, columns, [*rows, ("all", "", *total)])


def departures(report):
    rows = [(place(row), row.get("reason")) for row in report.listed.of("departure")]
    return rows_of("What departs from the proved source", f"{len(rows)} items.", ("Item", "Why"), rows)


def items_by_hand(report):
    rows = [(place(row), row.get("reason")) for row in report.listed.of("hand_written") if row.get("item")]
    inside = sum(report.counts[file, "hand_written"] for file in report.modules)
    text = f"{len(rows)} items, of which {inside} are in the files of the table of modules."
    return rows_of("Hand-written items", text, ("Item", "What it is"), rows)


def files_by_hand(report):
    rows = []
    for row in report.listed.of("hand_written"):
        names = row.values.get("files") or ([] if row.get("item") else [row.get("file")])
        if names:
            rows.append((", ".join(short(name) for name in names), row.get("reason")))
    text = "These files are tested, not proved."
    return rows_of("Hand-written files", text, ("File", "What it is"), rows)


def preconditions(report):
    listed = report.listed.of("precondition")
    rows = [(code(row.get("clause")), row.get("rust") and code(row.get("rust")), row.get("reason")) for row in listed]
    text = (
        "A contract of Rattle may require something of the caller, and the prover checks that at each call. A public"
        " function in Rust checks it before anything else, if it can be checked and matters."
    )
    return rows_of("Preconditions", text, ("Clause", "Check in Rust", "Why"), rows)


def languages(_report):
    text = "These differences between the two languages are the same everywhere. They do not count as departures."
    return rows_of("Rattle and Rust", text, ("Rattle", "Rust", "Why"), SENTENCES)
