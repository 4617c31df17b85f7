"""The tables that tools/make-definitions and tools/make-wrong-bodies put into docs/VERDICT.md."""


def with_table(page, heading, table):
    """The page with this table in place of the first one behind its heading, or None where it has
    none there."""
    before, found, behind = page.partition(f"\n{heading}\n")
    section, mark, rest = behind.partition("\n## ")
    if not found or "\n|" not in section:
        return None
    words, _, rows = section.partition("\n|")
    rows = ("|" + rows).split("\n")
    after = next(i for i, row in enumerate([*rows, ""]) if not row.startswith("|"))
    return before + found + words + "\n" + table + "\n".join(rows[after:]) + mark + rest
