"""The table of must-fail edits in docs/PROOFS.md.

Faults: an edit of crates/*/must-fail is in no row of its crate; a row names an edit that its crate does not have.
"""
import glob
import re

from common import fault, quoted, read, rows, section

TABLE = "docs/PROOFS.md"
TITLE = "## Wrong answers ruled out"


def edits():
    """The edits of all crates, as crate/name."""
    paths = glob.glob("crates/*/must-fail/*.edit")
    return {f"{found[1]}/{found[2]}" for path in paths if (found := re.fullmatch(r"crates/(\w+)/must-fail/(\w+)\.edit", path))}


def check():
    """Compares the table with the edits, and says how many there are."""
    there, named = edits(), set()
    for cells in rows(section(read(TABLE), TITLE)):
        if len(cells) != 3:
            fault(f"{TABLE}: the row of {cells[0]} has {len(cells)} cells and not 3")
            continue
        crate = cells[0].strip("`")
        for name in quoted(cells[2]):
            if f"{crate}/{name}" in there:
                named.add(f"{crate}/{name}")
            elif owners := [edit for edit in sorted(there) if edit.endswith(f"/{name}")]:
                fault(f"{TABLE}: {name} is named for {crate}, but is {', '.join(owners)}")
            else:
                fault(f"{TABLE}: there is no edit {name} in crates/{crate}/must-fail")
    for edit in sorted(there - named):
        fault(f"{TABLE}: the edit {edit} is in no row")
    return f"{len(there)} edits that must fail"
