"""The control of the must-fail edits: python3 tests/test_harmless.py [VERDICT], after rt ci, whose output the file VERDICT holds.

That an edit is refused shows something only if the prover doesn't refuse just any edit. tests/harmless/CRATE/NAME.edit changes the same text
as crates/CRATE/must-fail/NAME.edit, but not its meaning, and the prover must accept it with the proofs as they stand. rt applies and tries
both in the same way: here in a copy of the tree, where the harmless ones stand in the place of the must-fail ones. rt begins with what it
kept of this tree, so that nothing is proved again.

Beside that, rt ci must have said of each must-fail edit that it is refused, and each such line, which has the first error, is looked at: an
error in src/ or specs/ would mean that the edit's own text is no Rattle or antt, and that it was refused for that and not for what it says.
"""

import re
import shutil
import subprocess
import sys
import tempfile
from pathlib import Path

ROOT = Path(__file__).resolve().parent.parent
HARMLESS = ROOT / "tests" / "harmless"
# What rt ci says of an edit that it refused, and of one that it didn't.
TOLD = re.compile(r"^rt: must-fail (\S+)\.edit: refused, as it must be.*$", re.MULTILINE)
OWN_TEXT = re.compile(r"\./(src|specs)/\S*: error")
ACCEPTED = "rt: must-fail %s.edit: NOT REFUSED"


def name_of(edit):
    return f"{edit.parent.name}/{edit.stem}"


def must_fail_edits():
    return sorted(ROOT.glob("crates/*/must-fail/*.edit"))


def replaced(edit):
    """The lines of an edit that say which text it replaces."""
    return [line for line in edit.read_text(encoding="utf-8").splitlines() if line.startswith(("file: ", "old: "))]


def without_twin(edits):
    """A complaint for each harmless edit that doesn't change the text of a must-fail edit of its name."""
    for edit in edits:
        twin = ROOT / "crates" / edit.parent.name / "must-fail" / edit.name
        if not twin.is_file():
            yield f"{name_of(edit)}: there is no {twin.relative_to(ROOT)}"
        elif replaced(edit) != replaced(twin):
            yield f"{name_of(edit)}: it changes another text than {twin.relative_to(ROOT)}"


def copy_tree(edits, room):
    """The crates, and what rt keeps of them, with the harmless edits in the place of the must-fail ones."""
    shutil.copy(ROOT / "crates.txt", room)
    shutil.copytree(ROOT / "crates", room / "crates", ignore=shutil.ignore_patterns("must-fail"))
    for edit in edits:
        place = room / "crates" / edit.parent.name / "must-fail"
        place.mkdir(exist_ok=True)
        shutil.copy(edit, place)


def refused(edits):
    """A complaint for each harmless edit with which its crate isn't proved, and what rt said."""
    with tempfile.TemporaryDirectory() as folder:
        room = Path(folder)
        copy_tree(edits, room)
        crates = sorted({edit.parent.name for edit in edits})
        run = subprocess.run(["rt", "must-fail", *crates], cwd=room, stdout=subprocess.PIPE, stderr=subprocess.STDOUT, encoding="utf-8")
        bad = [f"{name_of(edit)}: it is harmless, and the prover didn't accept it" for edit in edits if ACCEPTED % name_of(edit) not in run.stdout]
    return bad + [run.stdout] if bad else []


def of_own_text(told):
    """A complaint for each must-fail edit whose own text is wrong, and for edits of which nothing is told."""
    names = {f"{edit.parent.parent.name}/{edit.stem}" for edit in must_fail_edits()}
    for name in sorted(names - {line.group(1) for line in told}):
        yield f"{name}: rt ci didn't say that it is refused"
    for line in told:
        error = OWN_TEXT.search(line.group())
        if error:
            yield f"{line.group(1)}: refused for its own text: {error.group()}"


def main():
    edits = sorted(HARMLESS.glob("*/*.edit"))
    if not edits:
        sys.exit("tests/harmless has no edit")
    verdicts = [Path(path).read_text(encoding="utf-8") for path in sys.argv[1:]]
    told = [line for verdict in verdicts for line in TOLD.finditer(verdict)]
    complaints = [*without_twin(edits), *(of_own_text(told) if verdicts else [])] or refused(edits)
    if complaints:
        sys.exit("\n".join(complaints))
    read = f"of {len(told)} must-fail edits none was refused for its own text" if verdicts else "without rt ci's output no must-fail edit was looked at"
    print(f"{len(edits)} harmless edits accepted; {read}")


if __name__ == "__main__":
    main()
