"""The library's archive, byte for byte: python3 tests/test_archive.py [--write], after tools/build arbiter.

One kit makes one archive of a commit, whatever the folder and the time: no path, time or owner stands in it. include/libarbiter.sha256 has
its hash, in the form that `sha256sum -c` takes from the repository's top, and in a comment the kit that made it, as `rt version` prints it.
With that kit another archive is a failure; another kit may compile in another way, so then the difference is said and no more. --write
writes the file anew: a change of the proved code, or of the kit, asks for it.
"""

import hashlib
import subprocess
import sys
from pathlib import Path

ROOT = Path(__file__).resolve().parent.parent
ARCHIVE = "target/staticlib/libarbiter.a"
RECORDED = ROOT / "include" / "libarbiter.sha256"
KIT = "# "


def kit():
    return subprocess.run(["rt", "version"], check=True, stdout=subprocess.PIPE, encoding="utf-8").stdout.strip()


def hash_of_archive():
    archive = ROOT / ARCHIVE
    if not archive.is_file():
        sys.exit(f"there is no {ARCHIVE}: run tools/build arbiter")
    return hashlib.sha256(archive.read_bytes()).hexdigest()


def text_of(kit_id, digest):
    return f"{KIT}{kit_id}\n{digest}  {ARCHIVE}\n"


def recorded():
    """The kit and the hash in the file."""
    lines = RECORDED.read_text(encoding="utf-8").splitlines() if RECORDED.is_file() else []
    if len(lines) != 2 or not lines[0].startswith(KIT) or lines[1].split()[1:] != [ARCHIVE]:
        sys.exit(f"{RECORDED.relative_to(ROOT)} isn't there, or isn't a comment and a hash: --write writes it")
    return lines[0][len(KIT) :], lines[1].split()[0]


def main():
    if sys.argv[1:] not in ([], ["--write"]):
        sys.exit("usage: python3 tests/test_archive.py [--write]")
    kit_now, digest = kit(), hash_of_archive()
    if sys.argv[1:]:
        RECORDED.write_text(text_of(kit_now, digest), encoding="utf-8")
    kit_then, wanted = recorded()
    if digest == wanted:
        print(f"{ARCHIVE} is the archive recorded, sha256 {digest}")
    elif kit_now == kit_then:
        sys.exit(f"{ARCHIVE} isn't the archive recorded, though the kit is the same, {kit_now}: sha256 {digest}, recorded {wanted}")
    else:
        print(f"{ARCHIVE} isn't the archive recorded, sha256 {digest}; but the kit is {kit_now}, and not {kit_then}, so nothing is said against it")


if __name__ == "__main__":
    main()
