#!/usr/bin/env python3
"""Takes the devices that no task claims out of a stored set, and tells by its status what came of it:
0 the set is cleaned, 1 it is refused, 2 neither.

The set is text as words.py reads it, or bytes with --bytes. The cleaned set goes to standard output, in bytes,
four a word, lowest first; or into a file with -o, which is replaced only when all went well and keeps what it had
otherwise. So '--bytes x.set -o x.set' mends a stored set where it is. A set that has no such device comes back as it was.

A refusal goes to standard output as one line 'refused N at P', and in a sentence to standard error, with the
line of the text where it has one: 'clean.py: FILE:LINE: what is wrong'.

Status 2 comes with a line on standard error, if something could not be read, run or written, or if what the
program wrote is neither such a line nor a whole set, whose last word is END with the number of words before it.
"""
import os
import stat
import struct

from programs import arguments_on_a_set, refusal_in, run, set_in, told
from set_text import FIELDS, KINDS, Complaint, end_with, put, say, shown, title

PROGRAM = "clean.py"


def is_set(output):
    """Words in bytes, of which the last is END and counts the others."""
    if len(output) == 0 or len(output) % 4 != 0:
        return False
    return struct.unpack("<I", output[-4:])[0] == KINDS[b"END"] * FIELDS + len(output) // 4 - 1


def same_file(name, other):
    try:
        return os.path.samefile(name, other)
    except OSError:
        return False


def replace(path, data):
    """Writes the bytes into a new file beside that of the path, which then takes its place, owner and permissions at once."""
    old = os.stat(path) if os.path.exists(path) else None
    if old and not stat.S_ISREG(old.st_mode):
        raise Complaint("%s: it is no plain file, so none can take its place" % shown(path))
    beside = "%s.%d.new" % (path, os.getpid())
    with open(beside, "xb") as file:
        try:
            file.write(data)
            file.flush()
            os.fsync(file.fileno())
            if old:
                os.chown(beside, old.st_uid, old.st_gid)
                os.chmod(beside, stat.S_IMODE(old.st_mode))
            os.replace(beside, path)
        except BaseException:
            os.remove(beside)
            raise


def keep(name, data):
    """Puts the bytes into a file, and leaves it as it was if that fails."""
    try:
        replace(os.path.realpath(name), data)
    except OSError as error:
        raise Complaint("%s: %s" % (shown(name), error.strerror))


def main():
    parser = arguments_on_a_set(PROGRAM, __doc__, "cleaner", "clean")
    parser.add_argument("-o", "--output", metavar="FILE", help="put the cleaned set into this file, and not to standard output")
    options = parser.parse_args()
    if options.output is not None and not options.bytes and same_file(options.file, options.output):
        raise Complaint("%s: it is a text, and what would take its place is bytes: name another file" % shown(options.output))
    text, data = set_in(options.file, options.bytes)
    for warning in text.warnings:
        say(PROGRAM, warning)
    output, status = run(options.cleaner, data)
    if status != 0:
        raise Complaint("%s: the cleaner ended with status %d" % (title(options.file), status))
    refusal = refusal_in(output)
    if refusal:
        put(output)
        say(PROGRAM, told(text, refusal))
        return 1
    if not is_set(output):
        raise Complaint("%s: what the cleaner wrote is neither a whole set nor a refusal" % title(options.file))
    if options.output is None:
        put(output)
    else:
        keep(options.output, output)
    return 0


if __name__ == "__main__":
    end_with(PROGRAM, main)
