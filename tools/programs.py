"""What plan.py, clean.py and trial.py share: a set in text or bytes, a program that is run on it, and a refusal told in a sentence."""
import os
import re
import subprocess

from set_text import Complaint, Text, arguments_of, bytes_of, read_bytes, read_text, shown, title

ROOT = os.path.dirname(os.path.dirname(os.path.abspath(__file__)))
HEADER = os.path.join(ROOT, "include", "arbiter.h")

# The refusals whose place is the index of a word. That of 2 is the first word too many; that of 24 is a device, whose word has its number as index.
AT_A_WORD = (2, 3, 4, 5, 6, 7, 8, 9, 10, 12, 24, 28)


def built(name):
    """Where the programs of this repository are built."""
    return os.path.join(ROOT, "target", "bin", name)


def arguments_on_a_set(tool, text, role, name):
    """The arguments of a tool that runs a program on a set: the set, and which program plays this role."""
    parser = arguments_of(tool, text)
    parser.add_argument("file", metavar="FILE", help="the set; - for standard input")
    parser.add_argument("--bytes", action="store_true", help="the set is in bytes, four a word, lowest first, as words.py makes them")
    parser.add_argument("--" + role, metavar="PATH", default=built(name), help="the %s to run (default: target/bin/%s in this repository)" % (role, name))
    return parser


def set_in(name, in_bytes):
    """A set, as a text without words and lines where it is in bytes, and its bytes."""
    if in_bytes:
        return Text(name, [], [], []), read_bytes(name)
    text = read_text(name)
    return text, bytes_of(text.words)


def run(program, data, words=()):
    """What a program that is given these arguments writes for these bytes, and its status; what it writes on standard error stays there."""
    try:
        ended = subprocess.run([os.path.abspath(program), *words], input=data, stdout=subprocess.PIPE)
    except OSError as error:
        name = os.path.basename(program)
        hint = " ('tools/build %s' builds it)" % name if program == built(name) else ""
        raise Complaint("%s: %s%s" % (shown(program), error.strerror, hint))
    return ended.stdout, ended.returncode


def refusal_in(output):
    """Number and place of a refusal, or None."""
    found = re.fullmatch(rb"refused ([0-9]{1,9}) at ([0-9]{1,9})\n", output)
    return found and tuple(int(part) for part in found.groups())


def sentence(number):
    """What a refusal means, out of the header's arbiter_refusal_text: its sentences stand there and in no table here."""
    try:
        with open(HEADER, encoding="utf-8", errors="replace") as file:
            header = file.read()
    except OSError:
        header = ""
    body = re.search(r"\barbiter_refusal_text\([^)]*\)\s*\{(.*?)^\}", header, re.M | re.S)
    for name, text in re.findall(r'case (\w+):\s*return "([^"]*)";', body.group(1) if body else ""):
        if re.search(r"^#define %s\s+%d\b" % (name, number), header, re.M):
            return text
    return "refusal %d, for which %s has no sentence" % (number, shown(HEADER))


def line_of(text, number, place):
    """Where a refusal's fault stands: the file, its line if it is text, and else the word."""
    if number not in AT_A_WORD:
        return title(text.name)
    if place < len(text.words):
        return "%s:%d" % (title(text.name), text.words[place].line)
    return "%s: word %d" % (title(text.name), place)


def told(text, refusal):
    """A refusal in a sentence, behind where its fault stands."""
    return "%s: %s" % (line_of(text, *refusal), sentence(refusal[0]))
