"""The tools for authors: python3 tests/test_words.py [PRINTER]. Without a printer, what needs the real one is left out."""
import os
import re
import signal
import struct
import subprocess
import sys
import tempfile
import unittest
from collections import namedtuple
from unittest import mock

ROOT = os.path.dirname(os.path.dirname(os.path.abspath(__file__)))
TOOLS = os.path.join(ROOT, "tools")
sys.path.insert(0, TOOLS)

import clean  # noqa: E402
import plan  # noqa: E402
import programs  # noqa: E402
import set_text  # noqa: E402
import trial  # noqa: E402
import words  # noqa: E402

PRINTER = os.path.abspath(sys.argv[1]) if len(sys.argv) > 1 else None
EXAMPLE_A = os.path.join(ROOT, "examples", "a.words")
EXAMPLE_D = os.path.join(ROOT, "examples", "d.words")
EXAMPLE_R = os.path.join(ROOT, "examples", "r.words")
EXAMPLE_S = os.path.join(ROOT, "examples", "s.words")
EXAMPLE_PATCH = os.path.join(ROOT, "examples", "patch.words")

# Desk examples a and d of docs/SCOPE.md, r and s of docs/AUTHORS.md and the radio patches, word by word, and the plans of a, r and the patches.
A = "10000001 10000001 20000000 30000000 30000001 40000001 40000000 20000000 30000001 30000000 40000000 40000001 5000000C"
D = """10000001 10000001 10000001 20000000 30000002 30000000 40000002 30000001 40000001 40000000
       20000000 30000001 30000002 40000002 30000000 40000000 40000001 50000011"""
R = """10000001 10000001 10000001 20000000 30000001 30000000 30000002 40000001 30000001 40000000
       40000001 40000002 20000000 30000001 30000000 40000000 30000002 40000002 40000001 50000013"""
S = "10000001 10000004 10000001 20000000 30000000 30000002 40000002 40000000 20000000 30000002 30000000 40000000 40000002 5000000D"
PATCH = "10000003 20000000 30010000 40000000 20000000 30010000 40000000 20000000 30000000 40000000 5000000A"
A_PLAN = "60000000 80000103 80010202 60000001 80000202 80010103 70000000 80000101 80010101 90000006 5000000A"
R_PLAN = """60000000 80000205 80010202 60000001 80000103 80010105 60000001 80000506 80010105 60000002 80000307 80010404
            70000000 80000304 80010103 9000001D A000001F 50000011"""
PATCH_PLAN = "60000000 80000101 80010101 80020002 50000004"

# The limits of a set, and how many refusals there are.
DEVICES, TASKS, ACTIONS, WORDS, REFUSALS = 16, 8, 255, 4096, 28

Ended = namedtuple("Ended", "status output said")


def words_in(text):
    return [int(word, 16) for word in text.split()]


def bytes_in(text):
    return struct.pack("<%dI" % len(text.split()), *words_in(text))


def lines_in(text):
    return "".join(word + "\n" for word in text.split()).encode()


class Case(unittest.TestCase):
    def setUp(self):
        folder = tempfile.TemporaryDirectory()
        self.addCleanup(folder.cleanup)
        self.folder = folder.name

    def file(self, data, name="x.words"):
        path = os.path.join(self.folder, name)
        with open(path, "wb") as file:
            file.write(data.encode() if isinstance(data, str) else data)
        return path

    def kept(self, name):
        with open(os.path.join(self.folder, name), "rb") as file:
            return file.read()

    def here(self, tool, *arguments):
        """A tool's main in this process, which is faster."""
        output, said = [], []
        with mock.patch.multiple(tool, put=output.append, say=lambda program, message: said.append("%s: %s\n" % (program, message))):
            with mock.patch.object(sys, "argv", [tool.PROGRAM, *arguments]):
                try:
                    status = tool.main()
                except set_text.Complaint as complaint:
                    status = 2
                    said.append("%s: %s\n" % (tool.PROGRAM, complaint))
        return Ended(status, b"".join(output), "".join(said))

    def program(self, tool, *arguments, redirect="", data=b""):
        """A tool as a program, its inputs and outputs redirected by the shell, which can close them."""
        command = [sys.executable, os.path.join(TOOLS, tool.PROGRAM), *arguments]
        ended = subprocess.run(["sh", "-c", '"$@" ' + redirect, "sh", *command], input=data, stdout=subprocess.PIPE, stderr=subprocess.PIPE, timeout=60)
        return Ended(ended.returncode, ended.stdout, ended.stderr.decode())

    def stand_in(self, output, ending="exit 0"):
        """A program that keeps its input and its arguments, and prints this."""
        self.file(output, "output")
        path = self.file('#!/bin/sh\ncd "%s"\ncat > input\necho "$@" >> arguments\ncat output\n%s\n' % (self.folder, ending), "stand_in")
        os.chmod(path, 0o755)
        return path

    def assert_complaint(self, ended, *parts, output=b""):
        """Status 2, and one line on standard error; on standard output nothing, or only what the program printed."""
        self.assertEqual((ended.status, ended.output), (2, output), ended.said)
        self.assertRegex(ended.said, r"\A(words|plan|clean|trial)\.py: .+\n\Z")
        for part in parts:
            self.assertIn(part, ended.said)


class Reading(Case):
    """The text's form."""

    def words(self, data):
        return [word.value for word in set_text.read_text(self.file(data)).words]

    def complaint(self, data):
        path = self.file(data)
        with self.assertRaises(set_text.Complaint) as raised:
            set_text.read_text(path)
        return str(raised.exception).replace(path, "FILE")

    def test_examples(self):
        for path, expected in ((EXAMPLE_A, A), (EXAMPLE_D, D), (EXAMPLE_R, R), (EXAMPLE_S, S), (EXAMPLE_PATCH, PATCH)):
            text = set_text.read_text(path)
            self.assertEqual([word.value for word in text.words], words_in(expected))
            self.assertEqual(text.warnings, [])

    def test_examples_of_the_page(self):
        """The page for authors writes example a in both ways, a word a line, and has the words of r."""
        with open(os.path.join(ROOT, "docs", "AUTHORS.md"), encoding="utf-8") as file:
            page = file.read()
        blocks = [block for block in re.findall(r"(?:^    .*\n)+", page, re.M) if re.match(r"    (10000001|DEVICE)", block)]
        self.assertEqual(len(blocks), 3)
        for block in blocks[:2]:
            self.assertEqual(self.words(block), words_in(A))
        self.assertEqual(blocks[2].split(), R.split())

    def test_plans_of_the_page(self):
        """The page lists the plans of r and of example a by their indices."""
        with open(os.path.join(ROOT, "docs", "AUTHORS.md"), encoding="utf-8") as file:
            page = file.read()
        listed = re.findall(r"^ +([0-9]+) +([0-9A-F]{8})    +\S", page, re.M)
        self.assertEqual(listed, [(str(index), word) for plan_words in (R_PLAN, A_PLAN) for index, word in enumerate(plan_words.split())])

    def test_names(self):
        text = "DEVICE 1\nDEVICE 8\nTASK\nCLAIM 0\nCLAIM 10\nRELEASE 00010\nRELEASE 0\nEND\n"
        self.assertEqual(self.words(text), words_in("10000001 10000008 20000000 30000000 3000000A 4000000A 40000000 50000007"))
        self.assertEqual(self.words(text.lower()), self.words(text))

    def test_units(self):
        """Behind a claim's device; one unit may be said, too, and more than any device has."""
        text = "CLAIM 0 UNITS 2\nclaim 15 units 8 # all\nCLAIM 1 UNITS 1\nCLAIM 2 UNITS 0003#three\nCLAIM 0 UNITS 256\nCLAIM 65535 UNITS 255\n"
        self.assertEqual(self.words(text), words_in("30010000 3007000F 30000001 30020002 30FF0000 30FEFFFF"))

    def test_fields_that_a_set_cannot_have(self):
        self.assertEqual(self.words("DEVICE 9\nCLAIM 65535\nRELEASE 268435455\n"), words_in("10000009 3000FFFF 4FFFFFFF"))

    def test_end_counts_words(self):
        """Not lines; and each END for itself."""
        self.assertEqual(self.words("# one\n\nTASK # two\nEND\n# three\nEND"), words_in("20000000 50000001 50000002"))

    def test_comments_and_blank_lines(self):
        text = "# whole line\n\n  # indented\n10000001 behind a word\n\t10000001# 20000000\n1000000a # twice # here\n \nTASK#here\nDEVICE 1#here\n"
        self.assertEqual(self.words(text), words_in("10000001 10000001 1000000A 20000000 10000001"))

    def test_line_ends_and_encodings(self):
        for data in (b"20000000\r\n50000001\r\n", b"20000000\n50000001", b"\xef\xbb\xbf20000000\n50000001\n", b"20000000 f\xfcr\nEND # \xff\xfe\n", "TASK # für\nEND\n".encode()):
            self.assertEqual(self.words(data), words_in("20000000 50000001"), data)

    def test_lines_of_words(self):
        text = set_text.read_text(self.file("# one\r\nTASK\x0c\r\n\r\nEND"))
        self.assertEqual([word.line for word in text.words], [2, 4])

    def test_end_with_a_count_of_its_own(self):
        text = set_text.read_text(self.file("TASK\n\n50000007 END\n50000002\nEND\n"))
        self.assertEqual([word.value for word in text.words], words_in("20000000 50000007 50000002 50000003"))
        self.assertEqual([warning.split("x.words")[1] for warning in text.warnings], [":3: warning: END counts 7 words, but 1 stand before it"])

    def test_wrong_lines(self):
        """A text, the line with the fault, and what the complaint must say."""
        digits = "1" * 5000
        for text, line, part in (
            ("2000000", 1, "'2000000' has 7"),
            ("TASK\n\n# x\n200000000", 4, "'200000000' has 9"),
            ("TASK\n" + digits, 2, "has 5000"),
            ("0x20000000", 1, "'0x20000000' is no word"),
            ("2000000O", 1, "'2000000O' is no word"),
            ("-2000000", 1, "'-2000000' is no word"),
            ("2000_000", 1, "'2000_000' is no word"),
            ("２０００００００", 1, "'２０００００００' is no word"),
            ("claims 0", 1, "'claims' is no word"),
            ("x" * 5000, 1, "'" + "x" * set_text.MAX_SHOWN + "..' is no word"),
            ("a\x1b[31mb\x07", 1, "'a\\x1b[31mb\\x07' is no word"),
            ("20000000 50000001", 1, "'50000001' is a second word"),
            ("CLAIM", 1, "a device's number is missing behind CLAIM"),
            ("DEVICE # 1", 1, "the number of its units is missing behind DEVICE"),
            ("RELEASE x", 1, "'x' is no number"),
            ("CLAIM -1", 1, "'-1' is no number"),
            ("CLAIM ١", 1, "'١' is no number"),
            ("CLAIM A", 1, "'A' is no number"),
            ("CLAIM 65536", 1, "'65536' is too large for a word: 65535 is the most"),
            ("CLAIM 65536 UNITS 2", 1, "'65536' is too large"),
            ("RELEASE 268435456", 1, "'268435456' is too large for a word: 268435455 is the most"),
            ("CLAIM " + digits, 1, "is too large"),
            ("TASK\nCLAIM 0 2", 2, "'2' can't stand behind CLAIM: several units are written as in CLAIM 0 UNITS 2"),
            ("CLAIM 0 UNIT 2", 1, "'UNIT' can't stand behind CLAIM"),
            ("CLAIM 0 UNITS", 1, "the number of units claimed is missing behind UNITS"),
            ("CLAIM 0 UNITS # 2", 1, "the number of units claimed is missing behind UNITS"),
            ("CLAIM 0 UNITS x", 1, "'x' is no number: behind UNITS stands the number of units claimed"),
            ("CLAIM 0 UNITS 0", 1, "a claim takes one unit at least"),
            ("CLAIM 0 UNITS 257", 1, "'257' is too large for a word: 256 is the most"),
            ("CLAIM 0 UNITS " + digits, 1, "is too large"),
            ("CLAIM 0 UNITS 2 3", 1, "'3' can't stand behind CLAIM"),
            ("CLAIM UNITS 2", 1, "'UNITS' is no number"),
            ("RELEASE 0 UNITS 2", 1, "'UNITS' can't stand behind RELEASE: it gives all units back"),
            ("DEVICE 1 UNITS 2", 1, "'UNITS' can't stand behind DEVICE"),
            ("UNITS 2", 1, "'UNITS' is no word"),
            ("DEVICE 1 radio", 1, "'radio' can't stand behind DEVICE"),
            ("TASK 0", 1, "'0' can't stand behind TASK"),
            ("TASK\nEND 1", 2, "'1' can't stand behind END"),
        ):
            complaint = self.complaint(text)
            self.assertTrue(complaint.startswith("FILE:%d: " % line), complaint)
            self.assertIn(part, complaint)
            self.assertLess(len(complaint), 200)

    def test_texts_without_a_word(self):
        for text in ("", "\n", "# only\n\n# comments\n"):
            self.assertEqual(self.complaint(text), "FILE: there is no word in it")

    def test_no_text(self):
        self.assertIn("FILE: this is no text", self.complaint(bytes_in(A)))
        self.assertIn("FILE: this is no text", self.complaint("TASK\nEND\n".encode("utf-16")))
        self.assertIn("FILE: over 1048576 bytes", self.complaint(b"# " * set_text.MAX_BYTES))
        self.assertIn("FILE:1: ", self.complaint(bytes(range(1, 256))))


class Words(Case):
    """words.py."""

    def test_bytes(self):
        with open(EXAMPLE_A, "rb") as file:
            text = file.read()
        self.assertEqual(self.program(words, EXAMPLE_A), Ended(0, bytes_in(A), ""))
        self.assertEqual(self.program(words, "-", data=text), Ended(0, bytes_in(A), ""))

    def test_more_than_a_pipe_holds(self):
        self.assertEqual(self.program(words, "-", data=b"20000000\n" * 50000), Ended(0, b"\0\0\0\x20" * 50000, ""))

    def test_wrong_count_is_told_and_taken(self):
        ended = self.program(words, "-", data=b"20000000\n50000002\n")
        self.assertEqual(ended, Ended(0, bytes_in("20000000 50000002"), "words.py: standard input:2: warning: END counts 2 words, but 1 stand before it\n"))

    def test_wrong_line(self):
        path = self.file("TASK\nEND.\n")
        self.assert_complaint(self.program(words, path), path + ":2: 'END.' is no word")
        self.assert_complaint(self.program(words, "-", data=b"\n\n1"), "standard input:3: ")

    def test_files_that_cannot_be_read(self):
        for path, why in ((os.path.join(self.folder, "none"), "No such file"), (self.folder, "Is a directory"), ("/dev/zero", "no text"), ("", "No such file")):
            self.assert_complaint(self.here(words, path), path + ": ", why)
        self.assert_complaint(self.program(words, self.folder), "Is a directory")

    def test_one_line_for_any_name(self):
        for name, said in ((b"a\nb", "a\\nb"), (b"\xff", "\\udcff")):
            path = os.fsdecode(os.path.join(os.fsencode(self.folder), name))
            self.assert_complaint(self.program(words, path), said + ": No such file")

    def test_outputs_that_fail(self):
        for redirect, why in ((">&-", "it is closed"), ("> /dev/full", "No space left")):
            for arguments in ([EXAMPLE_A], ["--help"]):
                self.assert_complaint(self.program(words, *arguments, redirect=redirect), "standard output: ", why)

    def test_reader_that_goes_away(self):
        read_end, write_end = os.pipe()
        os.close(read_end)
        ended = subprocess.run([sys.executable, os.path.join(TOOLS, "words.py"), EXAMPLE_A], stdout=write_end, stderr=subprocess.PIPE, timeout=60)
        os.close(write_end)
        self.assertEqual((ended.returncode, ended.stderr), (2, b"words.py: standard output: Broken pipe\n"))

    def test_input_that_does_not_wait(self):
        """A read that fails half way is no end of the text."""
        read_end, write_end = os.pipe()
        os.set_blocking(read_end, False)
        os.write(write_end, b"TASK\nEND\n")
        ended = subprocess.run([sys.executable, os.path.join(TOOLS, "words.py"), "-"], stdin=read_end, stdout=subprocess.PIPE, stderr=subprocess.PIPE, timeout=60)
        os.close(read_end)
        os.close(write_end)
        self.assert_complaint(Ended(ended.returncode, ended.stdout, ended.stderr.decode()), "standard input: Resource temporarily unavailable")

    def test_closed_input_and_error(self):
        self.assert_complaint(self.program(words, "-", redirect="<&-"), "standard input: Bad file descriptor")
        for redirect in ("2>&-", "2> /dev/full"):
            self.assertEqual(self.program(words, self.folder, redirect=redirect), Ended(2, b"", ""))

    def test_where(self):
        path = self.file("# x\n10000001 device\n\n  TASK # \x1b\nEND\n")
        for index, said in (("0", ":2: 10000001 device"), ("1", ":4: TASK # \\x1b"), ("002", ":5: END")):
            self.assertEqual(self.here(words, "--where", index, path), Ended(0, (path + said + "\n").encode(), ""))
        self.assert_complaint(self.here(words, "--where", "3", path), "no word has the index 3: the last one has 2")
        for index in ("x", "", "1" * 5000, "١"):
            self.assert_complaint(self.here(words, "--where", index, path), "is no word's index")

    def test_printed_plans(self):
        """A plan is words in digits too: its bytes, and the line of one of its words."""
        for plan_words, index, line in ((A_PLAN, "3", ":4: 60000001\n"), (R_PLAN, "16", ":17: A000001F\n")):
            path = self.file(lines_in(plan_words), "x.plan")
            self.assertEqual(self.here(words, path), Ended(0, bytes_in(plan_words), ""))
            self.assertEqual(self.here(words, "--where", index, path), Ended(0, (path + line).encode(), ""))

    def test_usage(self):
        for arguments in ([], ["a", "b"], ["--unknown", "a"], ["--wher", "0", "a"], ["--where"], ["a\nb", "c\nd"]):
            self.assert_complaint(self.here(words, *arguments), "; --help says how it is used")
        self.assert_complaint(self.program(words), "; --help says how it is used")
        ended = self.program(words, "--help")
        self.assertEqual((ended.status, ended.said), (0, ""))
        self.assertIn(b"usage: words.py", ended.output)


class Plans(Case):
    """plan.py over printers that print what a test wants."""

    def plan(self, output, *arguments, ending="exit 0"):
        return self.here(plan, "--printer", self.stand_in(output, ending), *arguments)

    def test_whole_plans(self):
        for output in (b"50000000\n", lines_in(A_PLAN), lines_in(R_PLAN)):
            self.assertEqual(self.plan(output, EXAMPLE_A), Ended(0, output, ""))
            self.assertEqual(self.kept("input"), bytes_in(A))

    def test_as_a_program(self):
        printer = self.stand_in(lines_in(A_PLAN))
        self.assertEqual(self.program(plan, "--printer", printer, EXAMPLE_A), Ended(0, lines_in(A_PLAN), ""))
        self.assertEqual(self.program(plan, "--printer", printer, EXAMPLE_A, redirect="2>&- <&-"), Ended(0, lines_in(A_PLAN), ""))
        refusal = self.program(plan, "--printer", self.stand_in("refused 4 at 1\n"), "-", data=b"TASK\n\n60000000\n")
        self.assertEqual(refusal, Ended(1, b"refused 4 at 1\n", "plan.py: standard input:3: %s\n" % programs.sentence(4)))
        self.assert_complaint(self.program(plan, "--printer", self.stand_in(b"6000"), EXAMPLE_A), "neither", output=b"6000")

    def test_outputs_that_are_neither(self):
        whole = lines_in(A_PLAN)
        cut = [whole[:length] for length in (0, 4, 9, 90, len(whole) - 1)]
        others = [b"\n", b"50000001\n", b"40000000\n", whole + b"\n", whole + whole, whole.lower(), b"x" + whole[1:], whole.replace(b"\n", b"\r\n")]
        refusals = [b"refused 8 at 3", b"refused 8 at \n", b"refused 8 at 3\n\n", b"refused 8 at 3\n50000001\n", b" refused 8 at 3\n", b"refused 8 at 3\nrefused 8 at 3\n"]
        for output in cut + others + refusals:
            self.assert_complaint(self.plan(output, EXAMPLE_A), "a.words: what the printer printed is neither", output=output)

    def test_printers_that_fail(self):
        self.assert_complaint(self.plan(b"50000000\n", EXAMPLE_A, ending="exit 3"), "ended with status 3", output=b"50000000\n")
        self.assert_complaint(self.plan(b"50000000\n", EXAMPLE_A, ending="kill -9 $$"), "ended with status %d" % -signal.SIGKILL, output=b"50000000\n")
        self.assert_complaint(self.here(plan, "--printer", self.folder, EXAMPLE_A), self.folder + ": Permission denied")
        self.assert_complaint(self.here(plan, "--printer", self.file("x", "text"), EXAMPLE_A), "Permission denied")
        self.assert_complaint(self.here(plan, "--printer", os.path.join(self.folder, "none"), EXAMPLE_A), "none: No such file")

    def test_printer_that_reads_nothing(self):
        path = self.file("#!/bin/sh\necho 50000000\n", "printer")
        os.chmod(path, 0o755)
        self.assertEqual(self.here(plan, "--printer", path, self.file(b"20000000\n" * 50000)), Ended(0, b"50000000\n", ""))

    def test_printers_own_complaint(self):
        """It stands before that of plan.py."""
        printer = self.stand_in(b"", ending="echo 'printer: it cannot be read' >&2")
        ended = self.program(plan, "--printer", printer, EXAMPLE_A)
        self.assertEqual((ended.status, ended.output, ended.said.splitlines()[0]), (2, b"", "printer: it cannot be read"))

    def test_refusals_by_line(self):
        path = self.file("# one\nDEVICE 1\n\nTASK\nCLAIM 0\n# six\nCLAIM 0\nEND\n")
        for output, said in (
            (b"refused 8 at 3\n", ":7: the task claims a device that it holds already"),
            (b"refused 12 at 4\n", ":8: " + programs.sentence(12)),
            (b"refused 24 at 0\n", ":2: " + programs.sentence(24)),
            (b"refused 28 at 2\n", ":5: " + programs.sentence(28)),
            (b"refused 8 at 5\n", ": word 5: the task claims a device that it holds already"),
            (b"refused 11 at 3\n", ": " + programs.sentence(11)),
            (b"refused 14 at 3\n", ": " + programs.sentence(14)),
            (b"refused 99 at 3\n", ": refusal 99, for which %s has no sentence" % programs.HEADER),
        ):
            self.assertEqual(self.plan(output, path), Ended(1, output, "plan.py: " + path + said + "\n"))

    def test_which_places_are_words(self):
        text = set_text.Text("x", [set_text.Word(0, line) for line in range(10, 40)], [], [])
        at_a_line = [number for number in range(1, REFUSALS + 1) if programs.line_of(text, number, 5) == "x:15"]
        self.assertEqual(at_a_line, [2, 3, 4, 5, 6, 7, 8, 9, 10, 12, 24, 28])

    def test_sentences(self):
        """Each refusal has one of its own out of the header."""
        sentences = [programs.sentence(number) for number in range(1, REFUSALS + 1)]
        self.assertEqual(len(set(sentences)), REFUSALS)
        self.assertEqual([text for text in sentences if "no sentence" in text], [])
        self.assertEqual(sentences[0], "the set is empty")
        self.assertEqual(sentences[20], "the route has more steps than its slice has bytes")
        for number in (0, REFUSALS + 1):
            self.assertIn("no sentence", programs.sentence(number))

    def test_sentences_in_any_order(self):
        """By their numbers; other functions have other sentences."""
        functions = [
            'char *arbiter_kind_text(uint32_t kind) {\n    case ARBITER_X: return "a kind";\n}\n',
            'char *arbiter_refusal_text(uint32_t refusal)\n{\n    case ARBITER_Y: return "twelve";\n    case ARBITER_X:\n        return "one";\n}\n',
            'char *another(uint32_t kind) {\n    case ARBITER_Z: return "two";\n}\n',
        ]
        header = self.file("#define ARBITER_Y 12 /* 1 */\n#define ARBITER_X 1\n#define ARBITER_Z 2\n" + "".join(functions))
        with mock.patch.object(programs, "HEADER", header):
            self.assertEqual((programs.sentence(1), programs.sentence(12)), ("one", "twelve"))
            self.assertIn("no sentence", programs.sentence(2))

    def test_header_that_cannot_be_read(self):
        for header in (os.path.join(self.folder, "none"), self.folder, self.file(b"\xff\xfe#define", "header")):
            with mock.patch.object(programs, "HEADER", header):
                self.assertEqual(programs.sentence(8), "refusal 8, for which %s has no sentence" % header)

    def test_bytes(self):
        for data in (bytes_in(A), b"", b"\0\0\0", b"\xff" * 20000):
            path = self.file(data, "x.set")
            self.assertEqual(self.plan(b"refused 4 at 7\n", "--bytes", path), Ended(1, b"refused 4 at 7\n", "plan.py: %s: word 7: %s\n" % (path, programs.sentence(4))))
            self.assertEqual(self.kept("input"), data)
        self.assertEqual(self.plan(b"refused 2 at 4096\n", "--bytes", "/dev/zero").status, 1)

    def test_texts_and_files_that_are_wrong(self):
        """The printer isn't run."""
        for arguments, part in (
            ([self.file("TASK\nEND 1\n")], "x.words:2: '1' can't stand behind END"),
            ([self.file(bytes_in(A), "x.set")], "x.set: this is no text"),
            ([self.file("", "empty")], "empty: there is no word in it"),
            ([self.folder], "Is a directory"),
            (["--bytes", self.folder], "Is a directory"),
            ([], "; --help says how it is used"),
            (["--byte", "x"], "; --help says how it is used"),
        ):
            self.assert_complaint(self.plan(b"50000000\n", *arguments), part)
        self.assertFalse(os.path.exists(os.path.join(self.folder, "input")))

    def test_warning_of_a_wrong_count(self):
        path = self.file("TASK\n50000002\n")
        warning = "plan.py: %s:2: warning: END counts 2 words, but 1 stand before it\n" % path
        self.assertEqual(self.plan(b"refused 6 at 1\n", path), Ended(1, b"refused 6 at 1\n", warning + "plan.py: %s:2: %s\n" % (path, programs.sentence(6))))

    def test_outputs_that_fail(self):
        printer = self.stand_in(lines_in(A_PLAN))
        for redirect in (">&-", "> /dev/full"):
            self.assert_complaint(self.program(plan, "--printer", printer, EXAMPLE_A, redirect=redirect), "standard output: ")
        self.assert_complaint(self.program(plan, "--help", redirect="> /dev/full"), "standard output: ")


class Cleanings(Case):
    """clean.py over cleaners that write what a test wants."""

    OLD, NEW = bytes_in("10000008 20000000 50000002"), bytes_in("20000000 50000001")

    def clean(self, output, *arguments, ending="exit 0"):
        return self.here(clean, "--cleaner", self.stand_in(output, ending), *arguments)

    def beside(self):
        """What stands in the folder that no test put there."""
        return [name for name in os.listdir(self.folder) if name.endswith(".new")]

    def assert_kept(self, ended, *parts, status=2, output=b""):
        """Neither cleaned nor changed: the old set is where it was, and nothing beside it."""
        self.assertEqual((ended.status, ended.output), (status, output), ended.said)
        for part in parts:
            self.assertIn(part, ended.said)
        self.assertEqual((self.kept("x.set"), self.beside()), (self.OLD, []))

    def test_to_standard_output(self):
        path = self.file(self.OLD, "x.set")
        for output in (self.NEW, bytes_in(A), b"\0\0\0\x50"):
            self.assertEqual(self.clean(output, "--bytes", path), Ended(0, output, ""))
            self.assertEqual(self.kept("input"), self.OLD)
        self.assertEqual(self.kept("x.set"), self.OLD)

    def test_texts(self):
        path = self.file("DEVICE 8\nTASK # x\nEND\n")
        self.assertEqual(self.clean(self.NEW, path), Ended(0, self.NEW, ""))
        self.assertEqual(self.kept("input"), self.OLD)
        warned = self.clean(b"refused 6 at 1\n", self.file("TASK\n50000002\n"))
        self.assertEqual(warned.status, 1)
        self.assertIn(":2: warning: END counts 2 words", warned.said)

    def test_as_a_program(self):
        path = self.file(self.OLD, "x.set")
        cleaner = self.stand_in(self.NEW)
        self.assertEqual(self.program(clean, "--cleaner", cleaner, "--bytes", "-", data=self.OLD), Ended(0, self.NEW, ""))
        self.assertEqual(self.program(clean, "--cleaner", cleaner, "--bytes", path, "-o", path), Ended(0, b"", ""))
        self.assertEqual(self.kept("x.set"), self.NEW)
        refused = self.program(clean, "--cleaner", self.stand_in("refused 4 at 1\n"), "-", data=b"TASK\n\n60000000\n")
        self.assertEqual(refused, Ended(1, b"refused 4 at 1\n", "clean.py: standard input:3: %s\n" % programs.sentence(4)))

    def test_into_a_file(self):
        """A new one, and one that was there, which keeps its permissions; through a link too."""
        old = self.file(self.OLD, "x.set")
        new = os.path.join(self.folder, "y.set")
        self.assertEqual(self.clean(self.NEW, "--bytes", old, "-o", new), Ended(0, b"", ""))
        self.assertEqual((self.kept("y.set"), self.kept("x.set")), (self.NEW, self.OLD))
        os.chmod(old, 0o640)
        link = os.path.join(self.folder, "link.set")
        os.symlink(old, link)
        self.assertEqual(self.clean(self.NEW, "--bytes", link, "--output", link), Ended(0, b"", ""))
        self.assertTrue(os.path.islink(link))
        self.assertEqual((self.kept("x.set"), os.stat(old).st_mode & 0o777, self.beside()), (self.NEW, 0o640, []))

    def test_refusals(self):
        path = self.file(self.OLD, "x.set")
        said = "clean.py: %s: word 7: %s\n" % (path, programs.sentence(4))
        for arguments in ([], ["-o", path]):
            refused = self.clean(b"refused 4 at 7\n", "--bytes", path, *arguments)
            self.assert_kept(refused, status=1, output=b"refused 4 at 7\n")
            self.assertEqual(refused.said, said)
        other = os.path.join(self.folder, "y.set")
        self.assertEqual(self.clean(b"refused 4 at 7\n", "--bytes", path, "-o", other).status, 1)
        self.assertFalse(os.path.exists(other))
        text = self.file("# one\nTASK\n\n60000000\n")
        self.assertEqual(self.clean(b"refused 4 at 1\n", text), Ended(1, b"refused 4 at 1\n", "clean.py: %s:4: %s\n" % (text, programs.sentence(4))))

    def test_outputs_that_are_neither(self):
        """They go nowhere: half a set is worse than none."""
        path = self.file(self.OLD, "x.set")
        whole = bytes_in(A)
        cut = [whole[:length] for length in (0, 1, 4, 8, len(whole) - 4, len(whole) - 1)]
        others = [whole + b"\0", b"\0" + whole, whole + whole, bytes_in("50000001"), bytes_in("20000000 40000001"), whole[::-1], b"refused 8 at 3", b"refused 8 at 3\n\n"]
        for output in cut + others + [b"refused 8 at 3\n" + whole, b" refused 8 at 3\n"]:
            for arguments in ([], ["-o", path]):
                self.assert_kept(self.clean(output, "--bytes", path, *arguments), "x.set: what the cleaner wrote is neither")

    def test_cleaners_that_fail(self):
        path = self.file(self.OLD, "x.set")
        for ending, status in (("exit 3", 3), ("kill -9 $$", -signal.SIGKILL)):
            for arguments in ([], ["-o", path]):
                self.assert_kept(self.clean(self.NEW, "--bytes", path, *arguments, ending=ending), "the cleaner ended with status %d" % status)
        for cleaner, why in ((self.folder, "Permission denied"), (os.path.join(self.folder, "none"), "No such file")):
            self.assert_kept(self.here(clean, "--cleaner", cleaner, "--bytes", path, "-o", path), why)

    def test_files_that_cannot_be_replaced(self):
        path = self.file(self.OLD, "x.set")
        nowhere, pipe = os.path.join(self.folder, "none", "y.set"), os.path.join(self.folder, "pipe")
        os.mkfifo(pipe)
        for output, why in ((self.folder, "it is no plain file"), (pipe, "it is no plain file"), ("", "it is no plain file"), (nowhere, "No such file")):
            self.assert_kept(self.clean(self.NEW, "--bytes", path, "-o", output), why)

    def test_writes_that_fail(self):
        """Whatever fails on the way, the old set stays and nothing is left beside it."""
        path = self.file(self.OLD, "x.set")
        for name in ("fsync", "chown", "chmod", "replace"):
            with mock.patch.object(os, name, side_effect=OSError(28, "No space left on device")):
                self.assert_kept(self.clean_only(path), "x.set: No space left on device")
        with mock.patch.object(os, "fsync", side_effect=KeyboardInterrupt):
            self.assertRaises(KeyboardInterrupt, self.clean_only, path)
        self.assertEqual((self.kept("x.set"), self.beside()), (self.OLD, []))

    def clean_only(self, path):
        """Over a cleaner made before, since making one needs what a test breaks."""
        with mock.patch.object(clean, "run", return_value=(self.NEW, 0)):
            return self.here(clean, "--bytes", path, "-o", path)

    def test_text_in_its_own_place(self):
        """Bytes would take the place of a text."""
        text = "DEVICE 8\nTASK\nEND\n"
        path = self.file(text)
        self.assert_complaint(self.clean(self.NEW, path, "-o", path), "x.words: it is a text")
        self.assertEqual(self.kept("x.words"), text.encode())
        self.assertFalse(os.path.exists(os.path.join(self.folder, "input")))

    def test_texts_and_files_that_are_wrong(self):
        """The cleaner isn't run."""
        for arguments, part in (
            ([self.file("TASK\nEND 1\n")], "x.words:2: '1' can't stand behind END"),
            ([self.file(self.OLD, "x.set")], "x.set: this is no text"),
            (["--bytes", self.folder], "Is a directory"),
            ([], "; --help says how it is used"),
            (["--bytes", "x", "-o"], "; --help says how it is used"),
            (["--out", "y", "x"], "; --help says how it is used"),
        ):
            self.assert_complaint(self.clean(self.NEW, *arguments), part)
        self.assertFalse(os.path.exists(os.path.join(self.folder, "input")))

    def test_outputs_that_fail(self):
        cleaner = self.stand_in(self.NEW)
        for redirect in (">&-", "> /dev/full"):
            self.assert_complaint(self.program(clean, "--cleaner", cleaner, EXAMPLE_A, redirect=redirect), "standard output: ")
        self.assert_complaint(self.program(clean, "--help", redirect="> /dev/full"), "standard output: ")

    def test_hint(self):
        """Where the program isn't built, how to build it."""
        missing = os.path.join(self.folder, "clean")
        with mock.patch.object(programs, "built", return_value=missing):
            self.assert_complaint(self.here(clean, EXAMPLE_A), "No such file or directory ('tools/build clean' builds it)")
            self.assertNotIn("builds it", self.here(clean, "--cleaner", missing + "er", EXAMPLE_A).said)


class Trials(Case):
    """trial.py over programs that print what a test wants."""

    ROWS = "   0        1        1         0         0            0\n   1        4        3  16711425         1            2\n"
    TABLE = "order of 2, rounds 5, share 1, window 4\n%s\n%sbids answered Finished: 4\nbids made: 9, the rounds ran out\n" % (trial.COLUMNS, ROWS)

    def tried(self, output, *arguments, ending="exit 0"):
        return self.here(trial, "--program", self.stand_in(output, ending), *arguments)

    def arguments(self):
        return self.kept("arguments").decode().splitlines()

    def test_one_table(self):
        for table in (self.TABLE, self.TABLE.replace("the rounds ran out", "every task is finished")):
            self.assertEqual(self.tried(table, EXAMPLE_A, "0,1", "5", "1/4"), Ended(0, table.encode(), ""))
        self.assertEqual((self.kept("input"), self.arguments()), (bytes_in(A), ["0,1 5 1 4"] * 2))

    def test_several_tables(self):
        """Each pair is tried on the set by itself; two tables stand in a row, no line ends with a blank."""
        lines = self.TABLE.splitlines()
        beside = "".join("%-55s   %s\n" % (line, line) for line in lines)
        for pairs, output in ((["1/4", "2/5"], beside), (["1/4", "2/5", "255/1"], beside + "\n" + self.TABLE), (["1/4"] * 4, beside + "\n" + beside)):
            self.assertEqual(self.tried(self.TABLE, EXAMPLE_A, "1", "9", *pairs), Ended(0, output.encode(), ""))
            self.assertEqual(self.kept("input"), bytes_in(A))
        self.assertEqual(self.arguments()[:5], ["1 9 1 4", "1 9 2 5", "1 9 1 4", "1 9 2 5", "1 9 255 1"])

    def test_as_a_program(self):
        program = self.stand_in(self.TABLE)
        self.assertEqual(self.program(trial, "--program", program, "--bytes", "-", "0,1", "5", "1/4", data=bytes_in(A)), Ended(0, self.TABLE.encode(), ""))
        self.assertEqual(self.kept("input"), bytes_in(A))
        for redirect in (">&-", "> /dev/full"):
            self.assert_complaint(self.program(trial, "--program", program, EXAMPLE_A, "0,1", "5", "1/4", redirect=redirect), "standard output: ")

    def test_refusals(self):
        """In the place of every table, behind what they are about; further pairs aren't tried."""
        path = self.file("# one\nTASK\n\n60000000\n")
        order = ",".join(["7"] * 255 + ["9"])
        for refusal, asked, about in (
            ("refused 4 at 1", "0", "%s:4: %s" % (path, programs.sentence(4))),
            ("refused 26 at 0", "0", "0/4: %s" % programs.sentence(26)),
            ("refused 27 at 1", "0,7,8", "ORDER: place 1, counted from 0, names task 7, which the set doesn't have"),
            ("refused 27 at 0", "", "ORDER: it names no task"),
            ("refused 27 at 0", "255", "ORDER: place 0, counted from 0, names task 255, which the set doesn't have"),
            ("refused 27 at 255", order, "ORDER: it names more than 255 tasks"),
        ):
            refused = self.tried(refusal + "\n", path, asked, "5", "0/4", "1/4")
            self.assertEqual(refused, Ended(1, (refusal + "\n").encode(), "trial.py: %s\n" % about))
            self.assertEqual(self.arguments()[-1], asked + " 5 0 4")
        self.assertEqual(len(self.arguments()), 6)

    def test_warning_of_a_wrong_count(self):
        warned = self.tried("refused 6 at 1\n", self.file("TASK\n50000002\n"), "0", "1", "1/1")
        self.assertEqual((warned.status, len(warned.said.splitlines())), (1, 2))
        self.assertIn(":2: warning: END counts 2 words", warned.said)

    def test_long_orders(self):
        """Of an order one place more is passed on than there may be."""
        self.tried("refused 27 at 255\n", EXAMPLE_A, ",".join(["1"] * 9000), "5", "1/4")
        self.assertEqual(self.arguments(), [",".join(["1"] * 256) + " 5 1 4"])

    def test_outputs_that_are_neither(self):
        lines = self.TABLE.splitlines(True)
        without = ["".join(lines[:i] + lines[i + 1 :]) for i in (0, 1, 4, 5)]
        others = [self.TABLE[:-1], self.TABLE + "\n", "\n" + self.TABLE, self.TABLE * 2, self.TABLE.replace(self.ROWS, ""), self.TABLE.replace(self.ROWS, self.ROWS * 5), self.TABLE.replace("16711425", "-1")]
        for output in without + others + ["", "refused 27 at 1", "refused 27 at 1\n" + self.TABLE, self.TABLE.replace("ran out", "ran")]:
            self.assert_complaint(self.tried(output, EXAMPLE_A, "0,1", "5", "1/4"), "a.words: what the program printed is neither a whole table nor a refusal")

    def test_programs_that_fail(self):
        for ending, status in (("exit 3", 3), ("kill -9 $$", -signal.SIGKILL)):
            self.assert_complaint(self.tried(self.TABLE, EXAMPLE_A, "0,1", "5", "1/4", ending=ending), "the program ended with status %d" % status)
        missing = os.path.join(self.folder, "run_trial")
        with mock.patch.object(programs, "built", return_value=missing):
            self.assert_complaint(self.here(trial, EXAMPLE_A, "0", "1", "1/1"), "No such file or directory ('tools/build run_trial' builds it)")

    def test_arguments_that_cannot_be_taken(self):
        """The program isn't run."""
        for asked, part in (
            *(([order, "1", "1/1"], "'%s': ORDER is task numbers" % order) for order in (",", "0,", ",0", "0;1", "0 1", "x", "256", "-1", "+1", "\u0660", "0x1")),
            *((["0", rounds, "1/1"], "'%s': ROUNDS is a number from 0 to 65535" % rounds) for rounds in ("", "x", "1 2", "65536", "1.5", "\u0661", "1\n")),
            *((["0", "1", pair], "settings are a share and a window") for pair in ("", "1", "12", "1/", "/1", "1/2/3", "x/1", "1/4294967296", "1,2", "1/1 ")),
            (["0", "1", "1/1", "2"], "'2': settings are a share and a window"),
            (["0", "1"], "; --help says how it is used"),
            (["--x", "1", "1/1"], "; --help says how it is used"),
        ):
            self.assert_complaint(self.tried(self.TABLE, EXAMPLE_A, *asked), part.replace("\n", "\\n"))
        self.assert_complaint(self.tried(self.TABLE, self.file("TASK\nEND 1\n"), "0", "1", "1/1"), "x.words:2: '1' can't stand behind END")
        self.assertFalse(os.path.exists(os.path.join(self.folder, "input")))


@unittest.skipUnless(PRINTER, "no printer was named")
class RealPrinter(Case):
    """plan.py over the printer itself: a plan, and each refusal that a set can bring, at its line."""

    def plan(self, *arguments):
        return self.here(plan, "--printer", PRINTER, *arguments)

    def assert_refused(self, ended, number, place, where):
        self.assertEqual((ended.status, ended.output.decode()), (1, "refused %d at %d\n" % (number, place)))
        self.assertEqual(ended.said.splitlines()[-1], "plan.py: %s: %s" % (where, programs.sentence(number)))

    def test_plans(self):
        self.assertEqual(self.plan(EXAMPLE_A), Ended(0, lines_in(A_PLAN), ""))
        self.assertEqual(self.plan(EXAMPLE_D).status, 0)
        self.assertEqual(self.plan(EXAMPLE_R), Ended(0, lines_in(R_PLAN), ""))
        self.assertEqual(self.plan(EXAMPLE_PATCH), Ended(0, lines_in(PATCH_PLAN), ""))
        self.assertEqual(self.plan("--bytes", self.file(bytes_in("20000000 50000001"))), Ended(0, b"50000000\n", ""))

    def test_refusals(self):
        pair = "CLAIM 0\nRELEASE 0\n"
        long_task = "TASK\n" + pair * 127
        for number, place, line, text in (
            (2, WORDS, WORDS + 3, "# x\n\n" + "TASK\n" * (WORDS + 1)),
            (3, 2, 4, "TASK\nEND\n# x\nTASK\n"),
            (4, 1, 3, "TASK\n\n60000000\n"),
            (5, 0, 2, "\nCLAIM 0\n"),
            (6, 1, 2, "TASK\n50000002\n"),
            (6, 0, 1, "DEVICE 9\n"),
            (7, DEVICES, DEVICES + 1, "DEVICE 1\n" * (DEVICES + 1)),
            (7, TASKS, TASKS + 1, "TASK\n" * (TASKS + 1)),
            (7, 2 + ACTIONS, 3 + ACTIONS, "DEVICE 1\nTASK\n" + pair * 128),
            (6, 2, 3, "DEVICE 8\nTASK\n31000000\n"),
            (6, 3, 4, "DEVICE 8\nTASK\nCLAIM 0 UNITS 2\n40010000\n"),
            (8, 3, 6, "# x\nDEVICE 1\nTASK\nCLAIM 0\n\nCLAIM 0\n"),
            (28, 2, 5, "# x\nDEVICE 3\nTASK\n\nCLAIM 0 UNITS 4\n"),
            (28, 3, 4, "DEVICE 3\nTASK\nCLAIM 0\nCLAIM 0 UNITS 256\n"),
            (7, 2 + ACTIONS, 3 + ACTIONS, "DEVICE 1\nTASK\n" + pair * 127 + "CLAIM 0\nCLAIM 0 UNITS 2\n"),
            (9, 2, 3, "DEVICE 1\nTASK\nRELEASE 0\n"),
            (10, 3, 4, "DEVICE 1\nTASK\nCLAIM 0\nEND\n"),
            (12, 514, 516, "# x\nDEVICE 1\n" + long_task * 2 + "TASK\n" + pair + "END\n"),
            (24, 0, 2, "# x\nDEVICE 8\nTASK\nEND\n"),
            (24, 1, 4, "DEVICE 1\n\n# the typing slip\nDEVICE 1\nTASK\nCLAIM 0\nRELEASE 0\nEND\n"),
            (24, 1, 2, "DEVICE 1\nDEVICE 1\nDEVICE 1\n" + long_task * 3 + "END\n"),
        ):
            path = self.file(text)
            self.assert_refused(self.plan(path), number, place, "%s:%d" % (path, line))

    def test_example_of_24(self):
        self.assert_refused(self.plan(EXAMPLE_S), 24, 1, EXAMPLE_S + ":3")
        self.assert_refused(self.plan("--bytes", self.file(bytes_in(S))), 24, 1, os.path.join(self.folder, "x.words") + ": word 1")

    def test_refusals_without_a_line(self):
        path = self.file("TASK\n# x\n")
        self.assert_refused(self.plan(path), 11, 1, path)
        path = self.file("DEVICE 1\n" + ("TASK\n" + "CLAIM 0\nRELEASE 0\n" * 43) * 2 + "TASK\n" * 6 + "END\n")
        self.assert_refused(self.plan(path), 14, 16384, path)

    def test_refusals_of_bytes(self):
        for number, place, where, data in ((1, 0, "", b""), (15, 1, "", b"\0\0\0\x20\0"), (2, WORDS, ": word 4096", b"\0" * 16385), (4, 0, ": word 0", b"\0" * 4)):
            path = self.file(data)
            self.assert_refused(self.plan("--bytes", path), number, place, path + where)


if __name__ == "__main__":
    unittest.main(argv=sys.argv[:1])
