#!/usr/bin/env python3
"""printer_stack.py PRINTER FILE..: prints, with a tab between, 'the printer' and the least stack in bytes with which it prints something for every one of the files.

The limit on a process' stack is tried in steps of 8 KiB, since the system puts the stack's start at a random place within 8 KiB. Each file is tried several times.
"""
import resource
import subprocess
import sys

STEP = 8 << 10
MOST = 8 << 20  # the usual limit, with which it must print
TRIES = 3


def prints(printer, files, limit):
    """Does the printer print a last line for each file, with so much stack? Without arguments and environment, which lie on the stack too."""
    for name in files * TRIES:
        with open(name, "rb") as file:
            ended = subprocess.run([printer], stdin=file, stdout=subprocess.PIPE, env={}, preexec_fn=lambda: resource.setrlimit(resource.RLIMIT_STACK, (limit, limit)))
        if ended.returncode != 0 or not ended.stdout.endswith(b"\n"):
            return False
    return True


printer, files = sys.argv[1], sys.argv[2:]
enough, short = MOST // STEP, 0
if not prints(printer, files, MOST):
    sys.exit("printer_stack.py: %s doesn't print with %d bytes of stack" % (printer, MOST))
while enough - short > 1:
    middle = (enough + short) // 2
    if prints(printer, files, middle * STEP):
        enough = middle
    else:
        short = middle
print("the printer\t%d" % (enough * STEP))
