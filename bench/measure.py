"""Documents of given sizes, and what a program costs on them. Used by the scripts beside it."""
import os
import shutil
import subprocess
import sys
import time

TOP = os.path.dirname(os.path.dirname(os.path.abspath(__file__)))
PROGRAM = os.path.join(TOP, "crates", "xmldsig", "out", "xmldsig")
KEY = b"Jefe"


def is_built():
    return os.path.exists(PROGRAM)


def filled(head, piece, tail, size):
    """head, as many pieces as fit, and tail."""
    return head + piece * ((size - len(head) - len(tail)) // len(piece)) + tail


def documents(size):
    """Contents of about that many bytes, by name. Each is its own canonical form."""
    yield "small elements", filled("<r>", "<e>some more text</e>", "</r>", size)
    yield "depth 500", "<a>" * 500 + "x" * (size - 3500) + "</a>" * 500
    yield "long texts", filled("<r>", "<p>" + "text " * 2000 + "</p>", "</r>", size)
    declared = "".join(f' xmlns:n{i}="urn:example:{i}"' for i in range(8))
    yield "eight declarations an element", filled("<r>", f"<e{declared}></e>", "</r>", size)
    attributes = "".join(f' a{i:02}="value"' for i in range(20))
    yield "twenty attributes an element", filled("<r>", f"<e{attributes}></e>", "</r>", size)


def run(words, folder):
    """Seconds, peak memory in MB, and the last line that was written to either stream."""
    begun = time.monotonic()
    child = subprocess.Popen(words, cwd=folder, stdout=subprocess.PIPE, stderr=subprocess.STDOUT)
    said = child.stdout.read().decode().strip().splitlines()
    _, _, used = os.wait4(child.pid, 0)
    child.returncode = 0
    return time.monotonic() - begun, used.ru_maxrss / 1024, said[-1] if said else ""


def instructions(words, folder):
    told = subprocess.run(["valgrind", "--tool=callgrind", "--callgrind-out-file=/dev/null", *words], cwd=folder, capture_output=True, text=True)
    for line in told.stderr.splitlines():
        if "Collected" in line:
            return int(line.split(":")[-1])
    return 0


def begin(name):
    """Whether instructions are counted; ends where the program isn't built."""
    if not is_built():
        sys.exit(f"{name}: build the program first: bin/xmldsig validate examples/enveloping/d.xml --keys examples/enveloping/k.txt")
    return "--quick" not in sys.argv and shutil.which("valgrind")
