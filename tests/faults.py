#!/usr/bin/env python3
"""Runs the built program on the examples with one call to the C library failing at a time: each request of memory, each call that reads or
writes, opens a file or makes a folder; and with each read and write moving one byte alone.

A refused request of memory must end in status 7, with `fault memory` on err, nothing on out and no view left. A failed read or opening
ends in `fault read`, one of a view in `fault view V 1`, a failed write to a stream in `fault write`, with the views that stand there
whole. A read or write that moves one byte must change nothing; a refused request to make a piece of memory smaller may change nothing, or
end as any other. Needs a C compiler. Not part of the gate.

usage: tests/faults.py
"""
import os
import subprocess
import sys
import tempfile

TOP = os.path.dirname(os.path.dirname(os.path.abspath(__file__)))
PROGRAM = os.path.join(TOP, "crates", "xmldsig", "out", "xmldsig")
# What stands before the C library: it counts the calls of one kind, and the call of the number FAULT_AT fails, or moves one byte.
SHIM = r"""
#define _GNU_SOURCE
#include <dlfcn.h>
#include <errno.h>
#include <fcntl.h>
#include <malloc.h>
#include <stdarg.h>
#include <stdio.h>
#include <stdlib.h>
#include <string.h>
#include <sys/stat.h>
#include <unistd.h>
extern void *__libc_malloc(size_t), *__libc_calloc(size_t, size_t), *__libc_realloc(void *, size_t), *__libc_memalign(size_t, size_t);
static long seen, at = -1;
static const char *kind = "";
__attribute__((constructor)) static void begin(void) {
    const char *word = getenv("FAULT_AT");
    kind = getenv("FAULT_KIND") ? getenv("FAULT_KIND") : "";
    at = word ? atol(word) : 0;
}
static int hit(const char *name) { return at >= 0 && !strcmp(kind, name) && ++seen == at; }
__attribute__((destructor)) static void end(void) {
    const char *name = getenv("FAULT_COUNT");
    if (!name) return;
    at = -1;
    int file = open(name, O_WRONLY | O_CREAT | O_TRUNC, 0666);
    dprintf(file, "%ld", seen);
}
#define MEMORY if (hit("memory")) { errno = ENOMEM; return 0; }
void *malloc(size_t n) { MEMORY return __libc_malloc(n); }
void *calloc(size_t m, size_t n) { MEMORY return __libc_calloc(m, n); }
void *realloc(void *p, size_t n) {
    if (p && n <= malloc_usable_size(p)) { if (hit("shrink")) { errno = ENOMEM; return 0; } }
    else MEMORY
    return __libc_realloc(p, n);
}
void *aligned_alloc(size_t a, size_t n) { MEMORY return __libc_memalign(a, n); }
void *memalign(size_t a, size_t n) { MEMORY return __libc_memalign(a, n); }
int posix_memalign(void **p, size_t a, size_t n) { if (hit("memory")) return ENOMEM; *p = __libc_memalign(a, n); return *p ? 0 : ENOMEM; }
#define REAL(type, name, ...) ((type (*)(__VA_ARGS__))dlsym(RTLD_NEXT, name))
ssize_t read(int f, void *b, size_t n) {
    if (hit("read")) { errno = EIO; return -1; }
    if (n > 1 && hit("short")) n = 1;
    return REAL(ssize_t, "read", int, void *, size_t)(f, b, n);
}
ssize_t write(int f, const void *b, size_t n) {
    if (hit("write")) { errno = EIO; return -1; }
    if (n > 1 && hit("short")) n = 1;
    return REAL(ssize_t, "write", int, const void *, size_t)(f, b, n);
}
int open(const char *p, int o, ...) {
    va_list rest; va_start(rest, o); int m = va_arg(rest, int); va_end(rest);
    if (hit("open")) { errno = EIO; return -1; }
    return REAL(int, "open", const char *, int, int)(p, o, m);
}
int open64(const char *p, int o, ...) {
    va_list rest; va_start(rest, o); int m = va_arg(rest, int); va_end(rest);
    if (hit("open")) { errno = EIO; return -1; }
    return REAL(int, "open64", const char *, int, int)(p, o, m);
}
int mkdir(const char *p, mode_t m) {
    if (hit("mkdir")) { errno = EACCES; return -1; }
    return REAL(int, "mkdir", const char *, mode_t)(p, m);
}
"""
KINDS = ["memory", "shrink", "read", "write", "open", "mkdir", "short"]
COMMANDS = [
    ("order", ["validate", "order.xml", "--keys", "keys.txt", "--views"]),
    ("detached", ["validate", "signature.xml", "--keys", "keys.txt", "--views"]),
    ("parts", ["validate", "by-expression.xml", "--keys", "keys.txt", "--views"]),
    ("parts", ["validate", "by-filters.xml", "--keys", "keys.txt", "--views"]),
    ("manifest", ["validate", "signature.xml", "--keys", "keys.txt", "--manifests", "--views"]),
    ("order", ["validate", "changed.xml", "--keys", "keys.txt", "--views"]),
    ("wrapping", ["validate", "second-bearer.xml", "--keys", "k.txt"]),
    ("signing", ["sign", "template.xml", "--keys", "keys.txt"]),
    ("signing", ["template", "grant.xml", "--key", "board"]),
    ("order", ["canon", "order.xml", "--method", "exc", "--xpath", "not(self::comment())"]),
    ("order", ["canon", "order.xml", "--method", "c14n11-comments"]),
    ("order", ["selftest", "3"]),
]


def run(shim, place, words, kind, at, into, count=None):
    """How a run ends: status, out, err, and what stands in the folder of views."""
    environment = {"LD_PRELOAD": shim, "FAULT_KIND": kind, "FAULT_AT": str(at)}
    if count:
        environment["FAULT_COUNT"] = count
    words = words + ([into] if words[-1] == "--views" else [])
    end = subprocess.run([PROGRAM, *words], cwd=os.path.join(TOP, "examples", place), env=environment, capture_output=True, timeout=60)
    views = {}
    for folder, _, names in os.walk(into):
        for name in names:
            with open(os.path.join(folder, name), "rb") as view:
                views[name] = view.read()
    return end.returncode, end.stdout, end.stderr, views


def is_right(kind, whole, end):
    """Whether a run with a fault may end so, where the whole one ended as the first says."""
    status, out, err, views = end
    untouched = out == b"" and views == {}
    some = set(views.items()) <= set(whole[3].items())
    by_fault = {
        7: untouched and err == b"fault memory\n",
        4: untouched and err == b"fault read\n",
        5: some and whole[1].startswith(out) and (err == b"fault write\n" or whole[2].startswith(err)),
        6: out == b"" and some and err.startswith(b"fault view ") and err.endswith(b" 1\n"),
    }
    permitted = {"memory": [7], "read": [4], "write": [5, 6], "open": [4, 6], "mkdir": [6], "short": [], "shrink": [7]}[kind]
    # (a folder that is there already needn't be made)
    return (status in permitted and by_fault[status]) or (kind in ("shrink", "short", "mkdir") and end == whole)


def main():
    if not os.path.exists(PROGRAM):
        sys.exit("tests/faults.py: build the program first: bin/xmldsig selftest 1")
    wrong = 0
    sums = dict.fromkeys(KINDS, 0)
    with tempfile.TemporaryDirectory() as scratch:
        shim, count = os.path.join(scratch, "shim.so"), os.path.join(scratch, "count")
        subprocess.run(["cc", "-shared", "-fPIC", "-O1", "-fno-builtin", "-w", "-x", "c", "-o", shim, "-", "-ldl"], input=SHIM, text=True, check=True)
        for place, words in COMMANDS:
            for kind in KINDS:
                whole = run(shim, place, words, kind, 0, os.path.join(tempfile.mkdtemp(dir=scratch), "v"), count)
                with open(count) as file:
                    calls = int(file.read())
                for at in range(1, calls + 1):
                    end = run(shim, place, words, kind, at, os.path.join(tempfile.mkdtemp(dir=scratch), "v"))
                    sums[kind] += 1
                    if not is_right(kind, whole, end):
                        wrong += 1
                        print(f"{place} {words}: {kind} {at} of {calls}: {end[0]} {end[1][:60]} {end[2][:60]} {list(end[3])}", flush=True)
    print(", ".join(f"{kind}: {runs} runs" for kind, runs in sums.items()) + f"; {wrong} not as they should be")
    sys.exit(1 if wrong else 0)


main()
