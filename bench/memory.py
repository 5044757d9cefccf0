#!/usr/bin/env python3
"""Runs cases of the table with the built program (./build makes it), and lets each of their allocations fail, one in each run.

    bench/memory.py            one case of each form and status, the shortest of at least 300 bytes or else the longest
    bench/memory.py CASE..     these cases

A run has to give the answer of its case, or end with status 7 and send nothing. A line is printed for each case: how many
allocations it makes, and how many of the runs gave the answer all the same; and one for each run that did neither. It is no test
of the gate: it takes minutes. It needs a C compiler, `cc`.
"""
import os
import subprocess
import sys
import tempfile
from pathlib import Path

TOP = Path(__file__).resolve().parent.parent
PROGRAM = TOP / "crates" / "browse_program" / "out" / "browse_program"
WANT_OF_MEMORY = (7, b"")

# A case of at least so many bytes has files that say something.
LONG_ENOUGH = 300

# Stands before the C library: the allocation of the number FAIL_AT fails, and at the end their number goes to COUNT_FILE.
FAILING = r"""
#include <errno.h>
#include <stdio.h>
#include <stdlib.h>
extern void *__libc_malloc(size_t), *__libc_calloc(size_t, size_t), *__libc_realloc(void *, size_t), *__libc_memalign(size_t, size_t);
static unsigned long calls, at;
static int known;
static int fails(void) {
    if (!known) { const char *text = getenv("FAIL_AT"); at = text ? strtoul(text, 0, 10) : 0; known = 1; }
    if (++calls != at) return 0;
    errno = ENOMEM;
    return 1;
}
void *malloc(size_t n) { return fails() ? 0 : __libc_malloc(n); }
void *calloc(size_t m, size_t n) { return fails() ? 0 : __libc_calloc(m, n); }
void *realloc(void *p, size_t n) { return fails() ? 0 : __libc_realloc(p, n); }
void *memalign(size_t a, size_t n) { return fails() ? 0 : __libc_memalign(a, n); }
void *aligned_alloc(size_t a, size_t n) { return fails() ? 0 : __libc_memalign(a, n); }
int posix_memalign(void **p, size_t a, size_t n) {
    if (fails()) return ENOMEM;
    *p = __libc_memalign(a, n);
    return *p ? 0 : ENOMEM;
}
__attribute__((destructor)) static void tell(void) {
    unsigned long made = calls;
    const char *name = getenv("COUNT_FILE");
    FILE *file = name ? fopen(name, "w") : 0;
    if (file) { fprintf(file, "%lu\n", made); fclose(file); }
}
"""


def whole(text):
    """The bytes that pieces stand for."""
    made, at = b"", 0
    while at < len(text):
        end = text.index(b"\n", at)
        kind, *numbers = text[at:end].split()
        numbers = [int(number) for number in numbers]
        piece = text[end + 1 : end + 1 + numbers[-1]]
        at = end + 2 + numbers[-1]
        if kind == b"text":
            made += piece
        elif kind == b"repeat":
            made += piece * numbers[0]
        else:
            made += b"".join(piece.replace(b"@", b"%d" % number) for number in range(*numbers[:2]))
    return made


class Case:
    """A case folder: its words, its files and the answer that is wanted."""

    def __init__(self, folder):
        self.name = folder.name
        held = {}
        for file in folder.iterdir():
            text = file.read_bytes()
            held.update({file.stem: whole(text)} if file.suffix == ".pieces" else {file.name: text})
        words = held.pop("words")
        self.words = words.split(b"\0" if b"\0" in words else b"\n")[:-1]
        self.has_faults = held.pop("faults", None) is not None
        self.answer = (int(held.pop("status")), held.pop("stdout"))
        self.files = held

    def size(self):
        return sum(len(text) for text in self.files.values()) + len(self.answer[1])

    def kind(self):
        return (self.words[0] if self.words else b"", self.answer[0])


def run(case, folder, shim, at):
    """The status and the output of the case when this allocation fails, and how many allocations were made."""
    count = folder / "allocations"
    given = dict(os.environ, LD_PRELOAD=str(shim), FAIL_AT=str(at), COUNT_FILE=str(count))
    ended = subprocess.run([PROGRAM, *case.words], cwd=folder / "files", env=given, stdout=subprocess.PIPE)
    made = int(count.read_text())
    return (ended.returncode, ended.stdout), made


def tried(case, folder, shim):
    """Tries a case, prints what was found, and tells whether all was well."""
    files = folder / "files"
    files.mkdir(exist_ok=True)
    for old in files.iterdir():
        old.unlink()
    for name, text in case.files.items():
        (files / name).write_bytes(text)
    answer, made = run(case, folder, shim, 0)
    if answer != case.answer or made == 0:
        print(f"{case.name}: status {answer[0]}, {made} allocations seen, and not its answer", flush=True)
        return False
    same, wrong = 0, 0
    for at in range(1, made + 1):
        answer, _ = run(case, folder, shim, at)
        if answer == case.answer:
            same += 1
        elif answer != WANT_OF_MEMORY:
            wrong += 1
            print(f"{case.name}: allocation {at} of {made}: status {answer[0]}, {len(answer[1])} bytes sent", flush=True)
    print(f"{case.name}: {made} allocations, {same} that are not missed, {wrong} wrong", flush=True)
    return wrong == 0


def one_of_each(cases):
    """A case of each form and status: the shortest of those that are long enough, or else the longest."""
    kinds = {}
    for case in sorted(cases, key=Case.size):
        kinds.setdefault(case.kind(), []).append(case)
    return [next((case for case in kind if case.size() >= LONG_ENOUGH), kind[-1]) for kind in kinds.values()]


def main(names):
    if not PROGRAM.exists():
        sys.exit("bench: build the program first: ./build")
    with tempfile.TemporaryDirectory() as place:
        folder = Path(place)
        (folder / "failing.c").write_text(FAILING)
        shim = folder / "failing.so"
        subprocess.run(["cc", "-O1", "-shared", "-fPIC", "-o", shim, folder / "failing.c"], check=True)
        subprocess.run([TOP / "cases", "--write", folder / "cases"], check=True)
        cases = [Case(each) for each in sorted((folder / "cases").iterdir())]
        if names:
            chosen = [case for case in cases if case.name in names]
        else:
            chosen = one_of_each([case for case in cases if not case.has_faults])
        results = [tried(case, folder, shim) for case in chosen]
        sys.exit(0 if all(results) else 1)


main(sys.argv[1:])
