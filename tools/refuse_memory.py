#!/usr/bin/env python3
"""Refuses a program each of its requests for memory in turn, and sees what it answers.

refuse_memory.py PROGRAM

PROGRAM is html_normal_cli, as `rt run` leaves it in crates/html_normal_cli/out. It reads each of the pages below as often as it asks for
memory, and each time another one of its requests is refused, whether for new memory or for more. It has to end with the status of `Memory`
and a beginning of the page's text, or, where it can do without, as if nothing had been refused; the last is told as "own". The status is 1
where it answers anything else.
"""
import os
import subprocess
import sys
import tempfile

SHIM = r"""
#include <stdio.h>
#include <stdlib.h>
#include <unistd.h>

extern void *__libc_malloc(size_t);
extern void *__libc_realloc(void *, size_t);

static unsigned long refused, asked;

/* Whether this request is the one that is refused. */
static int refuses(void) { return ++asked == refused; }

void *malloc(size_t size) { return refuses() ? NULL : __libc_malloc(size); }

void *realloc(void *block, size_t size) { return refuses() ? NULL : __libc_realloc(block, size); }

__attribute__((constructor)) static void begin(void) {
    const char *number = getenv("REFUSED_REQUEST");
    asked = 0;
    refused = number ? strtoul(number, NULL, 10) : 0;
}

__attribute__((destructor)) static void tell(void) {
    char text[32];
    int length = snprintf(text, sizeof text, "%lu", asked);
    if (write(3, text, (size_t)length) < 0) _exit(99);
}
"""

PAGES = [
    ("no bytes", "", None),
    ("plain text", "<!DOCTYPE html><p>a<br>b", None),
    ("misnesting", "<p>1<b>2<i>3</b>4</i>5</p>", None),
    ("a title and a link", '<!DOCTYPE html><title>&lt;/title></title><a href="x&amp;y">z', None),
    ("text in a table", "<!DOCTYPE html><table>x<tr><td>y</table>", None),
    ("foreign content", "<!DOCTYPE html><svg><![CDATA[a<b]]></svg>", None),
    ("four equal b", "<!DOCTYPE html><p><b><b><b><b>x</b></b></b></b>", None),
    ("a template", "<!DOCTYPE html><template><p>a", None),
    ("a table of references", "<!DOCTYPE html>&xy", "x 41 42"),
]

MEMORY = 4


def run(program, shim, page, table, refused):
    """The status, what was written, the line of the program, and how many requests were made."""
    told, tells = os.pipe()
    words = [program] + ([table] if table else [])
    # what a request is refused stands in the environment of the program alone
    environment = {"LD_PRELOAD": shim, "REFUSED_REQUEST": str(refused)}

    def hand_over():
        os.dup2(tells, 3)

    ran = subprocess.run(
        words, input=page.encode(), capture_output=True, env=environment, preexec_fn=hand_over, close_fds=False, timeout=60
    )
    os.close(tells)
    with os.fdopen(told) as count:
        asked = int(count.read() or 0)
    return (ran.returncode, ran.stdout, ran.stderr), asked


def refuse_each(program, shim, name, page, table):
    """A line on a page, and whether all its answers were right."""
    own, asked = run(program, shim, page, table, 0)
    memory = kept = 0
    longest = 0
    for refused in range(1, asked + 1):
        answer, _ = run(program, shim, page, table, refused)
        status, written, line = answer
        if answer == own:
            kept += 1
        elif status == MEMORY and line == b"fault: memory\n" and own[1].startswith(written):
            memory += 1
            longest = max(longest, len(written))
        else:
            return f"{name}: request {refused} of {asked}: status {status}, {line!r}, {written!r}", False
    written = f"at most {longest} of {len(own[1])} bytes were written"
    return f"{name}: {asked} requests refused: {memory} memory, {kept} own; {written}", own[0] == 0


def main():
    if len(sys.argv) != 2:
        sys.exit(__doc__)
    program = os.path.abspath(sys.argv[1])
    good = True
    with tempfile.TemporaryDirectory() as folder:
        source, shim = os.path.join(folder, "refuse.c"), os.path.join(folder, "refuse.so")
        with open(source, "w") as file:
            file.write(SHIM)
        subprocess.run(["cc", "-O1", "-shared", "-fPIC", "-o", shim, source], check=True)
        for name, page, rows in PAGES:
            table = None
            if rows is not None:
                table = os.path.join(folder, "references.table")
                with open(table, "w") as file:
                    file.write(rows)
            line, right = refuse_each(program, shim, name, page, table)
            print(line)
            good = good and right
    sys.exit(0 if good else 1)


main()
