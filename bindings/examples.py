#!/usr/bin/env python3
"""examples.py PAGE.md LANGUAGE: writes the first code block of a language in a page of the documentation, as ```c, to standard output."""
import sys


def block(lines, language):
    begin = lines.index(f"```{language}\n") + 1
    return lines[begin : lines.index("```\n", begin)]


with open(sys.argv[1], encoding="utf-8") as page:
    sys.stdout.writelines(block(page.readlines(), sys.argv[2]))
