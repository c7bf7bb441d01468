#!/bin/sh
# How fast the tokenizer reads pages of files, with the Standard's table of references, beside another tokenizer:
# pages.sh PROGRAM PAGE.., where `PROGRAM PAGE 4096 1 0` reads the page once in pieces of 4,096 bytes, without errors of single
# characters, and prints the seconds that this took. Both run in turns, nine times for each page. Needs python3.
top="$(cd "$(dirname "$0")/.." && pwd)"
(cd "$top/crates/bench_tokenizer" && rt run -- 20000 > /dev/null) || exit 1
exec python3 "$top/bench/pages.py" "$top/crates/bench_tokenizer/out/bench_tokenizer" "$@"
