#!/bin/sh
# How fast the whole program is on a page of 10 MB, or of as many as the first argument says, how much memory it holds, where the
# time goes, and how it grows with the page and with shapes that could make it grow faster. A second argument is another program
# that reads a page and writes it, to be timed beside it. Needs python3.
top="$(cd "$(dirname "$0")/.." && pwd)"
(cd "$top/crates/html_normal_cli" && printf '' | rt run > /dev/null) || exit 1
exec python3 "$top/bench/normal.py" "$top/crates/html_normal_cli/out/html_normal_cli" "${1:-10}" ${2:+"$2"}
