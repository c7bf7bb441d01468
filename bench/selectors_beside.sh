#!/bin/sh
# How long selectors take beside lexbor's, on one page: bench/selectors_beside.sh LEXBOR [PAGE [ROUNDS]].
#
# LEXBOR is the folder that lexbor 3 was unpacked in, which has usr/include and usr/lib. Debian's will do:
#
#     wget http://deb.debian.org/debian/pool/main/l/lexbor/liblexbor-dev_3.0.1-1_amd64.deb
#     dpkg -x liblexbor-dev_3.0.1-1_amd64.deb LEXBOR
#
# PAGE is made where none is given: 1 MB, as in bench/normal.sh. Both programs are built, and read the page and ask it one selector, each
# selector in a process of its own, in turns, ROUNDS times (20). A row has the least time of each, in microseconds, and ours as shares of
# lexbor's: with the making of an index, as for a page that is asked once, and with an index that is kept. The status is 1 where the two find
# different numbers of elements, or a share is more than 1.2 or 1. It needs python3 and cc.
set -e
top="$(cd "$(dirname "$0")/.." && pwd)"
work=$(mktemp -d)
trap 'rm -rf "$work"' EXIT
[ -n "$SELECTORS" ] || (cd "$top/crates/bench_pages" && rt run > /dev/null)
cc -O2 -I"$1/usr/include" -o "$work/lexbor_select" "$top/bench/lexbor_select.c" "$(ls "$1"/usr/lib/*/liblexbor_static.a)" -lm
page=${2:-$work/page.html}
[ -n "$2" ] || (cd "$top/bench" && python3 -c "from normal import Page; print(end=Page(1).text(1_000_000))") > "$page"
python3 "$top/bench/selectors_beside.py" "${SELECTORS:-$top/crates/bench_pages/out/bench_pages}" "$work/lexbor_select" "$page" "${3:-20}"
