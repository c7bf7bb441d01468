#!/usr/bin/env bash
# Takes Figpliers into a repository made from nothing, and runs and proves a program there that lists links.
# The first time on a machine that proves all that is taken, 45 to 75 minutes of a processor; `try_taking.sh --unproved` only runs it.
set -euo pipefail

top=$(cd "$(dirname "$0")/.." && pwd)
mine=$(mktemp -d)
trap 'rm -rf "$mine"' EXIT

cd "$mine"
git init -q
touch crates.txt
python3 "$top/tools/take.py" "$mine" figpliers
mkdir -p crates/mine/src
echo "mine: figpliers anyhow" >> crates.txt
cat > crates/mine/src/main.rt <<'END'
//! Lists the links of a page.
#![tactic(auto)]

use anyhow::Result;
use figpliers::{Exact, StdSource, attribute_of, nodes_below, read_document, standard};

fn main(rt: HostRuntime) -> Result<()> {
    let mut reader = StdSource::new(rt.stdin());
    let table = standard(rt.alloc())?;
    let forest = read_document(rt.alloc(), &mut reader, table, Exact::default())?;
    for id in nodes_below(&forest, forest.document()) {
        if let Some(link) = attribute_of(&forest, id, "href") {
            println!(rt; "{link}")?;
        }
    }
    Ok(())
}
END

cd crates/mine
echo '<p><a href="a?b&notin;c">one</a><a>none</a><a href=d>two' > stdin
rt try < stdin | tee printed
grep -qx 'a?b∉c' printed
grep -qx 'd' printed
if [ "${1:-}" != --unproved ]; then
    rt check
fi
python3 "$top/tools/take.py" --check "$mine"
cmp "$top/LICENSE" "$mine/LICENSE-figpliers"
echo "// changed" >> "$mine/crates/devices/src/lib.rt"
if python3 "$top/tools/take.py" --check "$mine"; then
    echo "a changed copy was not told" >&2
    exit 1
fi
echo "taken, run and checked"
