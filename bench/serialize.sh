#!/bin/sh
# How fast a forest of 100,000 elements, or of as many as the argument says, is written into memory.
# The times come on standard error.
cd "$(dirname "$0")/../crates/bench_pages" && rt run -- write "${1:-100000}"
