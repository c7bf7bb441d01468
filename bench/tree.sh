#!/bin/sh
# How fast a page of 50 MB, or of as many bytes as the argument says, becomes a tree.
# The times come on standard error.
cd "$(dirname "$0")/../crates/bench_pages" && rt run -- tree "${1:-50000000}"
