#!/bin/sh
# How fast a tokenizer reads a page of 50 MB, or of as many bytes as the argument says.
# The times come on standard error.
cd "$(dirname "$0")/../crates/bench_tokenizer" && rt run -- "${1:-50000000}"
