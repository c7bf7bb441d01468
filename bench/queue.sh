#!/bin/sh
# How fast a queue of 100 MB gives its characters, or of as many characters as the argument says.
# The times come on standard error.
cd "$(dirname "$0")/../crates/bench_tokenizer" && rt run -- queue "${1:-100000000}"
