#!/bin/sh
# How the time to tokenize grows with texts that try to make it grow: each of 1, 2, 4 and 8 MB, or as many times as many bytes as
# the argument says. The times come on standard error.
cd "$(dirname "$0")/../crates/bench_tokenizer" && rt run -- hostile "${1:-1000000}"
