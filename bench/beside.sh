#!/bin/sh
# The proved program beside html5ever and lexbor, in turns: processor time and memory on the page of bench/normal.sh and on those that
# are named, and on an empty page. The first argument is the folder that bench/peers.sh made, the others are pages. What was measured is
# also written to FOLDER/beside.json, which bench/pictures.py draws. ROUNDS says how many rounds (9), MEGABYTES the size of the made
# page (10). Needs python3.
set -e
top="$(cd "$(dirname "$0")/.." && pwd)"
folder=${1:?the folder of the peers}
shift
(cd "$top/crates/html_normal_cli" && printf '' | rt run > /dev/null)
exec python3 "$top/bench/beside.py" "$folder" "$top/crates/html_normal_cli/out/html_normal_cli" "$@"
