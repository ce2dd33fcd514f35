#!/bin/sh
# Compares the speed of the proved form check of a volume with a plain `|` over the same bytes and with the second program's
# check, on volumes of 16.8 MB: empty, half full, full, one flat directory of empty and of full files, and a chain of directories (form.rs).
# Run it after `rt lib` in crates/volume_form. It prints the best of 100 turns (or of as many as are given) and the ratios, and says
# whether the targets hold; it fails only if a check gives a wrong answer.
set -eu
. "$(dirname "$0")/linked.sh"
linked formbench "volume_form volume_tree" form_entries.txt form.rs
"$room/formbench" "$@"
