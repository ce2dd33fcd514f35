#!/bin/sh
# Compares the speed of the proved functions of the log (form check, dependence, push test, fsync, push, discard, take) on a full log
# of 1,024 operations with the form check of that log and with the second program, and measures the stack that they take (log.rs).
# Run it after `rt lib` in the folders of log_fsync, log_take and log_form. It prints the best of 100 turns (or of as many as are given) and the ratios,
# then the stack, and says what misses a target; with the word `stack` it measures the stack alone. It fails only if a function
# gives a wrong answer.
set -eu
. "$(dirname "$0")/linked.sh"
linked logbench "log_fsync log_take log_discard log_find log_push log_order log_dependence log_touch log_form log_rules volume_tree" log_entries.txt log.rs
"$room/logbench" "$@"
