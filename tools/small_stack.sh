#!/bin/sh
# Builds the program that fills an endpoint to all its limits and opens it again (`bench/programs/small_stack`), and runs it with a stack of 900 KB, or of as many
# as are named. It prints `found`.
set -eu
tree=$("$(dirname "$(readlink -f "$0")")/tree_for" x86-64-v2)
cd "$tree/crates/small_stack"
rt run >/dev/null
ulimit -s "${1:-900}"
./out/small_stack
