#!/usr/bin/env bash
# Runs the built program as a person would, and compares what it writes and its status: what the gate's one run
# of a program does not reach (the command line, files, standard error).
set -euo pipefail
cd "$(dirname "$0")/.."
noderun=$PWD/target/bin/noderun
work=$(mktemp -d)
trap 'rm -rf "$work"' EXIT
failed=0

# expect NAME STATUS WANTED COMMAND..: the command's status, and what it writes to both streams
expect() {
    local name=$1 status=$2 wanted=$3 got code=0
    shift 3
    got=$("$@" 2>&1) || code=$?
    if [ "$code" != "$status" ] || [ "$got" != "$wanted" ]; then
        printf 'commands: %s: status %s, wanted %s\n--- wrote\n%s\n--- wanted\n%s\n' "$name" "$code" "$status" "$got" "$wanted"
        failed=1
    fi
}

listing='table of 22 words for set 1 (integers), 2 nodes

node 0: 1 input, 1 output, 2 locals, 3 equations
  x0   input   bool     base
  x1   output  int      base
  x2   local   int      base
  x3   local   int      base
  equation 0   place 6      x1 = copy(x2)
  equation 1   place 8      x3 = add(x2, 1)
  equation 2   place 11     x2 = 0 fby x3

node 1 (main): 1 input, 1 output, 0 locals, 1 equation
  x0   input   bool     base
  x1   output  int      base
  equation 0   place 18     x1 = node0(x0) every x0'
expect 'list' 0 "$listing" "$noderun" list examples/restarted-counter.table

script='set: 1
table: 1 words
table: 8 words
table: 15 words
table: 22 words
read: 2 nodes
set: 2
refused: 4 reading node 0 place 0
set: 1
table: 6 words
refused: 2 reading node 0 place 6'
expect 'script in a file' 0 "$script" "$noderun" examples/read-a-table.script

printf '00000001 xyz\n' >"$work/bad.table"
expect 'words that are not hex' 1 "noderun: $work/bad.table, line 1: a word has to have 8 hex digits" "$noderun" list "$work/bad.table"
expect 'no such file' 1 "noderun: cannot read $work/none: $("$noderun" list "$work/none" 2>&1 | sed 's/.*none: //')" "$noderun" "$work/none"
expect 'wrong command line' 1 'noderun: the command line is not understood; noderun --help says what is' "$noderun" list
expect 'help' 0 "$("$noderun" -h)" "$noderun" --help
case $("$noderun" --help) in
usage:*) ;;
*) echo 'commands: --help prints no usage'; failed=1 ;;
esac

[ "$failed" = 0 ] && echo 'commands: all as expected'
exit "$failed"
