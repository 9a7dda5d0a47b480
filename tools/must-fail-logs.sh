#!/usr/bin/env bash
# Looks through what 'rt ci' says of the must-fail edits: tools/must-fail-logs.sh LOG, with all that it wrote
# An edit shows something where a fact no longer holds. Where it is refused because a name is not there, above all one that a proof file
# names, it only made that file unfit for the code, as a change that breaks nothing can do, and it shows nothing. Nor does it where the
# prover came to no verdict, and where rt could not try it, tells no reason or did not refuse it.
# rt cuts long reasons off: one that begins with a record ends with a field that it has not.
# Each edit of that kind is a line. The exit status is 0 only where edits are told of and there is no such line.
set -u -o pipefail
shopt -s extglob

all=0
fine=0
while IFS= read -r line; do
  if [[ ! $line =~ ^rt:\ must-fail\ ([^\ ]+)\.edit:\ (.*)$ ]]; then continue; fi
  all=$((all + 1))
  edit=${BASH_REMATCH[1]}
  said=${BASH_REMATCH[2]}
  case $said in
  'refused, as it must be (only because '* | \
    'refused, as it must be: '*': error: '*@('has no '|'is not in scope'|'was not admitted'|'that can be named from here'|'`: record `')*)
    echo "$edit: shows nothing, a name is not there: $said" ;;
  'refused, as it must be (only by a limit '*) echo "$edit: shows nothing, the prover came to no verdict: $said" ;;
  'refused, as it must be: '*) fine=$((fine + 1)) ;;
  'refused, '*) echo "$edit: no reason is told: $said" ;;
  *) echo "$edit: not refused: $said" ;;
  esac
done < "$1"
if [ "$all" -eq 0 ]; then echo "$1: no must-fail edit is told of"; fi
[ "$fine" -gt 0 ] && [ "$fine" -eq "$all" ]
