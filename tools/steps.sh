#!/usr/bin/env bash
# Prints the turns of a stored script at which something happens that an item of a list can wait for, each with its number, the actor, how
# many steps that actor has taken, and what happened. So the n of an item A*n is a difference of two of these numbers of steps, and the m of
# A@m is one of these marks.
#   tools/steps.sh FILE        by the list of its second line, where it has one
#   tools/steps.sh FILE LIST   by this list
set -u
here=$(cd "$(dirname "$0")/.." && pwd) || exit 1
if [ $# -lt 1 ] || [ $# -gt 2 ] || [ ! -f "$1" ]; then
  echo "usage: tools/steps.sh FILE [LIST]" >&2
  exit 2
fi
list=${2-$(sed -n "2s/^# replay .*--list[ =]'\{0,1\}\([^ ']*\).*/\1/p" "$1")}
exec "$here/goheap.sh" steps ${list:+--list "$list"} <"$1"
