# A part of the checks and of bench/, which stand at the top of the repository: sets `program` to what they run. That is what GOHEAP
# names, from / on; else what this command of goheap.sh prints, or goheap.sh itself.
program=${GOHEAP:-}
if [ -z "$program" ]; then
  program=$PWD/goheap.sh
  if [ "${1-}" = program ]; then program=$(./goheap.sh program) || exit 1; fi
fi
case $program in
  /*) ;;
  *)
    echo "$(basename "$0"): GOHEAP is '$program', which is relative: it is given from / on" >&2
    exit 2
    ;;
esac
if [ ! -f "$program" ]; then
  echo "$(basename "$0"): GOHEAP is '$program', and there is no such file" >&2
  exit 2
elif [ ! -x "$program" ]; then
  echo "$(basename "$0"): GOHEAP is '$program', which may not be executed" >&2
  exit 2
fi
