#!/usr/bin/env bash
# Runs scripts of goroutines with the program of this checkout's sources: the proved one where `prove` has built it, else one
# that is built without its proofs, in about a minute, and says so.
#   ./goheap.sh replay < examples/first.heap
set -u
unset CDPATH
here=$(cd "$(dirname "$(readlink -f "${BASH_SOURCE[0]}")")" && pwd -P) || exit 1
out=$here/out

# The words that `tells` has while a program runs (tools/attend.sh).
tells=''

usage() {
  cat <<'END_OF_USAGE'
usage: goheap.sh replay [--seed n] [--list text] [--budget n] [--check] < file
         runs the script of goroutines in the file, and writes a line for each answer. A list says who steps first, by items that are
         separated by commas: A*n gives actor A n steps, A@m lets it step until its marks are m, A!n gives n turns to others than A
       goheap.sh run < file
         runs the script with a thread for each processor, each worker and the coordinator, and writes the same lines, save that those of
         the cycles and of the credit may differ from run to run, and the answers too if goroutines race
       goheap.sh gen --seed n --size n
         writes a script of four goroutines with size / 4 statements each, drawn from the seed
       goheap.sh soak --seed n --size n
         runs that script in threads, and writes how many statements it has and what is live at its end
       goheap.sh verify < file
         checks a dump of a heap as a certificate, and writes how many objects it lists, all of them reached, or its first line that is wrong
         (docs/DUMP.md)
       goheap.sh example name
         runs examples/name.heap, with the words that its second line has for it
       goheap.sh watch [the words of replay] < file > run.html
         makes a page of the run that needs no network: its lanes, phases, stops and bytes over the turns, and the arena, the graph of
         objects and the statements at each turn
       goheap.sh cycles [the words of replay] < file
         writes a line for each cycle: bytes, goal and trigger, turns in each phase, stops, words scanned, spans swept and credit
       goheap.sh steps [--pacing] [--list text] < file
         runs it too, and writes a line for each turn at which something happens that a list can wait for, and the arena at each cycle's end;
         with --pacing first, a line for each turn at which the heap's bytes, the trigger or the phase changes
       goheap.sh draw [--list text] < file > run.svg
         draws these turns, for papers: its rows are events and not time. It has the phases of the collector, and beneath them the pages,
         spans and slots at each cycle's end. A run of more than 2,000 events is for watch
       goheap.sh draw --pacing [--list text] < file > pacing.svg
         draws what paces the cycles of the run: the heap's bytes, the trigger and the goal over its turns
       goheap.sh prove
         has all proofs below the program checked, and builds the program that replay runs from then on
       goheap.sh program
         prints where the program is that replay runs, so that it can be run without goheap.sh
       goheap.sh --version
         says which sources these are, and whether a program of them is built
       goheap.sh help [command]
         prints this, or what it says of the command, as the command does with --help
  For example: ./goheap.sh replay < examples/first.heap
  README.md says what goheap is, docs/SCRIPTS.md what a script may say and how each command ends.
END_OF_USAGE
}
# What the usage says of a command; it fails if that is none.
usage_of() {
  usage | awk -v command="$1" '/goheap.sh [a-z-]+/ && /^(usage:|      ) / { on = $0 ~ ("goheap.sh " command "( |$)") } /^  [A-Z]/ { on = 0 }
    on { sub(/^      /, count ? "      " : "usage:"); print; count++ } END { exit !count }'
}

here_is_all=yes
for part in crates crates.txt HANDLES tools/attend.sh tools/hints.sh tools/words.sh tools/sources.sh tools/build.sh tools/shows.sh \
  tools/hint.awk tools/waits.awk tools/draw.awk tools/pacing.awk tools/cycles.awk tools/watch.awk tools/watch.html; do
  [ -e "$here/$part" ] || { here_is_all=no && break; }
done
if [ "$here_is_all" = no ]; then
  printf 'goheap.sh: %s has no %s: goheap.sh runs in a checkout of the whole repository\n' "$here" "$part" >&2
  exit 1
fi
# shellcheck source=tools/attend.sh
. "$here/tools/attend.sh"
# shellcheck source=tools/hints.sh
. "$here/tools/hints.sh"
# shellcheck source=tools/words.sh
. "$here/tools/words.sh"
# shellcheck source=tools/sources.sh
. "$here/tools/sources.sh"
# shellcheck source=tools/build.sh
. "$here/tools/build.sh"
# shellcheck source=tools/shows.sh
. "$here/tools/shows.sh"

# Whether a program is there. One that is there and may not be executed is no cause to build another.
may_run() {
  [ -e "$1" ] || return 1
  [ -x "$1" ] || fail 126 "$1 is there, and its permissions do not let it be executed"
}

# The program of a crate's sources: the proved one where it is there, or where all of it is proved and only not handed out yet; else
# the one without proofs, which is built where it is not there.
choose_program() {
  crate=$1
  know_sources
  program=$out/$crate-$name is_proved=yes
  if may_run "$program"; then return; fi
  if rt_has_proved; then
    prove
    return
  fi
  program=$out/unproved-$crate-$name is_proved=no
  if ! may_run "$program"; then build_unproved; fi
  if [ "$crate" = goheap ]; then
    say 'the proofs of this program have not been checked on this machine: ./goheap.sh prove checks them, and bash .ci/run all there are'
  fi
}

# Standard input, so that it can be read a second time: a file from where it stands, and of what is no file a copy, of at most one
# byte more than a script may have.
keep_text() {
  text='' skipped=0
  make_room
  if [ -f /dev/stdin ]; then
    text=/dev/stdin
    read -r _ skipped <"/proc/$$/fdinfo/0" || skipped=0
  elif [ -p /dev/stdin ] || [ -t 0 ]; then
    if [ -t 0 ]; then say 'the script is read from the terminal, up to Ctrl-D; a file is given by < file'; fi
    [ -n "$room" ] || return 0
    attend head -c 4194305 >"$room/text"
    if [ "$status" -ne 0 ]; then fail 4 'standard input cannot be read'; fi
    exec 8<"$room/text"
    # It has no name any more, and ends with this process.
    rm -f "$room/text"
    text=/proc/$$/fd/8
    exec <"$text"
  fi
}

run_and_end() {
  if [ "$is_proved" = no ] && [ -z "$tells" ]; then
    tells='still running: without proofs the program tests each thing that it does, and is some hundreds of times slower than the proved one'
  fi
  attend "$program" "$@"
  tell_end "$@"
  exit "$status"
}
# Why the program has ended as `status` says.
tell_end() {
  case $status in
    3) hint_of_text "$@" ;;
    4) hint_of_input ;;
    8) if [ "$crate" = goheap ]; then hint_of_budget "$@"; fi ;;
  esac
}

replay() {
  check_words replay "$@"
  keep_text
  choose_program goheap
  run_and_end replay "$@"
}

threads() {
  case $* in '' | --) ;; *) refuse "'$*' is not what run takes, which is nothing but a script" ;; esac
  keep_text
  choose_program goheap
  run_and_end run "$@"
}

verify() {
  case $* in '' | --) ;; *) refuse "'$*' is not what verify takes, which is nothing but a dump" ;; esac
  text=''
  choose_program goheap
  run_and_end verify "$@"
}

generated() {
  check_generated "$@"
  text=''
  choose_program goheap
  run_and_end "$@" </dev/null
}

example() {
  local script words=()
  script=$here/examples/$(basename "${1-}" .heap).heap
  if [ ! -f "$script" ]; then
    fail 2 "'${1-}' is no example; there are$(cd "$here/examples" && printf ' %s' *.heap | sed 's/\.heap//g')"
  fi
  read -r -a words < <(sed -n '2s/^# replay \(.*\)$/\1/p' "$script")
  replay ${words[@]+"${words[@]}"} "${@:2}" <"$script"
}

version() {
  local built=no commit
  crate=goheap
  know_sources
  if [ -x "$out/goheap-$name" ] || rt_has_proved; then built='a proved program of them'; elif [ -x "$out/unproved-goheap-$name" ]; then built='a program of them without proofs'; fi
  commit=$(git -C "$here" rev-parse --short HEAD 2>/dev/null)
  echo "goheap, sources $name${commit:+, commit $commit}; $([ "$built" = no ] && echo 'no program of them is built yet' || echo "$built is built")"
}

case ${2-} in
  -h | --help) if usage_of "${1-}"; then exit 0; fi ;;
esac
case "${1-}" in
  replay) replay "${@:2}" ;;
  run) threads "${@:2}" ;;
  verify) verify "${@:2}" ;;
  gen | soak) generated "$@" ;;
  example) example "${@:2}" ;;
  watch) watch "${@:2}" ;;
  cycles) cycles "${@:2}" ;;
  steps) steps "${@:2}" ;;
  draw) draw "${@:2}" ;;
  prove)
    [ $# -eq 1 ] || fail 2 "'$2' is no word of prove, which takes none"
    crate=goheap
    know_sources
    program=$out/$crate-$name
    if may_run "$program"; then fail 0 "the program of these sources is proved and built: $program"; fi
    prove
    ;;
  program)
    [ $# -eq 1 ] || fail 2 "'$2' is no word of program, which takes none"
    choose_program goheap
    echo "$program"
    ;;
  --version | version) version ;;
  -h | --help | help)
    if [ $# -le 1 ]; then usage; else usage_of "$2" || fail 2 "'$2' is no command"; fi
    ;;
  *)
    if [ $# -gt 0 ]; then say "'$1' is no command"; fi
    if [ -f "${1-}" ]; then say "a script is read from standard input: goheap.sh replay < $1"; fi
    usage >&2
    exit 2
    ;;
esac
