# A part of goheap.sh: the commands that show a run by what goheap_steps tells of it.

# The list among the words of a command that takes one, and before it whether the pacing is asked for.
list_of() {
  local command=$1
  shift
  list='' how=''
  if [ "${1-}" = --pacing ]; then
    how=$1
    shift
  fi
  case $#:${1-} in
    0:) ;;
    2:--list) list=$2 ;;
    1:--list=*) list=${1#--list=} ;;
    *) refuse "'$*' is not what $command takes, which is --pacing, --list text, both or nothing" ;;
  esac
  check_words "$command" "$@"
}

steps() {
  list_of steps "$@"
  keep_text
  choose_program goheap_steps
  tells='each the run goes on'
  attend "$program" ${how:+"$how"} ${list:+"$list"}
  tell_end ${how:+"$how"} ${list:+"$list"}
  if [ "$status" -eq 8 ]; then say 'a run of more than 10000000 turns is not told to its end'; fi
  exit "$status"
}

# The script from where standard input stood.
script() { tail -c "+$((skipped + 1))" "${text:-/dev/null}"; }

draw() {
  local picture=draw events
  list_of draw "$@"
  if [ -n "$how" ]; then picture=pacing; fi
  keep_text
  [ -n "$room" ] || fail 1 'no temporary folder can be made'
  choose_program goheap_steps
  tells='each draw goes on'
  attend "$program" ${how:+"$how"} ${list:+"$list"} >"$room/told"
  if [ "$status" -ne 0 ]; then
    cat "$room/told" >&2
    tell_end ${how:+"$how"} ${list:+"$list"}
    if [ "$status" -eq 8 ]; then say 'a run of more than 10000000 turns is not drawn: ./goheap.sh watch thins it'; fi
    exit "$status"
  fi
  events=$(grep -c '^[0-9]* [a-z]* [0-9]* step' "$room/told")
  if [ "$picture" = draw ] && [ "$events" -gt 2000 ]; then
    fail 1 "the run has $events events, and draw makes a row of each, up to 2000: ./goheap.sh watch < file > run.html shows longer runs"
  fi
  attend awk -f "$here/tools/$picture.awk" <(script) "$room/told"
  exit "$status"
}

# Runs goheap_steps with the words of replay, and hands the trace to a program of awk, after the script. What that makes is written once it is whole.
shown() {
  local telling stepped=()
  as_steps "${@:2}"
  mkfifo "$room/trace" || fail 1 'no pipe can be made'
  "$program" --trace "${stepped[@]}" <&0 >"$room/trace" &
  telling=$!
  script >"$room/script"
  LC_ALL=C awk -v template="$here/tools/watch.html" -f "$here/tools/$1.awk" - "$room/trace" <"$room/script" >"$room/shown" &
  children+=("$telling" "$!")
  await "$!"
  wait "$telling"
  status=$?
  cat "$room/shown"
}

cycles() {
  check_words cycles "$@"
  show cycles "$@"
}

watch() {
  check_words watch "$@"
  show watch "$@"
}

# The run is shown by this program of awk. Where its turns were taken before its end, what there was of it is shown.
show() {
  keep_text
  [ -n "$room" ] || fail 1 'no temporary folder can be made'
  choose_program goheap_steps
  tells="each $1 goes on"
  shown "$@"
  if [ "$status" -eq 8 ]; then say 'the run is not over: it is shown up to there, and a --budget of up to 1000000000 turns lets it go on'; fi
  tell_end --trace
  exit "$status"
}
