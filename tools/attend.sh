# A part of goheap.sh: what it says on standard error, and how it runs a program so that a signal ends both and no file stays.

# A line on standard error. Of what it quotes the characters that a terminal would obey stand as question marks.
say() {
  local LC_ALL=C text="$*"
  text=${text//[[:cntrl:]]/?}
  text=${text//$'\xc2'[$'\x80'-$'\x9f']/?}
  printf 'goheap.sh: %s\n' "$text" >&2
}
# Ends with a status and a line that says why.
fail() {
  local status=$1
  shift
  say "$*"
  exit "$status"
}

children=() room='' status=0

# A folder of this run's own, in `room`.
make_room() {
  [ -n "$room" ] || room=$(mktemp -d 2>/dev/null) || { room=''; return 1; }
}
tidy_up() {
  if [ -n "$room" ]; then rm -rf "$room"; fi
  rm -f "$out"/*.sources.$$ 2>/dev/null
}
end_children() {
  [ "${#children[@]}" -gt 0 ] || return 0
  kill -TERM "${children[@]}" 2>/dev/null
  wait "${children[@]}" 2>/dev/null
  children=()
}
end_by_signal() {
  trap '' INT TERM HUP
  end_children
  exit 130
}
trap_signals() { trap end_by_signal INT TERM HUP; }
trap tidy_up EXIT
trap_signals

# Runs a command on standard input and keeps its status in `status`. If it takes long a line says so: `tells` is what it says, once, or
# with the seconds behind it again and again if that begins with `each `.
attend() {
  local child
  "$@" <&0 &
  child=$!
  children+=("$child")
  await "$child"
}
await() {
  local child=$1 timer seconds=0 patience=${GOHEAP_PATIENCE:-10}
  while [ -n "$tells" ] && kill -0 "$child" 2>/dev/null; do
    sleep "$patience" >/dev/null 2>&1 &
    timer=$!
    children+=("$timer")
    wait -n "$child" "$timer"
    if ! kill -0 "$child" 2>/dev/null; then
      kill "$timer" 2>/dev/null
      break
    fi
    seconds=$((seconds + ${patience%.*}))
    case $tells in
      each\ *) say "${tells#each }, $seconds s so far" ;;
      *)
        say "$tells"
        tells=''
        ;;
    esac
  done
  while
    wait "$child"
    status=$?
    kill -0 "$child" 2>/dev/null
  do :; done
  children=()
}
