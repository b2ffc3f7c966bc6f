# A part of goheap.sh: a line or more on standard error when a run has ended otherwise than it might have.

# Where the text is no script: what stands there, and what could.
hint_of_text() {
  local told
  [ -n "$text" ] || return
  told=$(tail -c "+$((skipped + 1))" "$text" | "$program" "$@" 2>/dev/null)
  tail -c "+$((skipped + 1))" "$text" | LC_ALL=C awk -v told="$told" -f "$here/tools/hint.awk" >&2
}

# Where standard input failed.
hint_of_input() {
  if [ ! -e /proc/self/fd/0 ]; then
    say 'standard input is closed: a script is given by < file'
  elif [ -d /dev/stdin ]; then
    say 'standard input is a folder: a script is given by < file'
  else
    say 'standard input failed while it was read, or is set not to wait (O_NONBLOCK): a script is given by < file'
  fi
}

# When the budget's turns were taken: what each actor was waiting for, by the same run in goheap_steps, if that program is there.
hint_of_budget() {
  local steps stepped=()
  say 'the run is not over: a --budget of up to 1000000000 turns lets it go on, 50000000 if none is said'
  [ -n "$text" ] || return
  steps=$(
    crate=goheap_steps
    know_sources
    for program in "$out/$crate-$name" "$here/crates/$crate/out/$crate" "$out/unproved-$crate-$name"; do
      if [ "$program" = "$here/crates/$crate/out/$crate" ] && ! rt_has_proved; then continue; fi
      if [ -x "$program" ]; then echo "$program"; break; fi
    done
  )
  if [ -z "$steps" ]; then
    say './goheap.sh steps < file builds what tells here what each actor was waiting for'
    return
  fi
  as_steps "${@:2}"
  tail -c "+$((skipped + 1))" "$text" | "$steps" --waits "${stepped[@]}" 2>/dev/null >"$room/waits"
  LC_ALL=C awk -f "$here/tools/waits.awk" <(tail -c "+$((skipped + 1))" "$text") "$room/waits" >&2
}
