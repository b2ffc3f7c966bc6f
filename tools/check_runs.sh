#!/usr/bin/env bash
# Runs the program on the scripts of runs/ and examples/, and compares what it writes and its status. GOHEAP names another program to
# run than goheap.sh's. In runs/:
#   NAME.heap      a script, which opens with a line of what it shows; its second line `# replay --list ..` has the words, where there are any
#   NAME.out       what it writes by these words, and with one line `agrees` more by --check; each script of one goroutine writes the same,
#                  but for its lines `cycle` and `credit`, whatever the order of steps
#   NAME.each      lines that stand in what it writes whatever the order, where there are several goroutines (of a script of examples/ too)
#   NAME.words     further command lines, one a line, and NAME.turns those of which each ends after so many turns
#   NAME.steps     at which step of which actor something happens (tools/check_steps.sh)
#   scripts.refused  the answer, and behind a tab a text that is no script, its lines parted by `|`
#   dumps.told       the status, the answer, and behind tabs a text for `verify`, its lines parted by `|`
#   words.refused    command lines that are none, each word with a `|` behind it
#   generated.text   the script of seed 7 and size 12, worked out by a program that has nothing of this repository
set -u
cd "$(dirname "$0")/.." || exit 1
work=$(mktemp -d)
trap 'rm -rf "$work"' EXIT
program=${GOHEAP-}
if [ -z "$program" ]; then
  ./goheap.sh replay <examples/first.heap >/dev/null 2>&1
  program=$(echo out/goheap-????????????????)
fi

# One run: how its text is compared with this file (`all`: it is that; `most`: but for lines `cycle` and `credit`; `some`: it has those
# lines), the status, standard input, and the words. Where a text is to end with `agrees`, the file does not have that line.
run() {
  local how=$1 file=$2 status=$3 input=$4
  shift 4
  printf '\001%s\t%s\t%s\t%s: %s\n' "$how" "$file" "$status" "$input" "$*"
  "$program" "$@" <"$input" 2>&1
  printf '\002%s\n' "$?"
}

# The words of a script's second line.
words_of() { sed -n '2s/^# \(replay .*\)$/\1/p' "$1"; }

# In an order that words say: each script of one goroutine by its whole text, of several by the lines that stand in each order.
in_order() {
  local script=$1 name
  name=$(basename "$script" .heap)
  shift
  if [ -e "runs/$name.each" ]; then run some "runs/$name.each" 0 "$script" "$@"; else run most "${script%.heap}.out" 0 "$script" "$@"; fi
}

by_seeds() {
  local script=$1 seed
  for seed in "${@:2}"; do in_order "$script" replay --check --seed "$seed"; done
}

of_one() {
  local script=$1 name words line turns
  name=$(basename "$script" .heap)
  read -r -a words < <(words_of "$script")
  if [ -e "${script%.heap}.out" ]; then
    run all "${script%.heap}.out" 0 "$script" "${words[@]:-replay}"
    case " ${words[*]:-} " in *' --check '*) ;; *) run agreed "${script%.heap}.out" 0 "$script" "${words[@]:-replay}" --check ;; esac
  fi
  by_seeds "$script" 0 {1..10} 4294967296 18446744073709551615
  # shellcheck disable=SC2086
  while read -r line; do in_order "$script" replay --check ${line#replay}; done < <(cat "runs/$name.words" 2>/dev/null)
  while read -r turns line; do
    echo "turns $turns" >"$work/turns.$turns"
    # shellcheck disable=SC2086
    run all "$work/turns.$turns" 8 "$script" $line
  done < <(cat "runs/$name.turns" 2>/dev/null)
}

# Texts that are no scripts, and command lines that are none.
refused() {
  local code answer text words n=0
  while IFS=$'\t' read -r answer text; do
    n=$((n + 1))
    echo "$answer" >"$work/answer.$n"
    printf '%b' "${text//|/\\n}" >"$work/text.$n"
    run all "$work/answer.$n" 3 "$work/text.$n" replay
  done <runs/scripts.refused
  while IFS=$'\t' read -r code answer text; do
    n=$((n + 1))
    echo "$answer" >"$work/answer.$n"
    printf '%b' "${text//|/\\n}" >"$work/text.$n"
    run all "$work/answer.$n" "$code" "$work/text.$n" verify
  done <runs/dumps.told
  echo 'words refused' >"$work/refused"
  while IFS='|' read -r -a words; do run all "$work/refused" 2 /dev/null "${words[@]}"; done <runs/words.refused
  run all "$work/refused" 2 /dev/null
  run all "$work/refused" 2 /dev/null replay --list "$(yes 1*1 | head -n 10001 | paste -sd,)"
  run most examples/first.out 0 examples/first.heap replay --check --list "$(yes 1*1 | head -n 10000 | paste -sd,)"
}

# The limits of texts, to the last byte.
limit() {
  echo "$2" >"$work/$1.out"
  run all "$work/$1.out" 3 "$work/$1" replay
}

limits() {
  local g
  { echo 'go a'; yes 'nil r0' | head -n 200000; printf end; } >"$work/most"
  run all runs/longest.out 0 "$work/most" replay
  printf 'go a\nint r0 18446744073709551615\nend\n' >"$work/greatest"
  run all runs/longest.out 0 "$work/greatest" replay
  { echo 'go a'; yes 'nil r0' | head -n 200001; printf end; } >"$work/more"
  limit more 'line 200003: limit'
  yes '#' | tr -d '\n' | head -c 4194304 >"$work/long"
  limit long 'line 0: missing'
  { cat "$work/long"; printf '#'; } >"$work/longer"
  limit longer 'line 0: size'
  seq -f 'type t%.0f n*65536' 0 64 >"$work/types"
  limit types 'line 65: limit'
  for g in {0..31}; do printf 'go g%s\nrepeat 6250\nnil r0\nend\nend\n' "$g"; done >"$work/many"
  run all runs/longest.out 0 "$work/many" replay
  { cat "$work/many"; printf 'go g'; } >"$work/many_more"
  limit many_more 'line 161: limit'
}

# Goroutines that meet on one to four processors, by 60 seeds; and actors that stand still anywhere: processor 0 in its statement, in a
# barrier or under the lock, then processor 1, then a worker in a scan.
meetings() {
  local name procs seed k list
  for name in meeting narrow; do
    for procs in 1 2 3 4; do
      sed "s/^procs .*/procs $procs/" "runs/$name.heap" >"$work/$name.heap"
      for seed in {11..70}; do run some "runs/$name.each" 0 "$work/$name.heap" replay --check --seed "$seed"; done
    done
    for k in {1..80}; do
      for list in "0*$k,1*200,2*40,4*40,3*40,1*200" "0*40,1*$k,0*200,2*40,4*40,3*40,0*200" "0*60,1*60,4*12,2*$k,0*100,1*100,3*60,4*40"; do
        run some "runs/$name.each" 0 "runs/$name.heap" replay --check --list "$list"
      done
    done
  done
}

# A script of so many statements that look random, with objects of this shape.
random_script() {
  local shape=$1 many=$2 x=$3 y a b k global
  printf 'procs 1\nworkers 2\narena 16\nglobals 3\ngogc 0\ntype node %s\ngo a\n' "$shape"
  while [ "$many" -gt 0 ]; do
    many=$((many - 1)) x=$((x * 6364136223846793005 + 1442695040888963407))
    y=$((x >> 32 & 0xffffffff))
    a=$((y / 16 % 8)) b=$((y / 128 % 8)) k=$((y / 1024 % 3)) global=$((y / 4096 % 3))
    case $((y % 16)) in
      [0-4]) echo "new r$a node" ;;
      [56]) echo "store r$a $k r$b" ;;
      [78]) echo "load r$a r$b $k" ;;
      9) echo "gstore $global r$a" ;;
      10) echo "gload r$a $global" ;;
      11) echo "move r$a r$b" ;;
      12) echo "nil r$a" ;;
      13) echo "int r$a $y" ;;
      14) echo "load r$a r$a $k" ;;
      15) if [ "$b" -eq 0 ]; then echo gc; else echo "nil r$b"; fi ;;
    esac
  done
  echo end
}

# Long scripts in a small arena: the bytes that are live are those of so many slots, cycles are asked for, and there is no room for some
# object only where objects are large. A check says that the heap that never frees answers the same; the order of steps changes no answer.
long_ones() {
  local shape slot many full seed good
  while read -r shape slot many full; do
    random_script "$shape" "$many" "$slot" >"$work/long.$slot.heap"
    "$program" replay <"$work/long.$slot.heap" >"$work/long.$slot.out"
    awk -v slot="$slot" -v full="$full" '$3 == "full" { f++ } $3 == "swept" { s++ } $1 == "live" { good = $4 == $2 * slot }
      END { exit !(good && s > 0 && (f > 0) == full) }' "$work/long.$slot.out"
    good=$?
    printf '\001all\t/dev/null\t0\t%s\n\002%s\n' "what a long script of objects of $slot bytes has" "$good"
    for seed in 1 2 3; do run most "$work/long.$slot.out" 0 "$work/long.$slot.heap" replay --check --seed "$seed"; done
  done <<'END'
ppn 24 2000 0
p*2n*510 4096 400 0
p*2n*2046 16384 150 1
p*2n*5118 40960 60 1
END
}

# The text that `gen` writes.
generated() {
  run all runs/generated.text 0 /dev/null gen --seed 7 --size 12
  run all runs/generated.text 0 /dev/null gen --size=12 --seed=7 --
}

all_runs() {
  local script
  for script in examples/*.heap runs/*.heap; do
    of_one "$script"
    case $script in */longest.heap | */many_grey.heap | */second_span.heap) ;; *) by_seeds "$script" {11..50} ;; esac
  done
  refused
  generated
  limits
  meetings
  long_ones
}

# Compares the texts: each stands between a line that begins with the byte 1 and one that begins with the byte 2.
compared() {
  awk -F'\t' '
    function text_of(file, most, line, text) {
      if ((file, most) in texts) return texts[file, most]
      while ((getline line <file) > 0) if (!most || line !~ /^(cycle|credit) /) text = text line "\n"
      close(file)
      return texts[file, most] = text
    }
    function has_all(file, text, parts, n, i) {
      n = split(text_of(file, 0), parts, "\n")
      for (i = 1; i < n; i++) if (index("\n" text, "\n" parts[i] "\n") == 0) return 0
      return text ~ /(^|\n)agrees\n$/
    }
    function is_right() {
      if (how == "all") return text == text_of(file, 0)
      if (how == "agreed") return text == text_of(file, 0) "agrees\n"
      if (how == "most") return rest == text_of(file, 1) "agrees\n"
      return has_all(file, text)
    }
    /^\001/ { how = substr($1, 2); file = $2; status = $3; label = $4; text = ""; rest = ""; next }
    /^\002/ {
      if (substr($0, 2) == status && is_right()) { passed++; next }
      failed++
      if (failed <= 20) print "check_runs: " substr(label, 1, 200) " ends with " substr($0, 2) " and not with " status ", or its text is not that of " file " (" how ")"
      next
    }
    { text = text $0 "\n"; if ($0 !~ /^(cycle|credit) /) rest = rest $0 "\n" }
    END { print "runs: " passed + 0 " passed, " failed + 0 " failed"; exit failed > 0 || passed == 0 }'
}

for script in runs/*.heap; do
  head -n 1 "$script" | grep -q '^# ..*\.$' && continue
  echo "check_runs: $script does not open with a line of what it shows"
  exit 1
done
all_runs | compared
