# A part of goheap.sh: the words behind `replay`, `gen` and `soak`. What the program would not take is refused before anything is built, as the
# program refuses it, and on standard error the wrong word is named.

refuse() {
  echo 'words refused'
  fail 2 "$*"
}

# Decimal digits after at most one plus sign, from the least to the most.
is_number() {
  local n=$1 least=$2 most=$3
  [[ $n =~ ^\+?[0-9]+$ ]] || return 1
  n=${n#+}
  while [[ $n = 0?* ]]; do n=${n#0}; done
  is_at_most "$n" "$most" && is_at_most "$least" "$n"
}
# Of two numbers without leading zeros, of any length.
is_at_most() { [ ${#1} -lt ${#2} ] || { [ ${#1} -eq ${#2} ] && [[ ! $1 > $2 ]]; }; }

# The first item of a list that is none, or nothing.
wrong_item() {
  LC_ALL=C awk -v RS=, 'function is(n, least, most) { return n ~ /^[0-9]+$/ && length(n) <= 20 && n + 0 >= least && n + 0 <= most }
    { sub(/\n$/, ""); at = match($0, /[*@!]/); n = substr($0, at + 1); sign = substr($0, at, 1) }
    !at || !is(substr($0, 1, at - 1), 0, 255) || !is(n, sign != "@", sign == "@" ? 4294967296 : 1000000) { print "\047" $0 "\047"; exit }
    NR == 10001 { print "what stands behind the 10,000th item"; exit }' <<<"$1"
}

check_value() {
  local option=$1 value=$2 wrong
  case $option in
    --seed) is_number "$value" 0 18446744073709551615 || refuse "'$value' is no seed: a number from 0 to 18446744073709551615" ;;
    --budget) is_number "$value" 1 1000000000 || refuse "'$value' is no budget: a number of turns from 1 to 1000000000" ;;
    --size) is_number "$value" 4 200000 || refuse "'$value' is no size: a number of statements from 4 to 200000" ;;
    --list)
      case $value in '' | *,) refuse "'$value' is no list: items such as 0@4 or 2*3, separated by single commas" ;; esac
      wrong=$(wrong_item "$value")
      [ -z "$wrong" ] || refuse "$wrong is no item of a list: A*n, actor A up to 255 takes n steps, 1 to 1000000; A@m, it steps until its marks are m, up to 4294967296; A!n, others take n turns, 1 to 1000000"
      ;;
  esac
}

# Whether the words of a command are options that it takes, each at most once and with its value. `takes` has those that take a value,
# `flags` those that take none, and `seen` has them behind it.
check_options() {
  local command=$1 word option
  shift
  seen=' '
  while [ $# -gt 0 ]; do
    word=$1 option=${1%%=*}
    shift
    case " $takes $flags -- " in
      *" $word "*) ;;
      *)
        case " $takes " in *" $option "*) ;; *) unknown_word "$command" "$word" ;; esac
        ;;
    esac
    if [ "$word" = -- ]; then
      [ $# -eq 0 ] && return 0
      refuse "'$1' stands behind --, where no word is taken"
    fi
    case $seen in *" $option "*) refuse "'$option' stands a second time" ;; esac
    seen="$seen$option "
    case " $flags " in *" $word "*) continue ;; esac
    if [ "$word" = "$option" ]; then
      [ $# -gt 0 ] || refuse "'$option' is followed by a value"
      case $1 in -*) refuse "'$1' is no value of $option" ;; esac
      check_value "$option" "$1"
      shift
    else
      check_value "$option" "${word#*=}"
    fi
  done
}

unknown_word() {
  if [ -f "$2" ] && [ "$takes" != '--seed --size' ]; then say "a script is read from standard input: goheap.sh $1 < $2"; fi
  refuse "'$2' is no word of $1, which takes $(named_options)"
}
named_options() {
  case $takes in
    '--seed --size') echo '--seed n and --size n' ;;
    *) echo '--seed n, --list text, --budget n and --check' ;;
  esac
}

# The words behind `replay`, or behind another command that takes the same.
check_words() {
  local takes='--seed --list --budget' flags=--check
  check_options "$@"
}

# The words behind `gen` or `soak`, both of which are to stand there.
check_generated() {
  local takes='--seed --size' flags='' option
  check_options "$@"
  for option in $takes; do
    case $seen in *" $option "*) ;; *) refuse "$1 takes --seed n and --size n, and $option is not there" ;; esac
  done
}

# The words of `replay` as goheap_steps takes them after --trace or --waits, in `stepped`.
as_steps() {
  local option value seed='' budget=50000000 list=''
  while [ $# -gt 0 ]; do
    option=${1%%=*} value=${1#*=}
    case $1 in
      --seed | --budget | --list)
        value=${2-}
        shift
        ;;
    esac
    case $option in
      --seed) seed=$value ;;
      --budget) budget=$value ;;
      --list) list=$value ;;
    esac
    shift
  done
  # shellcheck disable=SC2034
  stepped=(${seed:+--seed "$seed"} --budget "$budget" ${list:+"$list"})
}
