# A part of bench/replay.sh and bench/instructions.sh: the scripts whose turns they measure.

# The scripts: what each turns on most, and its text. actors3 and actors13 have the same goroutines, on the fewest actors that there are,
# which are a processor, a worker and the coordinator, and on 13: 8 processors, 4 workers and the coordinator. collected13 has cycles on
# as many.
names=(statements globals fields small paced assisted large passes full collected cycles1 cycles4 processors actors3 actors13 collected13)

# Goroutines that run statements on registers: how many, and how often each.
registers() {
  local g
  for g in $(seq "$1"); do printf 'go g%d\nrepeat %d\nint r0 1\nmove r1 r0\nnil r2\nend\nend\n' "$g" "$2"; done
}
# A span of each of 36 span classes in an arena of 1,024 pages, with an object each, and cycles of one worker or of four.
cycles() {
  local size
  printf 'procs 2\nworkers %d\narena 1024\ngogc 0\n' "$1"
  for size in 1 2 3 4 6 8 10 12 14 16 20 24 32 40 48 64 96 128; do printf 'type n%d n*%d\ntype p%d p*%d\n' $size $size $size $size; done
  printf 'go a\n'
  for size in 1 2 3 4 6 8 10 12 14 16 20 24 32 40 48 64 96 128; do printf 'new r0 n%d\nnew r0 p%d\n' $size $size; done
  printf 'repeat 40\ngc\nend\nend\ngo b\nrepeat 190000\nnil r0\nend\nend\n'
}
says() {
  local g
  case $1 in
    statements) printf 'arena 16\ntype t n\ngo a\nrepeat 66666\nint r0 1\nmove r1 r0\nnil r2\nend\nend\n' ;;
    globals) printf 'arena 16\nglobals 4\ntype node pn\ngo a\nnew r0 node\nrepeat 49999\ngstore 1 r0\ngload r1 1\ngstore 2 r1\ngload r2 2\nend\nend\n' ;;
    fields) printf 'arena 16\ntype node pn\ngo a\nnew r0 node\nnew r1 node\nint r2 7\nrepeat 49999\nstore r0 0 r1\nstore r0 1 r2\nload r3 r0 0\nload r4 r3 1\nend\nend\n' ;;
    # new objects of two words, all of which fit
    small) printf 'arena 1024\ngogc 0\ntype node pn\ngo a\nrepeat 200000\nnew r0 node\nend\nend\n' ;;
    # the same where cycles begin by the heap's size
    paced) printf 'arena 1024\ngogc 100\nminheap 65536\ntype node pn\ngo a\nrepeat 200000\nnew r0 node\nend\nend\n' ;;
    # the same, all kept in a list from a global, so that each cycle has all of them to scan: of 5,828 words that six cycles scan the worker
    # scans 6, as the line `credit` tells, which are the global in each; the processor scans the others, in the assists of its `new`s
    assisted) printf 'arena 256\ngogc 100\nminheap 1024\ntype node pn\ngo a\nrepeat 3000\nnew r1 node\nstore r1 0 r0\nmove r0 r1\ngstore 0 r0\nend\nnil r0\ngstore 0 r0\nend\n' ;;
    # new objects of 65,536 words, which are cleared
    large) printf 'arena 1024\ngogc 0\ntype big n*65536\ngo a\nrepeat 15\nnew r0 big\nend\nend\n' ;;
    # new objects of 32 words, which fit; most turns of a processor are steps of passes over full spans
    passes) printf 'arena 512\ngogc 0\ntype node pn*31\ngo a\nrepeat 16000\nnew r0 node\nend\nend\n' ;;
    # new objects of two words in an arena that 8,192 of them fill: the next one passes over all spans and waits for a cycle, which
    # frees them
    full) printf 'arena 16\ngogc 0\ntype node pn\ngo a\nrepeat 12000\nnew r0 node\nend\nend\n' ;;
    # a heap that is collected again and again
    collected) printf 'arena 16\ngogc 0\ntype node pn\ngo a\nrepeat 2000\nnew r0 node\ngc\nend\nend\n' ;;
    # a heap of few objects in a large arena that is collected again and again, while another goroutine runs statements: what a cycle costs is
    # the walks over its pages and buffers, and the sweeps of spans with an object each
    cycles1) cycles 1 ;;
    cycles4) cycles 4 ;;
    processors) printf 'arena 16\nprocs 4\ntype t n\n' && registers 4 16666 ;;
    actors3) printf 'arena 16\nprocs 1\nworkers 1\ntype t n\n' && registers 8 8333 ;;
    actors13) printf 'arena 16\nprocs 8\nworkers 4\ntype t n\n' && registers 8 8333 ;;
    # each goroutine asks for a cycle again and again, and polls until it is swept
    collected13)
      printf 'arena 64\nprocs 8\nworkers 4\nglobals 8\ngogc 0\ntype node pn\n'
      for g in 0 1 2 3 4 5 6 7; do printf 'go g%d\nrepeat 60\nnew r0 node\ngstore %d r0\ngc\nend\nend\n' "$g" "$g"; done
      ;;
  esac
}

# The turns of a script, in a run with the words behind it: the least budget within which it ends.
turns() {
  local low=1 high=50000000 middle
  while [ "$low" -lt "$high" ]; do
    middle=$(((low + high) / 2))
    if "$program" replay --budget "$middle" "${@:2}" <"$1" >"$work/out"; then high=$middle; else low=$((middle + 1)); fi
  done
  echo "$low"
}
