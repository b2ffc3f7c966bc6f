#!/usr/bin/env bash
# The page of `./goheap.sh watch` loads in a browser without an error and asks for no network; its slider moves the arena; at the last turn it shows
# the last line that `replay` writes; a run of 100,000 turns makes a page of at most 5 MB in at most 20 seconds, and a thinned one says so. Without a headless chromium,
# as Debian's package of that name has it, only what needs none is tested, with a word.
# GOHEAP_STEPS names another program to run than goheap.sh's.
set -u
cd "$(dirname "$0")/.." || exit 1
work=$(mktemp -d) || exit 1
trap 'rm -rf "$work"' EXIT
# shellcheck source=tools/steps_program.sh
. tools/steps_program.sh
browser=$(command -v chromium || command -v chromium-browser || command -v google-chrome)
# shellcheck source=tools/words.sh
. tools/words.sh
passed=0 failed=0
tried() {
  if [ "$2" = "$3" ]; then passed=$((passed + 1)); else
    echo "check_watch: $1: '$2' is wanted, and it is '$3'"
    failed=$((failed + 1))
  fi
}

# Makes the page of a script, as goheap.sh does. Further words are of awk.
page_of() {
  local script=$1 page=$2 words=()
  read -r -a words < <(sed -n '2s/^# replay \(.*\)$/\1/p' "$script")
  as_steps ${words[@]+"${words[@]}"}
  "$steps" --trace "${stepped[@]}" <"$script" >"$work/trace"
  LC_ALL=C awk "${@:3}" -v template=tools/watch.html -f tools/watch.awk - "$work/trace" <"$script" >"$page"
}

# Loads a page with a script after it, whose lines say what is found: each as "name: value".
asked() {
  {
    sed '/<head>/a <script>window.errors = []; window.addEventListener("error", e => errors.push(e.message));</script>' "$1"
    cat <<'PAGE'
<pre id="found"></pre>
<script>
const say = (name, value) => { document.getElementById("found").textContent += name + ": " + value + "\n"; };
const seen = () => document.getElementById("arena").toDataURL() + document.getElementById("graph").innerHTML;
const settle = () => new Promise(done => setTimeout(done, 120));
async function slide(turn) { const s = document.getElementById("slider"); s.value = turn; s.dispatchEvent(new Event("input")); await settle(); return seen(); }
(async () => {
  const first = await slide(0), middle = await slide(Math.round(TURNS / 2)), last = await slide(TURNS);
  say("slider", first !== middle && middle !== last ? "moves the arena" : "does not");
  say("back", await slide(Math.round(TURNS / 2)) === middle ? "the same" : "another");
  await slide(TURNS);
  say("last", document.getElementById("told").lastChild.textContent);
  say("thinned", document.getElementById("thinned").textContent);
  await slide(Math.round(TURNS / 3));
  say("lit", document.querySelectorAll("#script .now").length > 0);
  say("boxes", [...document.querySelectorAll("#graph rect")].map(r => r.getAttribute("fill")).join(" "));
  const before = document.getElementById("lanes").toDataURL(); document.getElementById("in").click(); await settle();
  say("zoom", before !== document.getElementById("lanes").toDataURL() ? "another scale" : "the same");
  say("errors", errors.join("; "));
})();
</script>
PAGE
  } >"$work/test.html"
  timeout 120 "$browser" --headless --no-sandbox --disable-gpu --disable-dev-shm-usage --user-data-dir="$work/profile" --window-size=1300,900 --virtual-time-budget=20000 \
    --dump-dom "file://$work/test.html" 2>/dev/null | sed -n '/<pre id="found">/,/<\/pre>/p' | sed 's/<[^>]*>//g'
}
found() { sed -n "s/^$1: //p" "$work/found"; }

# A script of a chain that is kept, of about 100,000 turns.
printf 'arena 64\ngogc 100\nminheap 8192\ntype node pn\ntype row pn*31\ngo a\nrepeat 20\nnew r1 row\nstore r1 0 r0\nmove r0 r1\nend\ngstore 0 r0\nnil r0\nrepeat 2400\nnew r1 node\nend\ngc\nend\n' >"$work/long.heap"
begun=$(date +%s%N)
page_of "$work/long.heap" "$work/long.html"
took=$((($(date +%s%N) - begun) / 1000000))
turns=$(sed -n 's/^turns //p' "$work/trace")
tried "a run of $turns turns, of 100,000 or more" yes "$([ "${turns:-0}" -ge 100000 ] && echo yes || echo no)"
tried 'its page has at most 5 MB' yes "$([ "$(stat -c %s "$work/long.html")" -le 5000000 ] && echo yes || echo no)"
case $steps in
  *unproved*) ;;
  *) tried "its page is made in at most 20 s, and was in $took ms" yes "$([ "$took" -le 20000 ] && echo yes || echo no)" ;;
esac
page_of examples/deletion.heap "$work/deletion.html"
page_of runs/pacing.heap "$work/pacing.html"
page_of runs/pacing.heap "$work/thinned.html" -v most=2000
tried 'no page asks for a network' '' "$(grep -ohE '(src|href)="?https?:[^" ]*|fetch\(|XMLHttpRequest|import ' "$work"/*.html | head -n 1)"

if [ -z "$browser" ]; then
  echo 'check_watch: there is no chromium here, so that no page was loaded in a browser'
else
  for name in deletion pacing thinned; do
    script=examples/deletion.heap
    if [ "$name" != deletion ]; then script=runs/pacing.heap; fi
    asked "$work/$name.html" >"$work/found"
    tried "$name: errors" '' "$(found errors)"
    tried "$name: what the slider does" 'moves the arena' "$(found slider)"
    tried "$name: the same turn once more" 'the same' "$(found back)"
    tried "$name: the last line" "$(tail -n 1 "${script%.heap}.out")" "$(found last)"
    tried "$name: a statement is marked" true "$(found lit)"
    tried "$name: the scale" 'another scale' "$(found zoom)"
  done
  tried 'the thinned page says so' yes "$(found thinned | grep -q 'turns stand together.*are left out' && echo yes || echo no)"
  asked "$work/deletion.html" >"$work/found"
  tried 'the whole page says nothing of that' '' "$(found thinned)"
fi
echo "watch: $passed passed, $failed failed"
[ "$failed" -eq 0 ] && [ "$passed" -gt 0 ]
