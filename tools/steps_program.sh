# A part of the checks, which stand at the top of the repository: sets `steps` to the goheap_steps that they run. That is what GOHEAP_STEPS
# names, else what goheap.sh runs, which builds it if it is not there.
steps=${GOHEAP_STEPS:-}
if [ -z "$steps" ]; then
  ./goheap.sh steps <examples/first.heap >/dev/null 2>&1
  # shellcheck disable=SC2012
  steps=$(ls -t out/goheap_steps-???????????????? out/unproved-goheap_steps-???????????????? 2>/dev/null | head -n 1)
fi
