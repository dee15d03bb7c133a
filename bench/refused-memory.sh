#!/usr/bin/env bash
# bench/refused-memory.sh SIRI [STRIDE]: runs the built program where memory is refused. Each run has to end with status
# 70 and a front of its report, or with the status and the whole report that it has where memory isn't short. It ends
# with 0 where each did.
#
# - Of scripts of a first feed, of rounds, of parts that are fetched and of heartbeats, and of a document that is
#   checked and converted: the Nth request for memory is refused, for every N up to the last that is asked for; then the
#   Nth and all that follow. It wants cc, for the library that refuses them (refused.c). With STRIDE only each so manieth
#   N is tried.
# - Of the same, a load and a document of 2.7 MB: a limit of the address space, from the least under which the system
#   starts the program up to the least under which it brings its whole report, in at least 100 steps where there are so
#   many pages between.
set -u
export LC_ALL=C
siri=$(readlink -f -- "$1")
stride=${2-1}
here=$(dirname -- "$(readlink -f -- "${BASH_SOURCE[0]}")")
examples=$here/../examples
folder=$(mktemp -d)
trap 'rm -r -- "$folder"' EXIT
failed=0
ulimit -c 0

wrong() {
  echo "refused-memory: $1"
  failed=$((failed + 1))
  [ "$failed" -lt 20 ] || exit 1
}

# A run, and how it ends: its status and what it writes, in `status` and `told`.
run() {
  ("$@") <"$input" >"$folder/told" 2>"$folder/errors"
  status=$?
  IFS= read -r -d '' told <"$folder/told"
}

# Whether that is 70 and a front, or the whole.
is_right() {
  case $status in
    70) [ "${whole:0:${#told}}" = "$told" ] ;;
    "$wanted") [ "$told" = "$whole" ] ;;
    *) false ;;
  esac
}

ended() { echo "status $status, ${#told} bytes of ${#whole}, $(head -n 1 "$folder/errors")"; }

refuse() { LD_PRELOAD=$folder/refused.so REFUSED=$number exec "${words[@]}"; }
refuse_onwards() { LD_PRELOAD=$folder/refused.so REFUSED=$number ONWARDS=1 exec "${words[@]}"; }
limit() { ulimit -v "$size" && exec "${words[@]}"; }

# ---- the Nth request

each_request() {
  local way=$1 name=$2 asked short=0 count=0
  asked=$(LD_PRELOAD=$folder/refused.so ASKED=1 "${words[@]}" <"$input" 2>&1 >/dev/null | sed -n 's/^asked //p')
  [ "${asked:-0}" -gt 0 ] || wrong "$name: no request for memory is seen"
  for ((number = 1; number <= asked; number += stride)); do
    run "$way"
    is_right || wrong "$name, $way $number of $asked: $(ended)"
    [ "$status" != 70 ] || short=$((short + 1))
    count=$((count + 1))
  done
  printf '%-26s %-15s %6d requests, %6d runs: %6d ended with 70, %d with the whole report\n' \
    "$name" "$way" "$asked" "$count" "$short" $((count - short))
}

# ---- a limit of the address space, in KiB

# The least size, from one that doesn't serve to one that does, at which a run does so.
least() {
  local low=$1 high=$2
  while [ $((high - low)) -gt 4 ]; do
    size=$(((low + high) / 8 * 4))
    run limit
    if $3; then high=$size; else low=$size; fi
  done
  size=$high
}
# (the system's loader ends with 127 where it finds no room for its libraries, and the kernel by a signal)
starts() { [ "$status" != 127 ] && [ "$status" -lt 128 ]; }
brings_all() { [ "$status" = "$wanted" ]; }

each_limit() {
  local name=$1 low high step count=0 short=0
  least 0 1048576 starts
  low=$size
  least "$low" 1048576 brings_all
  high=$size
  step=$(((high - low) / 128 / 4 * 4))
  [ "$step" -ge 4 ] || step=4
  for ((size = low; size <= high + step; size += step)); do
    run limit
    is_right || wrong "$name, $size KiB: $(ended)"
    [ "$status" != 70 ] || short=$((short + 1))
    count=$((count + 1))
  done
  printf '%-26s address space   %d to %d KiB, %d sizes: %d ended with 70, %d with the whole report\n' \
    "$name" "$low" "$high" "$count" "$short" $((count - short))
}

# ---- the runs

# The words and the input of a run, and what it comes to.
take() {
  input=$1
  shift
  words=("$siri" "$@")
  run exec "${words[@]}"
  whole=$told wanted=$status
}

cc -O2 -shared -fPIC -o "$folder/refused.so" "$here/refused.c" || exit
for name in morning drift fetched_in_parts heartbeat; do
  take "$examples/$name.script" replay
  [ "$whole" = "$(cat "$examples/$name.report")"$'\n' ] || wrong "$name brings another report"
  each_request refuse "replay $name"
  each_request refuse_onwards "replay $name"
  each_limit "replay $name"
done
for command in check convert; do
  take "$examples/stop_monitoring.json" $command
  each_request refuse $command
  each_request refuse_onwards $command
  each_limit $command
done
python3 "$here/make.py" delivery 4000 >"$folder/delivery"
take "$folder/delivery" convert
each_limit "convert of 2.7 MB"
take /dev/null load 7 2000
each_limit "load 7 2000"
[ "$failed" = 0 ] && echo "refused-memory: as expected"
exit $((failed > 0))
