#!/usr/bin/env bash
# Measures eight things, all but phases beside a yardstick in the same run, and prints processor seconds (user and system, the least
# of 5 runs, of 15 for phases and documents), megabytes of input a second, and the peak memory:
#
# - `siri replay` on two kinds of script, at half the size and at the whole one, beside `grep -c '^#'` over the script of
#   passed-over lines, and for the visits python's json, which reads the same four documents and writes them;
# - the phases of reading and writing a delivery of 5.5 MB, as differences of runs of `siri_chains phase NAME`;
# - `siri convert` and `siri check` of that delivery, beside a program on Rust's serde_json (bench/yardstick), which wants
#   cargo and Debian's package librust-serde-json-dev, and beside one that is written by hand for such a delivery (--by-hand);
# - `siri replay` of 20,000 live visits and 100 asks that show 200 of them each, beside the same program, which keeps the
#   visits as trees: time and memory of a fed visit and time of an ask, as differences of runs;
# - `siri replay` of visits, subscriptions and changes of one visit in which every packet is delivered, and of a city of boards, beside
#   a producer and consumers that are written by hand (yardstick --by-hand replay): time of a change and memory, as differences of
#   runs, whose reports have to be the same;
# - `siri load` at three sizes, beside the same by hand;
# - `siri serve` on 127.0.0.1, beside a server over std's TcpListener that answers the same bytes from memory;
# - where valgrind is there, the instructions of documents and of the producer, which no other work on the machine changes.
set -eu
here=$(dirname -- "$(readlink -f -- "${BASH_SOURCE[0]}")")
# (the programs that the gate or an earlier build left serve as well: `bench/run.sh --built`)
if [ "${1-}" != --built ]; then
  "$here/../siri" build
  (cd "$here/../crates/siri_chains" && rt run >/dev/null)
fi
(cd "$here/yardstick" && cargo build --release --offline --quiet)

inputs=$(mktemp -d)
trap 'rm -r -- "$inputs"' EXIT
for size in 500000 1000000; do python3 "$here/make.py" lines "$size" >"$inputs/lines.$size"; done
for size in 10000 20000; do python3 "$here/make.py" visits "$size" >"$inputs/visits.$size"; done
python3 "$here/make.py" delivery 8000 >"$inputs/delivery.8000"
python3 "$here/make.py" stops 10000 0 >"$inputs/stops.10000.0"
for asks in 0 100; do python3 "$here/make.py" stops 20000 "$asks" >"$inputs/stops.20000.$asks"; done
for size in 10000 20000; do python3 "$here/make.py" sorted "$size" 0 >"$inputs/sorted.$size.0"; done
# (each word of a load is an argument, and a part of the file's name)
for load in subscribed,1000,20,2000 subscribed,20000,20,2000 subscribed,20000,200,2000 shared,20000,200,20 wide,10000,1,2000 wide,20000,1,2000 \
  ticks,20000,200,10000 nearest,20000,1,2000 limited,20000,1,2000 unshown,20000,200,10000 boards,20000,200,10000 departing,20000,200,10000 \
  silent,1000,1,50000 silent,1000,1,200000 journeys,20000,0,1000; do
  IFS=, read -r kind visits wanted changes <<<"$load"
  for size in "0 0" "$wanted 0" "$wanted $changes"; do
    python3 "$here/make.py" "$kind" "$visits" $size >"$inputs/$kind.$visits.${size/ /.}"
  done
done

echo "commit $(git -C "$here" rev-parse --short HEAD); $(nproc) cores, load $(cut -d' ' -f1 /proc/loadavg)"
python3 "$here/measure.py" "$here/../crates" "$here/yardstick/target/release/yardstick" "$inputs"
python3 "$here/network.py" "$here/../crates/siri/out/siri" "$here/yardstick/target/release/http" "$inputs"

# Instructions of a program over its input.
instructions() {
  valgrind --tool=callgrind --callgrind-out-file=/dev/null "${@:2}" 2>&1 >/dev/null <"$inputs/$1" | awk '/refs:/ { gsub(",", "", $NF); print $NF }'
}
# The same in millions.
millions() { awk -v count="$(instructions "$@")" 'BEGIN { printf "%.0f", count / 1e6 }'; }
# Thousands of instructions of a change, of so many that an input has more than another.
a_change() {
  awk -v before="$(instructions without "${@:2}")" -v after="$(instructions with "${@:2}")" -v changes="$1" 'BEGIN { printf "%.1f", (after - before) / changes / 1e3 }'
}
if command -v valgrind >/dev/null; then
  siri=$here/../crates/siri/out/siri yardstick=$here/yardstick/target/release/yardstick
  printf '\n%-42s%8s%11s%11s\n' "millions of instructions, by callgrind" siri yardstick "by hand"
  for command in convert check; do
    printf '%-42s%8s%11s%11s\n' "$command" "$(millions delivery.8000 "$siri" "$command")" "$(millions delivery.8000 "$yardstick" convert)" \
      "$(millions delivery.8000 "$yardstick" --by-hand "$command")"
  done
  for asks in 0 100; do
    printf '%-42s%8s%11s\n' "20,000 visits in no order, $asks asks" "$(millions "stops.20000.$asks" "$siri" replay)" "$(millions "stops.20000.$asks" "$yardstick" replay)"
  done
  : >"$inputs/nothing"
  printf '%-42s%8s%11s%11s\n' "load 7 20000" "$(millions nothing "$siri" load 7 20000)" "" "$(millions nothing "$yardstick" --by-hand load 7 20000)"
  printf '\n%-42s%8s%11s%11s\n' "thousands of instructions of a change" siri "" "by hand"
  for load in subscribed,20000,200,500 shared,20000,200,5 wide,10000,1,500 wide,20000,1,500 ticks,20000,200,1000 limited,20000,1,500 \
    unshown,20000,200,500 boards,20000,200,500 departing,20000,200,500 silent,1000,1,20000 journeys,20000,0,200; do
    IFS=, read -r kind visits wanted changes <<<"$load"
    python3 "$here/make.py" "$kind" "$visits" "$wanted" 0 >"$inputs/without"
    python3 "$here/make.py" "$kind" "$visits" "$wanted" "$changes" >"$inputs/with"
    printf '%-42s%8s%11s%11s\n' "$kind, $visits visits, $wanted subscriptions" "$(a_change "$changes" "$siri" replay)" "" \
      "$(a_change "$changes" "$yardstick" --by-hand replay)"
  done
fi
