#!/usr/bin/env bash
# The benchmark, by one command: the product and the second evaluator (and maude, where it is installed) on the same inputs, and with them
# another build of the product, if its archive is named, or its two: one from before a change, say.
#     tests/bench/run.sh [SECONDS for each measurement; 0.3 if not said] [OTHER ARCHIVE ..]
# With BUILT=1 the archives are taken as they are, for a caller that has just built them.
set -euo pipefail
others=()
for other in "${@:2}"; do others+=("$(realpath "$other")"); done
cd "$(dirname "$0")/../.."
to=target/outside
mkdir -p "$to/other"
for crate in cue cue_replay; do
    [ "${BUILT:-0}" = 1 ] || tools/build "$crate" > "$to/bench.log" 2>&1 || { cat "$to/bench.log"; exit 1; }
done
# where nothing is measured the build need not be fast
flags=(-O)
[ "${1:-}" != 0 ] || flags=()
for i in "${!others[@]}"; do
    # both builds have the same names: the other's get `other_` before them
    nm -g --defined-only "${others[i]}" | awk 'NF == 3 { print $3, "other_" $3 }' > "$to/other/names$i"
    objcopy --redefine-syms="$to/other/names$i" "${others[i]}" "$to/other/libother$i.a"
    flags+=(--cfg other -L "$to/other" -l "static=other$i")
    # before version 2.1 there were no records
    ! grep -q ' other_cue_replay$' "$to/other/names$i" || flags+=(--cfg other_replay)
done
rustc --edition 2021 -D warnings -L target/staticlib "${flags[@]}" tests/bench/main.rs -o "$to/bench"
"$to/bench" "${1:-0.3}"
