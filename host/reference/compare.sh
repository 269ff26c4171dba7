#!/bin/sh
# Answers the repository's cases and prints, by kind, how many agree and how many differ. Requests that are not of the documented form
# (answer `?`) are passed over and counted. compare.sh [REQUESTS ANSWERS]
cd "$(dirname "$0")" || exit 2
requests=${1:-../../crates/cases/stdin}
answers=${2:-../../crates/cases/stdout}
export CARGO_TARGET_DIR="${CARGO_TARGET_DIR:-$(cd ../.. && pwd)/target/cargo}"
if [ ! -s "$requests" ] || [ ! -s "$answers" ]; then echo "compare.sh: no cases in $requests, $answers" >&2; exit 2; fi
cargo build --release -j1 --offline -q || exit 2
"$CARGO_TARGET_DIR/release/cases" < "$requests" > "$CARGO_TARGET_DIR/answers.txt" || exit 2
cut -d' ' -f1 "$requests" | paste -d'\t' - "$answers" "$CARGO_TARGET_DIR/answers.txt" |
awk -F'\t' 'index($2, "?") { over++; next }
{ same[$1] += $2 == $3; differ[$1] += $2 != $3; if ($2 != $3) { all++; print "line " NR " differs" } }
END { for (kind in same) print kind, same[kind], "agree,", differ[kind], "differ"
    print all + 0, "differences in", NR - over ";", over + 0, "passed over"; exit all > 0 }'
