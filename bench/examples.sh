#!/bin/bash
# Runs a judge on every job below examples/ and compares what it prints with the report that stands beside it.
#   bench/examples.sh [COMMAND...]
# The command gets the job on standard input; without one the Rust judge is built and run.
set -u
root=$(cd "$(dirname "$0")/.." && pwd)
if [ $# -eq 0 ]; then
    cargo build --release --quiet --manifest-path "$root/bench/rust/Cargo.toml" || exit 2
    set -- "$root/bench/rust/target/release/row-judge"
fi
count=0
differ=0
while IFS= read -r -d '' job; do
    count=$((count + 1))
    if ! "$@" <"$job" 2>/dev/null | cmp -s - "${job%.job}.report"; then
        differ=$((differ + 1))
        echo "differs: ${job#"$root"/}"
    fi
done < <(find "$root/examples" -name '*.job' -print0 | sort -z)
echo "$count examples, $differ differ"
[ "$count" -gt 0 ] && [ "$differ" -eq 0 ]
