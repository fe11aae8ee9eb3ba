#!/bin/bash
# Compares a judge in a static library with the Rust judge.
#   bench/compare.sh ARCHIVE FUNCTION [COUNT [SEED]]   random jobs, 200,000 when not said
#   bench/compare.sh --speed ARCHIVE FUNCTION [SEED]   times on long accepted jobs
# FUNCTION is its C name: size_t FUNCTION(const uint8_t *, size_t, uint8_t *, size_t).
# ARCHIVE may be the word own: the library judge_c of this repository, which is proved and built first.
set -eu
here=$(cd "$(dirname "$0")" && pwd)
built=$here/rust/target/release

build() {
    local archive=$1
    if [ "$archive" = own ]; then
        (cd "$here/../crates/judge_c" && rt lib) >&2
        archive=$here/../crates/judge_c/out/libjudge_c.a
    fi
    cargo build --release --quiet --manifest-path "$here/rust/Cargo.toml"
    cc -O2 -Wall -Wextra -DJUDGE="$2" -o "$built/driver" "$here/driver.c" "$archive"
}

compare_reports() {
    build "$1" "$2"
    "$here/compare.py" "${4:-1}" "${3:-200000}" "$built/row-judge --pack" "$built/driver --pack"
}

# Least times, the two judges in turns, so that both meet the same load.
compare_times() {
    build "$1" "$2"
    local work kind rust other left right round
    work=$(mktemp -d)
    for kind in $("$built/generate" kinds); do
        "$built/generate" big "$kind" "${3:-1}" >"$work/$kind.job"
        pack "$work/$kind.job" >"$work/pack"
        if ! cmp -s <("$built/row-judge" --pack <"$work/pack") <("$built/driver" --pack <"$work/pack"); then
            echo "$kind: the reports differ"
            continue
        fi
        rust= other=
        for round in 1 2 3 4 5; do
            read -r left _ < <("$built/row-judge" --time 200 "$work/$kind.job")
            read -r right _ < <("$built/driver" --time 200 "$work/$kind.job")
            [ -n "$rust" ] && [ "$rust" -le "$left" ] || rust=$left
            [ -n "$other" ] && [ "$other" -le "$right" ] || other=$right
        done
        "$built/row-judge" "$work/$kind.job" | head -1 | {
            read -r _ lines
            awk -v k="$kind" -v n="$lines" -v a="$rust" -v b="$other" 'BEGIN {
                printf "%-15s %6d lines  Rust %7.1f us  other %7.1f us  ratio %.2f\n", k, n, a / 1000, b / 1000, b / a }'
        }
    done
    rm -r "$work"
}

# One job behind its length.
pack() {
    python3 -c 'import struct, sys
job = open(sys.argv[1], "rb").read()
sys.stdout.buffer.write(struct.pack("<I", len(job)) + job)' "$1"
}

if [ "${1:-}" = --speed ]; then
    shift
    compare_times "$@"
elif [ $# -ge 2 ]; then
    compare_reports "$@"
else
    sed -n '2,6s/^# \{0,1\}//p' "$0"
    exit 2
fi
