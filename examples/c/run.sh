#!/usr/bin/env bash
# Builds the judge as a static library, links the C program with it, and runs that on a job file.
#   examples/c/run.sh [FILE]
set -euo pipefail
root=$(cd "$(dirname "$0")/../.." && pwd)
built=$root/crates/judge_c/out
file=${1:-$root/examples/load-buffering.job}

(cd "$root/crates/judge_c" && rt lib) >&2
cp "$built/libjudge_c.a" "$built/libjudge.a"
cc -O2 -Wall -Wextra -I "$root/include" -o "$built/judge-from-c" "$root/examples/c/judge.c" "$built/libjudge.a"
"$built/judge-from-c" <"$file"
