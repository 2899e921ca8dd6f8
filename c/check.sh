#!/usr/bin/env bash
# check.sh DIR: holds the library against the header, builds the C programs into DIR, runs them on the sample book and request and
# compares what they write with the .txt files. A warning or a difference ends it with 1. The library stands in the folder FIKREM_LIB,
# or in target/staticlib.
set -euo pipefail

build=${1:?usage: check.sh DIR}
mkdir -p "$build/no_files"
build=$(cd "$build" && pwd)
here=$(cd "$(dirname "${BASH_SOURCE[0]}")" && pwd)
library=${FIKREM_LIB:-$here/../target/staticlib}/libfikrem.a
header=$here/../include/fikrem.h
data=$here/../crates/slip/data

# What the library gives is the header's functions, and what it needs is what the header says.
{
  gcc -E -P "$header" | grep -o 'fikrem_[a-z_]*(' | tr -d '(' | sort | sed 's/^/gives /'
  printf 'needs %s\n' memcpy memset
} >"$build/symbols.wanted"
{
  nm --extern-only --defined-only "$library" | sed -n 's/^[0-9a-f]\+ [A-Za-z] /gives /p' | sort
  nm --undefined-only "$library" | sed -n 's/^ *[A-Za-z] /needs /p' | sort -u
} >"$build/symbols"
diff "$build/symbols.wanted" "$build/symbols"
# It runs on every x86-64 processor: it has none of the instructions that a build for x86-64-v2 has here.
if objdump -d --no-show-raw-insn "$library" | grep -wE 'popcnt|pshufb|ptest|pmulld|pmovzx\w+|pextr[bdq]|pinsr[bdq]' >"$build/instructions"; then
  echo "check: instructions of x86-64-v2 are in $build/instructions" >&2
  exit 1
fi

flags=(-Wall -Wextra -Werror -pedantic -I "$here/../include")
programs=(quote every_call stack page result)
for program in "${programs[@]}"; do
  gcc -std=c11 -O2 "${flags[@]}" -o "$build/$program" "$here/$program.c" "$library" -Wl,--gc-sections
done
if command -v g++ >/dev/null 2>&1; then
  g++ -fsyntax-only -x c++ "${flags[@]}" "$header"
fi

# Where there are no files, the slip is a refusal.
(cd "$data" && "$build/quote") >"$build/quote.txt"
(cd "$build/no_files" && "$build/quote") >>"$build/quote.txt"
for program in every_call stack page; do
  "$build/$program" "$data/rates.bin" "$data/job.bin" >"$build/$program.txt"
done
"$build/result" >"$build/result.txt"
for program in "${programs[@]}"; do
  diff "$here/$program.txt" "$build/$program.txt"
done
echo "C programs: as expected"
