#!/usr/bin/env bash
# Times of the built program on large inputs; nothing here is part of the tests.
# Usage: bash bench/time.sh PROGRAM    (rt run leaves it in crates/simplify/out/simplify)
set -eu
program=$(realpath "${1:-crates/simplify/out/simplify}")
work=$(mktemp -d)
trap 'rm -rf "$work"' EXIT
cd "$work"

measure() {
    local name=$1 start end
    start=$(date +%s%N)
    "$program" <"$name" >out || true
    end=$(date +%s%N)
    echo "$name: $(((end - start) / 1000000)) ms, last line: $(tail -n 1 out | cut -c 1-60)"
}

# so many copies of a text
copies() { yes "$1" | head -n "$2" | tr '\n' ' ' || true; }

# reading
yes '(EQ a a)' | head -n 100000 >goals_100000 || true
yes '(EQ a a)' | head -n 200000 >goals_200000 || true
long() { head -c 1000000 /dev/zero | tr '\0' "$1"; }
printf '(EQ %s %s)\n' "$(long a)" "$(long b)" >names_of_a_million_bytes
{ printf '; '; head -c 200000000 /dev/zero | tr '\0' x; printf '\n(EQ a a)\n'; } >comment_of_200_million_bytes
{ head -c 1000 /dev/zero | tr '\0' '('; head -c 1000 /dev/zero | tr '\0' ')'; printf '\n'; } >deep_1000
{ printf '(EQ a (LET '; head -c 16000000 /dev/zero | tr '\0' ' '; printf '))\n'; } >blanks_of_16_million_bytes
{ printf '(EQ a (LET '; copies '(f a b)' 1900000; printf '))\n'; } >flat_of_15_million_bytes

# searching
{ for ((i = 0; i < 999; i++)); do printf '(NOT '; done; printf '(EQ a b)'; for ((i = 0; i < 999; i++)); do printf ')'; done; echo; } >nested_999
{ printf '(IMPLIES (AND '; for ((i = 0; i < 1000; i++)); do printf '(EQ x%d x%d) ' $((i * 7 % 200)) $(((i * 11 + 3) % 200)); done; printf ') (EQ x0 x1))\n'; } >equations_1000_over_200_names
{ printf '(NOT (AND '; for ((i = 0; i < 1000; i++)); do printf '(OR (EQ x%d x%d) (P x%d)) ' $((i % 40)) $((i * 7 % 40)) $((i % 40)); done; printf '))\n'; } >clauses_1000
{ printf '(AND '; copies '(IMPLIES (P a) (P a))' 1000; printf ')\n'; } >sides_1000
for name in goals_100000 goals_200000 names_of_a_million_bytes comment_of_200_million_bytes deep_1000 \
    blanks_of_16_million_bytes flat_of_15_million_bytes nested_999 equations_1000_over_200_names clauses_1000 sides_1000; do
    measure "$name"
done
