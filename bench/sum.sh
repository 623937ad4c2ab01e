#!/usr/bin/env bash
# The house's own sum beside the machine's programs, on the same 64 MiB of noise: the best of nine runs of each, taken in turn.
# Before: (cd crates/store_bench && rt run)
set -eu
cd "$(dirname "$0")/.."
mib=64
turns=9
file=$(mktemp)
trap 'rm -f "$file"' EXIT
head -c $((mib * 1048576)) /dev/urandom > "$file"

names=(own sha256sum openssl openssl-plain)
run() {
    case $1 in
    own) crates/store_bench/out/store_bench "$file" ;;
    sha256sum) sha256sum "$file" ;;
    openssl) openssl dgst -sha256 -r "$file" ;;
    # without the processor's own instructions for the sum, nor its wide registers
    openssl-plain) OPENSSL_ia32cap="~0x1000020000000000:~0x20000120" openssl dgst -sha256 -r "$file" ;;
    esac
}

declare -A best
want=$(sha256sum "$file" | cut -c1-64)
for _ in $(seq $turns); do
    for name in "${names[@]}"; do
        start=$(date +%s%N)
        got=$(run "$name" | cut -c1-64)
        took=$((($(date +%s%N) - start) / 1000))
        [ "$got" = "$want" ] || { echo "$name: another sum"; exit 1; }
        if [ -z "${best[$name]:-}" ] || [ "$took" -lt "${best[$name]}" ]; then best[$name]=$took; fi
    done
done
for name in "${names[@]}"; do
    us=${best[$name]}
    awk -v n="$name" -v us="$us" -v own="${best[own]}" -v mib=$mib \
        'BEGIN { printf "%-14s %4.0f ms %5.0f MiB/s   own is %.2f times as fast\n", n, us / 1000, mib * 1e6 / us, us / own }'
done
