#!/bin/sh
# Crates above tag see that a tag is the cut HMAC, and no more: none of them names the definitions of HMAC or SHA-256,
# but for timed, which repeats the hashes and HMACs themselves.
set -u
inside='Rattle\.tag\.specs\.(Sha256|Hmac)'
found=$(
    find crates \( -path crates/tag -o -path crates/timed -o -path 'crates/*/out' \) -prune \
        -o -type f \( -name '*.rt' -o -name '*.antt' \) -exec grep -lE "$inside" {} +
)
if [ -n "$found" ]; then
    echo "these files look inside a tag:"
    echo "$found"
    echo "0 passed, 1 failed"
    exit 1
fi
echo "1 passed, 0 failed"
