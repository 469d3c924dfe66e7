#!/usr/bin/env bash
# Prints the rows of whole plans. A line of an `.ops` file is a name and the text of an operation, in which `@NAME@` stands for the digest of
# the operation of that name; the line below it, `said`, has the text of what is said of it. protoc makes the bytes of each operation, sha256sum
# its digest, and protoc the definition of them all, with its maps in the order of their keys.
set -eu
cd "$(dirname "$0")"

encode() {
    protoc --deterministic_output --encode="pb.$1" ops.proto | xxd -p | tr -d '\n'
}

plan() {
    local name=$1 digests="" definition="" digest="" operation text hex
    while read -r operation text; do
        if [ "$operation" = said ]; then
            definition+="metadata { key: \"$digest\" value { $text } } "
            continue
        fi
        hex=$(sed -f <(printf '%s' "$digests") <<<"$text" | encode Op)
        digest=sha256:$(xxd -r -p <<<"$hex" | sha256sum | cut -d' ' -f1)
        digests+="s/@$operation@/$digest/"$'\n'
        definition+="def: \"$(sed 's/../\\x&/g' <<<"$hex")\" "
    done <"$2"
    echo "$name $(encode Definition <<<"$definition")"
}

plan plan 15-plan.ops
plan empty-plan 16-empty-plan.ops
