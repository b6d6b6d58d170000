#!/bin/bash
# Asks a server for each header of browsers.tsv: each has to be answered by the language of its third field, with its field of HTTP.
# Arguments: a command that serves, prints its port, and takes a registry and tags.
here=$(dirname "$(realpath "$0")")
port=$(mktemp)
"$@" "$here/../../examples/iana-2025-05-15.txt" en de nb zh-Hant he > "$port" &
trap 'kill $!; rm -f "$port"' EXIT
for _ in $(seq 100); do [ -s "$port" ] && break; sleep 0.1; done
while IFS=$'\t' read -r name accept wanted; do
    fields=(-H "Accept-Language: $accept")
    [ "$accept" != - ] || fields=()
    got=$(curl -s -i -m 5 "${fields[@]}" "http://127.0.0.1:$(cat "$port")/" | tr -d '\r')
    if [ "$(tail -n 1 <<< "$got")" != "$wanted" ] || ! grep -qix "content-language: $wanted" <<< "$got"; then
        echo "$name: $got"
        exit 1
    fi
done < "$here/browsers.tsv"
