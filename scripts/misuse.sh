#!/bin/sh
# A message that is handed out borrows from its file. Compiles two programs that differ in that alone:
# one uses a message while its file is there, and may; one keeps it longer, and may not.
set -eu
cd "$(dirname "$0")/.."
top=$(mktemp -d)
trap 'rm -rf "$top"' EXIT
mkdir "$top/crates" "$top/crates/misuse" "$top/crates/misuse/src"
for crate in rasta_pcap rasta_udp rasta_md4 rasta_pdu; do
    cp -r "crates/$crate" "$top/crates/"
done
grep -E '^rasta_(pcap|udp|md4|pdu):' crates.txt > "$top/crates.txt"
echo 'misuse: rasta_pcap rasta_udp rasta_pdu' >> "$top/crates.txt"
git init -q "$top"

compile() {
    cp "scripts/misuse/$1.txt" "$top/crates/misuse/src/lib.rt"
    (cd "$top/crates/misuse" && rt check) > "$top/$1.log" 2>&1
}

if compile uses_message; then
    echo 'uses_message: compiled and proved'
else
    echo 'uses_message: REFUSED'
    grep 'error' "$top/uses_message.log"
    exit 1
fi
if compile keeps_message; then
    echo 'keeps_message: COMPILED'
    exit 1
fi
grep 'error' "$top/keeps_message.log"
echo 'keeps_message: refused'
