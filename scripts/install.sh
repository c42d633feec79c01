#!/bin/sh
# Installs the programs that stand in out/, with the page, under a folder:
#
#   install.sh PREFIX
#
# PREFIX/bin gets rasta_audit and seatmelon, and PREFIX/share/seatmelon the page, report.py, and the commit, which
# `seatmelon --version` names: with -dirty behind it where a file of the checkout has changed.
set -eu

if [ $# -ne 1 ]; then
    echo "usage: install.sh PREFIX" >&2
    exit 2
fi
top=$(cd "$(dirname "$0")/.." && pwd)
# A tilde that no shell has replaced, as in make install PREFIX=~/.local.
case $1 in
    "~/"*) prefix=$HOME/${1#"~/"} ;;
    *) prefix=$1 ;;
esac
share=$prefix/share/seatmelon

for program in rasta_audit seatmelon; do
    if [ ! -f "$top/crates/$program/out/$program" ]; then
        echo "$program isn't built: make build" >&2
        exit 1
    fi
done
mkdir -p "$prefix/bin" "$share"
for program in rasta_audit seatmelon; do
    install -m 755 "$top/crates/$program/out/$program" "$prefix/bin/$program"
done
install -m 644 "$top/viewer/index.html" "$share/index.html"
install -m 755 "$top/scripts/report.py" "$share/report.py"
git -C "$top" describe --always --abbrev=40 --dirty --exclude '*' > "$share/commit"
