#!/bin/sh
# Shows the three programs at the depot of house 1; each command is printed before it runs.
cd "$(dirname "$0")/.." || exit 1
./build.sh || exit 1
work=$(mktemp -d) || exit 1
trap 'rm -rf "$work"' EXIT
cp -r examples/depot/* target/bin "$work" && cd "$work" || exit 1

say() {
    echo
    echo "# $1"
}

run() {
    echo "\$ $1"
    sh -c "$1"
}

say "House 40 has its right from house 30, a curator of house 12, whom a friend of house 1 calls a friend. Its sheet:"
run "bin/find 1 names rights ask_40 > request; od -An -v -tx1 -w8 request"
say "It shows the sheet at the gate of house 1:"
run "bin/gate 1 names rights request"
say "On which days? The certificate of house 30 was renewed once, so two spans that touch are one:"
run "bin/until 1 names rights ask_40"
say "House 31 is a curator from day 20 on:"
run "bin/until 1 names rights ask_31"
say "The renewal (certificate 4) is taken back:"
run "bin/until 1 names rights taken_back ask_40"
say "So on day 10 the gate refuses the sheet (7: a line's certificate isn't valid; it is line 0):"
run "bin/gate 1 names rights taken_back ten_days request"
say "And there is no other sheet (12):"
run "bin/find 1 names rights taken_back ten_days ask_40"
say "Houses 1 and 9 call each other's friends friends; finding ends all the same. House 50 may on no day:"
run "bin/find 1 names rights ask_50"
run "bin/until 1 names rights ask_50"
exit 0
