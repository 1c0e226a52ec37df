#!/bin/sh
# Says whether a change to a git repository of authorized_keys files, in keys/, adds or widens access.
#
# usage: gate.sh BASE
#
# At the top of the repository; BASE is the commit that the change is based on. Status 0: no new access, and nothing to fix.
# 1: something has to be fixed, or somebody has to approve the access that the change adds, which is listed. 2: a file could
# not be read, or something else failed. Needs ssh_audit, git and jq.
set -eu
export LC_ALL=C
review="ssh_audit review --kind auth --now ${NOW:-$(date +%s)}"
codes=F1,F2,F3,F4,F5,F6,F7,F8,F9,F22
access='select(.key and .lets_in)
    | [.file, .what, .key, .rights, .options, .comment] | map(. // "-") | join("\t")'
room=$(mktemp -d)
trap 'status=$?; rm -rf "$room"; [ "$status" -lt 2 ] || exit 2' EXIT
mkdir "$room/old"
git archive "$1" keys > "$room/tar"
tar -xf "$room/tar" -C "$room/old"
state=0
$review --findings $codes keys/* || state=$?
[ "$state" -lt 2 ] || exit 2
list() {
    (cd "$1" && $review --form json --findings none keys/*) > "$2.json" || exit 2
    jq -r "$access" "$2.json" > "$2.tsv" || exit 2
    sort -o "$2" "$2.tsv"
}
list "$room/old" "$room/before"
list . "$room/after"
comm -13 "$room/before" "$room/after" > "$room/added"
echo 'access that this change adds or changes:'
cat "$room/added"
[ ! -s "$room/added" ] || exit 1
exit "$state"
