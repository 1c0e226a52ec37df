#!/bin/bash
# Reviews the files that sshd reads keys from on this machine, and prints what changed since the last run: a line that gives
# access, what has to be fixed on it, or a setting that may let in without a file.
#
# usage: review_machine.sh FOLDER
#
# As root; trust_files.sh stands beside it. FOLDER keeps the list, access.tsv, which the next run compares. Status 0: nothing
# changed. 1: what changed is printed; at the first run that is all there is. 2: a file could not be read, or something else
# failed, and the list is kept as it was. Needs ssh_audit and jq.
set -euo pipefail
export LC_ALL=C
answer=2
room=$(mktemp -d) || exit 2
trap 'rm -rf "$room"; exit "$answer"' EXIT
[ -d "${1-}" ] || exit
bash "$(dirname "$(realpath "$0")")/trust_files.sh" > "$room/found"
mapfile -t names < <(grep '^/' "$room/found")
grep -v '^/' "$room/found" > "$room/list" || true
if [ ${#names[@]} -gt 0 ]; then
    state=0
    ssh_audit review --kind auth --now "${NOW:-$(date +%s)}" --form json -- "${names[@]}" > "$room/json" || state=$?
    [ "$state" -lt 2 ] || exit
    jq -r 'select(.line and .lets_in)
        | [.file, .what, .key, .rights, .options, .comment, (.findings | map(.code) | join(","))]
        | map(. // "-") | join("\t")' "$room/json" >> "$room/list"
fi
sort -o "$room/list" "$room/list"
touch "$1/access.tsv"
if cmp -s "$1/access.tsv" "$room/list"; then
    answer=0
    exit
fi
echo 'gone or changed:'
comm -23 "$1/access.tsv" "$room/list"
echo 'new or changed:'
comm -13 "$1/access.tsv" "$room/list"
cp "$room/list" "$1/access.tsv.new"
mv "$1/access.tsv.new" "$1/access.tsv"
answer=1
