#!/bin/sh
# A pre-commit hook of git: reviews the authorized_keys files in keys/ as they are staged, whatever stands in the work tree,
# and refuses the commit where something in one of them has to be fixed.
#
# usage: at the top of the repository: ln -s PATH/staged_keys.sh .git/hooks/pre-commit
#
# Of the framework pre-commit it is a hook of `repo: local` with `language: system` and `pass_filenames: false` (not run).
# Needs ssh_audit and git.
set -eu
codes=F1,F2,F3,F4,F5,F6,F7,F8,F9,F22
room=$(mktemp -d)
trap 'rm -rf "$room"' EXIT
git diff --cached --name-only -z --no-renames --diff-filter=d -- keys > "$room/names"
[ -s "$room/names" ] || exit 0
git checkout-index -z --stdin --prefix="$room/staged/" < "$room/names"
cd "$room/staged"
xargs -0 ssh_audit review --kind auth --now "${NOW:-$(date +%s)}" --findings $codes -- < "$room/names" > "$room/review" || {
    cat "$room/review" >&2
    exit 1
}
