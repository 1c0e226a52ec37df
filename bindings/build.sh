#!/bin/sh
# Builds what a caller in C or Python links: FOLDER/libssh_audit.a, FOLDER/libssh_audit.so.0 (libssh_audit.so links to it),
# FOLDER/ssh_audit.h and a wheel for Python.
#
# usage: build.sh [FOLDER]
#
# FOLDER is bindings/out where it is left out. CC is the compiler that links, gcc where it is not set. `rt lib` makes the proved
# archives, over what was proved before; the kit's memory for C (`c/liblibc_c.a`) is linked in. Only the three calls of
# ssh_audit.h are exported.
set -eu
here=$(CDPATH='' cd -- "$(dirname -- "$0")" && pwd)
out=${1:-$here/out}
kit=${KIT:-$(dirname -- "$(dirname -- "$(readlink -f -- "$(command -v rt)")")")}
cc=${CC:-gcc}
crates=$here/../crates
calls='ssh_audit_run ssh_audit_login ssh_audit_host'
mkdir -p "$out"
room=$(mktemp -d)
trap 'rm -rf "$room"' EXIT
for crate in ssh_audit_c ssh_decisions_c; do
    (cd "$crates/$crate" && rt lib > "$room/log" 2>&1) || { cat "$room/log" >&2; exit 1; }
    # One object of each archive, in which only its calls are seen: both hold the same crates below them.
    keep=''
    for call in $calls; do keep="$keep --keep-global-symbol=$call"; done
    ld -r --whole-archive "$crates/$crate/out/lib$crate.a" --no-whole-archive "$kit/c/liblibc_c.a" -o "$room/$crate.o"
    # shellcheck disable=SC2086
    objcopy $keep "$room/$crate.o"
done
rm -f "$out/libssh_audit.a"
ar rcs "$out/libssh_audit.a" "$room/ssh_audit_c.o" "$room/ssh_decisions_c.o"
{
    echo '{ global:'
    for call in $calls; do echo "$call;"; done
    echo 'local: *; };'
} > "$room/exports"
"$cc" -shared -o "$out/libssh_audit.so.0" -Wl,-soname,libssh_audit.so.0 -Wl,--version-script="$room/exports" -Wl,-z,defs -Wl,-z,text \
    -Wl,-z,relro,-z,now -Wl,--gc-sections -Wl,--whole-archive "$out/libssh_audit.a" -Wl,--no-whole-archive -lm
strip --strip-unneeded "$out/libssh_audit.so.0"
ln -sf libssh_audit.so.0 "$out/libssh_audit.so"
cp "$here/c/ssh_audit.h" "$out/"
cp "$out/libssh_audit.so.0" "$here/python/ssh_audit/libssh_audit.so"
# What was built of what: a wheel holds no proof.
{
    echo "commit $(git -C "$here" rev-parse HEAD 2> "$room/log" || echo unknown)$([ -z "$(git -C "$here" status --porcelain 2>> "$room/log")" ] || echo +dirty)"
    echo "kit $(rt version)"
    echo "library sha256 $(sha256sum < "$out/libssh_audit.so.0" | cut -d ' ' -f 1)"
} > "$here/python/ssh_audit/BUILT.txt"
(cd "$here/python" && python3 -c 'import backend, sys; print(backend.build_wheel(sys.argv[1]))' "$out") > "$room/wheel"
echo "$out: libssh_audit.a libssh_audit.so.0 ssh_audit.h $(cat "$room/wheel")"
