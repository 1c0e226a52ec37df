#!/bin/bash
# Prints the files that sshd reads keys from on this machine, one a line, and the settings that may let in without one.
#
# usage: trust_files.sh
#
# As root; SSHD_CONFIG names another file than /etc/ssh/sshd_config. The status is not 0 where an account was not asked.
set -euo pipefail
PATH=$PATH:/usr/sbin
here=host=localhost,addr=127.0.0.1,laddr=127.0.0.1,lport=22
getent passwd | while IFS=: read -r user _ uid _ _ home _; do
    asked=$(sshd -T -f "${SSHD_CONFIG:-/etc/ssh/sshd_config}" -C "user=$user,$here")
    grep -E '^(authorizedkeyscommand|trustedusercakeys) ' <<< "$asked"
    read -ra names <<< "$(sed -n 's/^authorizedkeysfile //p' <<< "$asked")"
    for name in "${names[@]}"; do
        [[ ${name,,} != none ]] || continue
        name=${name//%%/$'\1'}
        name=${name//%h/"$home"} name=${name//%u/"$user"} name=${name//%U/"$uid"}
        name=${name//$'\1'/%}
        [[ $name == /* ]] || name=$home/$name
        compgen -G "$name" || true
    done
done | sort -u
