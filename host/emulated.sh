#!/bin/sh
# Starts the program, which is x86-64 code, on a machine of another kind. It stands beside this script, or where it was installed.
here=$(dirname "$(readlink -f "$0")")
program=$here/scanboot.program
[ -e "$program" ] || program="$here/../libexec/scanboot/scanboot.program"
exec qemu-x86_64 "$program" "$@"
