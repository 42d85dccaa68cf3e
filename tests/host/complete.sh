#!/bin/sh
# Completion in bash: all commands and options that the help has, byte orders, all codes that the header has, and files.
. "$(dirname "$0")/common.sh"
script=$tests/../host/scanboot.bash

# offered WORDS..: what bash offers for the last word, in order; 'files' where it leaves them to itself
offered() {
    # shellcheck disable=SC2016
    bash -c 'source "$1" && shift && compopt() { COMPREPLY=(files); }
        COMP_WORDS=("$@") COMP_CWORD=$(($# - 1)) && _scanboot && printf "%s\n" "${COMPREPLY[@]}"' - "$script" scanboot "$@" 2>err | sort
}
offers() { [ "$(offered "$@" | tr '\n' ' ')" = "$expected " ]; }

"$scanboot" help | sed -n 's/^\(usage:\|      \) scanboot \([a-z]*\) .*/\2/p' | sort -u >commands
expected=$(tr '\n' ' ' <commands | sed 's/ $//')
says 'all commands' offers ''
says 'behind help too' offers help ''
expected='--help --version'
says 'options of the program' offers -
while read -r command; do
    "$scanboot" help "$command" | sed -n 's/^  \(-.*\)/\1/p' | sed 's/  .*//' | tr ' ,' '\n\n' | grep '^-' >options
    [ "$command" != help ] || : >options
    expected=$(echo --help | sort - options | tr '\n' ' ' | sed 's/ $//')
    says "options of $command" offers "$command" -
    says "behind a file" offers "$command" a.out -
    [ "$command" != help ] || continue
    [ "$command" != explain ] || continue
    expected=files
    says "files to $command" offers "$command" ''
done <commands
expected=$(sed -n 's/^    SCANBOOT_[A-Z_]* = \([0-9]*\).*/\1/p' "$tests/../include/scanboot.h" | sort | tr '\n' ' ' | sed 's/ $//')
says 'all codes to explain' offers explain ''
expected='4 40 41'
says 'what a code begins' offers explain 4
expected='blocks'
says 'what a word begins' offers bl
expected='--output'
says 'what an option begins' offers convert a.out --ou
expected='--order --output'
says 'what two options begin' offers convert a.out --o
expected='0 1 2 3 big'
says 'the byte orders' offers convert a.out --order ''
says 'the byte orders behind --order=' offers load a.img --order =
expected='big'
says 'what one begins' offers check a.out a.img --order b
expected=files
says 'a file behind -o' offers convert -o ''
says 'a file behind --output' offers map a.out --output a
says 'a file behind --output=' offers load --output =
says 'a file that begins behind --output=' offers load --output = a
expected=
for option in --base --size --fill --c-array --skip; do
    says "nothing behind $option" offers load a.img $option ''
    says "nothing behind $option=" offers load a.img $option = 0
done

# As keys in an interactive shell.
: >'some file.out'
python3 "$tests/host/typed.py" "$script" 'scanboot conv\tso\t--c-a\tname --outp\tso\t' 'scanboot list --j\tso\t' 'scanboot load --output=so\t--base so\t' \
    >out 2>err
says 'typed' wrote 'convert|some file.out|--c-array|name|--output|some file.out|' 'list|--json|some file.out|' \
    'load|--output=some file.out|--base|so|'

end
