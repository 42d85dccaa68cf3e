#!/bin/sh
# Nothing is lost: an output that is one of the inputs is refused, and one that is no regular file is written through.
. "$(dirname "$0")/common.sh"
inputs a.out a.img

# kept NAME COMMAND WHAT: the last run was refused as usage before anything was done; NAME is the input's
kept() {
    status=$?
    says "$3: told" told "scanboot: the output is one of the inputs: $1" "scanboot: try 'scanboot $2 --help'"
    says "$3: the status" ended 2
    says "$3: the input is as it was" same a.out kept/a.out
}
mkdir kept links
cp a.out a.img kept
ln kept/a.out links/hard
ln -s ../kept/a.out links/soft
ln -s soft links/softer
ln -s ../kept links/folder
for input in kept/a.out links/softer; do
    for output in kept/a.out kept/../kept//a.out "$PWD/kept/a.out" links/hard links/soft links/softer links/folder/a.out; do
        "$scanboot" convert $input -o "$output" 2>err
        kept $input convert "from $input to $output"
    done
done
while read -r command words; do
    # shellcheck disable=SC2086
    "$scanboot" $command kept/a.out $words 2>err
    kept kept/a.out "$command" "$command $words"
done <<'WORDS'
convert --c-array x -o links/soft
map --output=links/hard
load --coff --base 0x400 --size 8 -olinks/hard
load --base 0x400 --size 8 -o kept/a.out
WORDS
"$scanboot" convert - -o links/hard 2>err <kept/a.out
kept 'standard input' convert 'the output is standard input'
"$scanboot" convert /dev/stdin -o links/hard 2>err <kept/a.out
kept /dev/stdin convert 'the output is /dev/stdin'
for words in 'convert -o -' 'convert -o /dev/stdout' 'convert -o /dev/fd/1' 'convert --c-array x' 'map -o -'; do
    # shellcheck disable=SC2086
    "$scanboot" $words kept/a.out 2>err >>kept/a.out
    kept kept/a.out "${words%% *}" "standard output is the input: $words"
done
"$scanboot" convert -o - kept/a.out 2>err 1<>kept/a.out
kept kept/a.out convert 'standard output writes over the input'
"$scanboot" convert - -o - 2>err <>kept/a.out >&0
kept 'standard input' convert 'one file is both standard files'
says 'nothing is left beside the input' only kept 'a.img a.out'
says 'nor beside its links' only links 'folder hard soft softer'
run convert - -o /dev/null </dev/null
says 'what is no file may be both' told_of 'refused 2 0: '
cp a.out other
run convert kept/a.out -o other
says 'a file with the same bytes is another' same other a.img

# Written through: devices, FIFOs, pipes, and what the program was started with.
run convert a.out -o /dev/null
says 'to /dev/null' ended 0
says 'which stays a device' [ -c /dev/null ]
run convert a.out -o /dev/full
says 'to a full device' told 'scanboot: /dev/full: No space left on device'
says 'which ends with 3' ended 3
mkfifo fifo
timeout 10 cat fifo >from_fifo &
run convert a.out -o fifo
wait $!
says 'to a FIFO' same from_fifo a.img
says 'which stays one' [ -p fifo ]
"$scanboot" map a.out -o /dev/stdout 2>err | cat >piped
says 'to /dev/stdout, a pipe' look piped picture 1 1
bash -c '"$1" convert a.out -o >(cat >substituted; echo >done); until [ -s done ]; do sleep 0.01; done' - "$scanboot" 2>err
says "to a shell's >(..)" same substituted a.img
{ echo before && cat a.img && echo behind; } >expected
ln -s /dev/stdout to_stdout
ln -s ../to_stdout links/to_stdout
for output in /dev/stdout /dev/fd/1 /proc/self/fd/1 to_stdout links/to_stdout -; do
    { echo before && "$scanboot" convert a.out -o $output && echo behind; } >through 2>err
    says "to a regular file by $output" same through expected
done
{ echo before >&7 && "$scanboot" convert a.out -o /dev/fd/7 && echo behind >&7; } 7>seven >out 2>err
says 'to another open file' same seven expected
run convert a.out -o /dev/fd/9
says 'to none that is open' told 'scanboot: /dev/fd/9: No such file or directory'
"$scanboot" convert a.out -o /dev/stdout 2>err >&-
says 'to a closed one' grep -q '^scanboot: /dev/stdout: ' err

end
