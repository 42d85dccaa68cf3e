#!/bin/sh
# Ended in the middle of the writing: the old file or the new one, and nothing beside.
. "$(dirname "$0")/common.sh"
inputs a.img

caught='SIGPIPE SIGALRM SIGXCPU SIGUSR1 SIGTERM SIGINT'
mkdir killed
# killed SIGNALS TIMES WORDS..: what killed.py says of a program whose output is killed/out
killed() {
    rm -f killed/*
    python3 "$tests/host/killed.py" "$@" killed/out >told 2>err
    status=$?
    cat told
}
nothing_left() { grep -q "^$1 .* beside 0 alone 0 part 0\$" told; }

run load a.img --base 0 --size 4194304 -o new
says 'a large output' ended 0
killed "SIGKILL $caught" 4 "$scanboot" load a.img --base 0 --size 4194304 -o
says 'the old file or the new one' ended 0
says 'SIGKILL came before the end at least once' grep -q '^SIGKILL stayed [1-9]' told
# between two system calls SIGKILL can leave the whole new file beside an old one (host/replace.h): hardly ever, and not twice
if python3 -c 'import os; os.open(".", os.O_TMPFILE | os.O_WRONLY)' 2>/dev/null; then
    says 'SIGKILL leaves nothing' grep -q '^SIGKILL .* beside [01] alone 0 part 0$' told
else
    echo 'not tried: here is no file system with unnamed files'
fi
for signal in $caught; do
    says "$signal came before the end at least once" grep -q "^$signal stayed [1-9]" told
    says "$signal leaves nothing" nothing_left "$signal"
done

# The way that remains for file systems without unnamed files, by the program's own code built without the other. There SIGKILL may leave a part.
host=$tests/../host
says 'the other way is built' gcc -std=c11 -g -O1 -fsanitize=address,undefined -fno-sanitize-recover=all -D_GNU_SOURCE -DWITHOUT_UNNAMED_FILES \
    -Wall -Wextra -Wpedantic -Wconversion -Wshadow -Werror -I"$host" \
    "$tests/host/beside.c" "$host/files.c" "$host/output.c" "$host/replace.c" "$host/names.c" -o beside
head -c 4194304 /dev/zero >new
more='SIGHUP SIGQUIT SIGPROF SIGRTMIN'
killed "SIGKILL $caught $more" 2 ./beside 4194304
says 'the other way: the old file or the new one' ended 0
for signal in $caught $more; do
    says "the other way: $signal came before the end at least once" grep -q "^$signal stayed [1-9]" told
    says "the other way: $signal leaves nothing" nothing_left "$signal"
done
printf 'old' >killed/out
chmod 640 killed/out
./beside 3 killed/out 2>err
says 'the other way: an old file is replaced' [ "$(od -A n -t x1 killed/out)" = ' 00 00 00' ]
says 'the other way: and keeps its mode' [ "$(stat -c %a killed/out)" = 640 ]
(ulimit -f 8 && ./beside 100000 killed/out) 2>err
says 'the other way: a file over the limit of sizes' told 'scanboot: killed/out: File too large'
says 'the other way: leaves the old one' [ "$(od -A n -t x1 killed/out)" = ' 00 00 00' ]
says 'the other way: and nothing beside' only killed out

end
