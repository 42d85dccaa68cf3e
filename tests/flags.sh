#!/bin/sh
# The compiler and its flags are the user's; what the sources need themselves is there beside them. The last line is 'N passed, M failed'.
. "$(dirname "$0")/begin.sh"
needs lib host
# what this test itself was given is put away
unset CC CPPFLAGS CFLAGS LDFLAGS MAKEFLAGS

# What make would compile the program with.
asked='make --no-print-directory -n -f build.mk -o build/libscanboot.a -W include/scanboot.h build/scanboot.program'
has() { echo " $2 " | grep -q -F -e " $1 "; }
lacks() { ! has "$@"; }
ours='-std=c11 -Wall -Wextra -Wpedantic -D_GNU_SOURCE -Iinclude'
alone=$($asked)
says 'left alone, the compiler is one for x86-64' has "$compiler $ours" "$alone"
says 'and optimises' has -O2 "$alone"
for how in 'the command line' 'the environment'; do
    case $how in
    'the command line') given=$($asked CC='gcc -m64' CPPFLAGS=-DGIVEN CFLAGS='-Os -g' LDFLAGS=-Wl,-O1) ;;
    *) given=$(env CC='gcc -m64' CPPFLAGS=-DGIVEN CFLAGS='-Os -g' LDFLAGS=-Wl,-O1 $asked) ;;
    esac
    for words in 'gcc -m64' -DGIVEN '-Os -g' -Wl,-O1 "$ours" ${link:+"$link"}; do
        says "from $how: $words" has "$words" "$given"
    done
    says "from $how: no other optimisation" lacks -O2 "$given"
done

# Built so, in a copy: by a compiler that writes down its words, with a map from the linker.
mkdir -p "$folder/copy/build"
ln -s "$PWD/build.mk" "$PWD/host" "$PWD/include" "$PWD/tools" "$PWD/crates" "$PWD/crates.txt" "$folder/copy"
cp build/libscanboot.a "$folder/copy/build"
printf '#!/bin/sh\necho "$*" >>"%s/words"\nexec %s "$@"\n' "$folder" "$compiler" >"$folder/cc"
chmod 755 "$folder/cc"
says 'it builds with another compiler and other flags' make -s -C "$folder/copy" -f build.mk -o build/libscanboot.a host \
    CC="$folder/cc" CFLAGS=-O0 LDFLAGS="-Wl,-Map=$folder/map"
says 'the compiler was that one, and was called once' [ "$(wc -l <"$folder/words")" = 1 ]
says 'the linker had its words' grep -q libscanboot.a "$folder/map"
says 'what was built runs' [ "$("$folder/copy/build/scanboot" --version)" = "$(build/scanboot --version)" ]

end
