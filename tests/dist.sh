#!/bin/sh
# What is handed out: the archive unpacked, checked and used; the Debian package installed into a folder by Debian's own tools, used and removed.
# The last line is 'N passed, M failed'.
. "$(dirname "$0")/begin.sh"
needs lib host build/dist/scanboot
samples=$PWD/second/samples
release=$(sed -n 's/^#define SCANBOOT_VERSION_TEXT "\(.*\)"/\1/p' include/scanboot.h)
fails() { ! "$@" >"$folder/out" 2>&1; }
# The program that is handed out takes the C library of its machine, or one for the emulator.
amd64=/usr/x86_64-linux-gnu
run() { ${emulator:+$emulator -L $amd64 -E LD_LIBRARY_PATH=$amd64/lib} "$@"; }
# answers PROGRAM: it is of this version, and answers as the one that was built
answers() {
    [ "$(run "$1" --version)" = "scanboot $release" ] && [ "$(run "$1" list "$samples/c6x.out")" = "$(build/scanboot list "$samples/c6x.out")" ]
}
# builds FILE FLAGS..: an example, which then starts the processor
builds() {
    example=$1
    shift
    # shellcheck disable=SC2086
    $compiler -std=c99 -Wall -Wextra -Werror $link "$example" "$@" -o "$folder/example" &&
        [ "$($emulator "$folder/example" "$samples/c6x.out")" = 'started at 00000400' ]
}

# Made in a folder that has these sources and a build of its own.
copy=$folder/copy
mkdir -p "$copy/build/dist"
for name in Makefile *.mk *.md crates* examples host include man packaging tools; do ln -s "$PWD/$name" "$copy"; done
cp -p build/libscanboot.a build/scanboot build/scanboot.program "$copy/build"
cp -p build/dist/scanboot "$copy/build/dist"
dist() { make -s -C "$copy" dist >"$folder/out" 2>&1 || { cat "$folder/out"; false; }; }
archive=$copy/build/scanboot-$release.tar.gz
package=$copy/build/scanboot_${release}_amd64.deb
sha256sum include/scanboot.h build/libscanboot.a build/scanboot.program build/dist/scanboot >"$copy/build/gate-page.txt"
echo '7 passed, 0 failed' >>"$copy/build/gate-page.txt"
says 'make dist' dist
says 'nothing is said against the gate' [ "$(grep -c '^dist: ' "$folder/out")" = 0 ]
cp "$archive" "$folder/first.tar.gz"
cp "$package" "$folder/first.deb"
# a second later, for someone with other habits
(sleep 1 && umask 077 && TZ=Asia/Tokyo dist)
says 'made again, the archive is the same' cmp -s "$archive" "$folder/first.tar.gz"
says 'and so is the package' cmp -s "$package" "$folder/first.deb"

# The archive.
says 'it unpacks' tar -x -z -f "$archive" -C "$folder"
at=$folder/scanboot-$release
listed() { tar -t -v -z --numeric-owner -f "$archive" | awk "{ print $1 }" | sort -u; }
says 'of one owner' [ "$(listed '$2')" = 0/0 ]
says 'and of one time' [ "$(listed '$4, $5' | wc -l)" = 1 ]
says 'its sums are right' sh -c 'cd "$1" && sha256sum --quiet --strict -c SHA256SUMS' sums "$at"
says 'each file has one' [ "$(cut -c 67- "$at/SHA256SUMS")" = "$(cd "$at" && find -- * -type f ! -name SHA256SUMS | LC_ALL=C sort)" ]
for file in include/scanboot.h lib/libscanboot.a bin/scanboot share/man/man1/scanboot.1 share/man/man3/scanboot.3 \
    share/bash-completion/completions/scanboot share/doc/scanboot/CHANGELOG.md LICENCE README; do
    says "it has $file" [ -s "$at/$file" ]
done
says 'the header is the header' cmp -s include/scanboot.h "$at/include/scanboot.h"
says 'the library is the library' cmp -s build/libscanboot.a "$at/lib/libscanboot.a"
says 'it names the kit' [ "$(cat "$at/KIT")" = "$(rt version)" ]
says 'nothing knows where it was made' fails grep -r -q -F "$folder" "$at"
says 'its program answers' answers "$at/bin/scanboot"
says 'a program builds with its header and library' builds "$at/share/doc/scanboot/examples/host.c" -I"$at/include" "$at/lib/libscanboot.a"
if command -v pkg-config >/dev/null; then
    # shellcheck disable=SC2046
    says 'and with what pkg-config says, from wherever it stands' builds "$at/share/doc/scanboot/examples/host.c" \
        $(PKG_CONFIG_PATH=$at/lib/pkgconfig pkg-config --cflags --libs scanboot)
fi

# The gate's last page.
says 'it has the last page of the gate' cmp -s "$at/GATE" "$copy/build/gate-page.txt"
# on_page FILE NAME: the sum of the archive's FILE is what the page has by that NAME
on_page() { grep -q -x -F -e "$(sha256sum <"$at/$1" | cut -c 1-64)  $2" "$at/GATE"; }
says 'the page has the sum of the header' on_page include/scanboot.h include/scanboot.h
says 'of the library' on_page lib/libscanboot.a build/libscanboot.a
says 'and of the program that is handed out' on_page bin/scanboot build/dist/scanboot
[ -n "$emulator" ] || says 'which is the one that was tested' on_page bin/scanboot build/scanboot.program

# The package, in a folder that stands for a machine with a C library of some version. What dpkg leaves out on this machine is not left out.
# debian VERSION: such a folder; on_it WORDS..: dpkg there
debian() {
    machine=$folder/machine-$1
    mkdir -p "$machine/var/lib/dpkg/info" "$machine/var/lib/dpkg/updates"
    printf '%s\n' 'Package: libc6' 'Status: install ok installed' 'Maintainer: nobody' 'Architecture: amd64' "Version: $1" 'Description: C' \
        >"$machine/var/lib/dpkg/status"
    [ -z "$emulator" ] || on_it --add-architecture amd64
}
on_it() {
    HOME=$folder PATH=$PATH:/usr/sbin:/sbin \
        dpkg --root="$machine" --log="$folder/dpkg.log" --force-not-root --path-include='*' "$@" >"$folder/out" 2>&1
}
there() { (cd "$machine" && find . -path ./var -prune -o ! -type d -print | sed 's|^\./||' | LC_ALL=C sort); }
debian 2.19
says 'with an older C library it is not set up' fails on_it -i "$package"
# which names the machine besides, where it is not its own
says 'and dpkg says why' grep -q 'scanboot\(:amd64\)\{0,1\} depends on libc6' "$folder/out"
debian 2.99
says 'it is installed' on_it -i "$package"
says 'dpkg says so' on_it -s scanboot
says 'in this version' grep -q -x "Version: $release" "$folder/out"
says 'every file is as it was packed' on_it --verify scanboot
says 'nothing is missing' [ ! -s "$folder/out" ]
says 'dpkg has the sum of each' [ "$(cut -c 35- "$machine/var/lib/dpkg/info/scanboot.md5sums")" = "$(there)" ]
doc=usr/share/doc/scanboot
for file in usr/include/scanboot.h usr/lib/x86_64-linux-gnu/libscanboot.a usr/bin/scanboot usr/share/man/man1/scanboot.1.gz $doc/copyright \
    $doc/changelog.gz $doc/KIT $doc/GATE $doc/examples/host.c; do
    says "it has put $file there" [ -s "$machine/$file" ]
done
# the files of both, but for those that have another name or place in the other
common() { grep -v -E -e '(^|/)(LICENCE|README|KIT|GATE|copyright|changelog.gz|CHANGELOG.md)$'; }
says 'it has what the archive has' [ "$(there | sed -e 's|^usr/||' -e 's|/x86_64-linux-gnu||' -e 's|\(/man./.*\)\.gz$|\1|' | common)" = \
    "$(cut -c 67- "$at/SHA256SUMS" | common)" ]
says 'its manual page is the manual page' [ "$(gzip -d -c "$machine/usr/share/man/man1/scanboot.1.gz")" = "$(cat man/scanboot.1)" ]
says 'its program answers' answers "$machine/usr/bin/scanboot"
if command -v pkg-config >/dev/null; then
    # shellcheck disable=SC2046
    says 'a program builds with what it installed' builds "$machine/$doc/examples/host.c" \
        $(PKG_CONFIG_SYSROOT_DIR=$machine PKG_CONFIG_LIBDIR=$machine/usr/lib/x86_64-linux-gnu/pkgconfig PKG_CONFIG_ALLOW_SYSTEM_CFLAGS=1 \
            PKG_CONFIG_ALLOW_SYSTEM_LIBS=1 pkg-config --cflags --libs scanboot)
fi
says 'it is removed' on_it -r scanboot
says 'no file of it is left' [ -z "$(there)" ]
says 'no folder of it is left' [ "$(ls -A "$machine")" = var ]
says 'dpkg knows nothing of it any more' [ -z "$(find "$machine/var" -name 'scanboot*'; grep -l scanboot "$machine/var/lib/dpkg/status")" ]

# Where the gate's last page is of other files, or there is none.
# told SENTENCE: the page begins with it, and it is said once to who runs make dist
told() { dist && [ "$(sed 1q "$copy/build/dist/scanboot-$release/GATE")" = "$1" ] && [ "$(grep '^dist: ' "$folder/out")" = "dist: $1" ]; }
sed -i '2s/^......../00000000/' "$copy/build/gate-page.txt"
says 'a page of other files is told' told 'The gate was last run on other files than these.'
rm "$copy/build/gate-page.txt"
says 'and that there is none' told 'The gate was not run where this was made.'

end
