#!/bin/sh
# What is handed over: the installation and its undoing, the man page.
# The last line is 'N passed, M failed'.
. "$(dirname "$0")/begin.sh"
needs lib host

fails() { ! "$@" 2>/dev/null; }

# Installed for a package, then used from there.
prefix=/opt/scanboot
at=$folder/root$prefix
says 'make install' env -u MAKEFLAGS make install DESTDIR="$folder/root" PREFIX=$prefix >"$folder/put"
expected() {
    printf '%s\n' bin/scanboot include/scanboot.h lib/libscanboot.a lib/pkgconfig/scanboot.pc share/bash-completion/completions/scanboot \
        share/doc/scanboot/CHANGELOG.md share/man/man1/scanboot.1 share/man/man3/scanboot.3
    [ -z "$emulator" ] || echo libexec/scanboot/scanboot.program
    for file in examples/*.[ch]; do echo "share/doc/scanboot/$file"; done
}
installed() { (cd "$1" && find . -type f | sed 's|^\./||' | LC_ALL=C sort); }
expected | LC_ALL=C sort >"$folder/expected"
says 'all of it is installed, and nothing else' [ "$(installed "$at")" = "$(cat "$folder/expected")" ]
says 'it says what it has put where' [ "$(grep "^$at" "$folder/put" | LC_ALL=C sort)" = "$(sed "s|^|$at/|" "$folder/expected")" ]
says 'the header is the header' cmp -s include/scanboot.h "$at/include/scanboot.h"
modes() { (cd "$at" && find . "$@" -printf '%m\n' | sort -u); }
says 'everybody may read it' [ "$(modes -type f ! -path './bin/*' ! -name '*.program')" = 644 ]
says 'and run it' [ "$(modes -path './bin/*')" = 755 ]
says 'nothing knows where it was packed' fails grep -r -q -F "$folder" "$at"
release=$(sed -n 's/^#define SCANBOOT_VERSION_TEXT "\(.*\)"/\1/p' include/scanboot.h)
says 'the installed program runs' [ "$("$at/bin/scanboot" --version)" = "scanboot $release" ]
says 'and lists' [ "$("$at/bin/scanboot" list second/samples/c6x.out | head -n 1)" = 'coff sections 10 kept 7 entry 00000400' ]
says 'the version for pkg-config' grep -q "^Version: $release\$" "$at/lib/pkgconfig/scanboot.pc"
says 'the prefix for pkg-config' grep -q "^prefix=$prefix\$" "$at/lib/pkgconfig/scanboot.pc"

# The same with spaces in the names.
here=$(ls -A)
spaced=$folder/a\ root/opt/scan\ boot
says 'make install to names with spaces' make -s install DESTDIR="$folder/a root" PREFIX='/opt/scan boot'
says 'the same files' [ "$(installed "$spaced")" = "$(cat "$folder/expected")" ]
says 'and nothing here' [ "$here" = "$(ls -A)" ]
says 'its program runs' [ "$("$spaced/bin/scanboot" --version)" = "scanboot $release" ]
if command -v pkg-config >/dev/null; then
    PKG_CONFIG_PATH="$spaced/lib/pkgconfig" pkg-config --cflags --libs scanboot >"$folder/flags"
    says 'its flags for a compiler' grep -q -F -e '-I/opt/scan\ boot/include -L/opt/scan\ boot/lib' "$folder/flags"
fi

# Each folder of its own choice, as a distribution has them.
apart() { make -s "$1" DESTDIR="$folder/apart" prefix=/usr libdir=/usr/lib/x86_64-linux-gnu includedir=/usr/include/scanboot bindir=/usr/tools \
    mandir=/man datadir=/data docdir=/doc libexecdir=/usr/tools/deep/lib; }
apart install
for file in usr/lib/x86_64-linux-gnu/libscanboot.a usr/lib/x86_64-linux-gnu/pkgconfig/scanboot.pc usr/include/scanboot/scanboot.h \
    usr/tools/scanboot man/man1/scanboot.1 data/bash-completion/completions/scanboot doc/CHANGELOG.md doc/examples/host.c; do
    says "in a folder that was named: $file" [ -f "$folder/apart/$file" ]
done
says 'as many files as before' [ "$(installed "$folder/apart" | wc -l)" = "$(wc -l <"$folder/expected")" ]
says 'that program runs' [ "$("$folder/apart/usr/tools/scanboot" --version)" = "scanboot $release" ]
told=$(grep -F 'dir=' "$folder/apart/usr/lib/x86_64-linux-gnu/pkgconfig/scanboot.pc")
says 'pkg-config is told of the folders' [ "$told" = 'includedir=${prefix}/include/scanboot
libdir=${prefix}/lib/x86_64-linux-gnu' ]

# Taken away: what was put there, and no more. The folders that others use too stay, and so does what others have put into one of its own.
mkdir -p "$folder/before/bin" "$folder/before/share/doc/scanboot/examples"
touch "$folder/before/bin/other" "$folder/before/share/doc/scanboot/examples/mine.c"
cp -r "$folder/before" "$folder/after"
make -s install DESTDIR="$folder/after" PREFIX=
says 'make uninstall' make -s uninstall DESTDIR="$folder/after" PREFIX=
says 'what others had is there, and no file more' [ "$(installed "$folder/after")" = "$(installed "$folder/before")" ]
says 'a second time there is nothing to do' make -s uninstall DESTDIR="$folder/after" PREFIX=
apart uninstall
says 'no file is left' [ -z "$(installed "$folder/apart")" ]
says 'no folder of its own is left' [ -z "$(find "$folder/apart" -path '*/doc' -o -path '*/lib/scanboot')" ]
says 'the folders of others are left' test -d "$folder/apart/man/man1"

# The man page: whole, of this version, and of the same commands and options as the program's own help.
page=man/scanboot.1
if command -v groff >/dev/null; then
    says 'the man page is clean' [ -z "$(groff -man -Tutf8 -ww -z $page 2>&1)" ]
fi
# Its examples, in their order, on the file of examples/scanner.py; none may say anything on standard error.
mkdir "$folder/page" "$folder/bin"
ln -s "$PWD/build/scanboot" "$folder/bin/scanboot"
python3 examples/scanner.py "$folder/page/scanner.out"
sed -n '/^\.SH EXAMPLES/,$p' $page | sed -n '/^\.nf/,/^\.fi/p' | grep -v '^\.' | sed -e 's/\\-/-/g' -e "s/\\\\(aq/'/g" >"$folder/lines"
works() { (cd "$folder/page" && PATH="$folder/bin:$PATH" sh -c "$1" >"$folder/out" 2>"$folder/told" && [ ! -s "$folder/told" ]); }
while read -r line; do
    says "the man page: $line" works "$line"
done <"$folder/lines"
says 'all of the file is in the memory of the example' [ "$(stat -c %s "$folder/page/scanner.mem")" = 5242880 ]
says 'the man page is of this version' grep -q "^\.TH SCANBOOT 1 [0-9-]* \"scanboot $release\"" $page
# its sections as they are read
for section in SYNOPSIS COMMANDS OPTIONS JSON; do
    sed -n "/^\.SH $section\$/,/^\.SH /p" $page | sed 's/\\-/-/g' >"$folder/$section"
done
build/scanboot help | sed -n 's/^\(usage:\|      \) scanboot \([a-z]*\) .*/\2/p' | grep -v -x help | sort -u >"$folder/commands"
says 'the help names the commands' [ "$(wc -l <"$folder/commands")" -ge 9 ]
while read -r command; do
    says "the man page has the usage of $command" grep -q "^\.B scanboot $command " "$folder/SYNOPSIS"
    says "it has $command" grep -q -x "\.B $command" "$folder/COMMANDS"
    says "it has an example of $command" grep -q "^scanboot $command " "$folder/lines"
    for option in $(build/scanboot "$command" --help | grep -o -E -e '(^|[^a-z-])--?[a-z][a-z-]*' | grep -o -e '-.*' | sort -u); do
        says "it has $command's $option" grep -q -w -F -e "$option" "$folder/OPTIONS"
        [ "$option" != --json ] || says "it has what $command answers then" grep -q -x "\.B $command" "$folder/JSON"
    done
done <"$folder/commands"
says 'it has an example of check --all' grep -q '^scanboot check .* --all' "$folder/lines"

end
