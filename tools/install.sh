#!/bin/sh
# install.sh put|remove: puts what users get in place, or takes it away, by one list. install.mk gives the folders in the environment.
set -eu
action=$1

# put MODE FILE PLACE, and its opposite
put() {
    install -D -m "$1" "$2" "$DESTDIR$3"
    echo "$DESTDIR$3"
}
remove() {
    rm -f "$DESTDIR$3"
    echo "$DESTDIR$3"
}

# relative NAME: a folder below the prefix, told from there, so that all of it can be moved
relative() {
    case $1 in
    "$prefix"/*) printf '${prefix}%s' "${1#"$prefix"}" ;;
    *) printf '%s' "$1" ;;
    esac
}

program=$PROGRAM
made=
if [ "$action" = put ]; then
    made=$(mktemp -d)
    trap 'rm -rf "$made"' EXIT
    sed -e "s|@PREFIX@|$prefix|" -e "s|@INCLUDEDIR@|$(relative "$includedir")|" -e "s|@LIBDIR@|$(relative "$libdir")|" \
        -e "s|@VERSION@|$VERSION|" host/scanboot.pc.in >"$made/scanboot.pc"
    if [ -n "$EMULATED" ]; then
        sed "s|\.\./libexec|$(realpath -m -s --relative-to="$bindir" "$libexecdir")|" "$PROGRAM" >"$made/scanboot"
        program=$made/scanboot
    fi
fi

"$action" 644 include/scanboot.h "$includedir/scanboot.h"
"$action" 644 build/libscanboot.a "$libdir/libscanboot.a"
"$action" 644 "$made/scanboot.pc" "$libdir/pkgconfig/scanboot.pc"
"$action" 755 "$program" "$bindir/scanboot"
[ -z "$EMULATED" ] || "$action" 755 build/scanboot.program "$libexecdir/scanboot/scanboot.program"
for page in man/*.[1-9]; do
    "$action" 644 "$page" "$mandir/man${page##*.}/${page##*/}"
done
"$action" 644 host/scanboot.bash "$datadir/bash-completion/completions/scanboot"
"$action" 644 CHANGELOG.md "$docdir/CHANGELOG.md"
for file in examples/*.[ch]; do
    "$action" 644 "$file" "$docdir/examples/${file##*/}"
done

# Folders of others stay, and so do those with files of others in them.
if [ "$action" = remove ]; then
    for folder in "$docdir/examples" "$docdir" "$libexecdir/scanboot"; do
        [ ! -d "$DESTDIR$folder" ] || rmdir --ignore-fail-on-non-empty "$DESTDIR$folder"
    done
fi
