#!/bin/sh
# No permission. Root may do everything, so there another user tries.
. "$(dirname "$0")/common.sh"
inputs a.out

mkdir shut open program
cp a.out open/a.out
printf 'old' >open/old.img
chmod 777 . open
chmod 444 open/old.img
chmod 555 shut
cp "$scanboot" program/scanboot
[ ! -e "$scanboot.program" ] || cp "$scanboot.program" program/scanboot.program
as_user() {
    if [ "$(id -u)" = 0 ]; then
        setpriv --reuid=65534 --regid=65534 --clear-groups "$@"
    else
        "$@"
    fi
}
as_user program/scanboot convert a.out -o shut/new.img >out 2>err
status=$?
says 'a folder without permission ends with 3' ended 3
says 'a folder without permission is named' told 'scanboot: shut/new.img: Permission denied'
as_user program/scanboot convert a.out -o open/new.img >out 2>err
as_user program/scanboot convert a.out -o open/new.img >>out 2>>err
says 'who may write a file needs no other permission' told_nothing
says 'to make or to replace it' only open 'a.out new.img old.img'
rm -f open/new.img
as_user program/scanboot convert a.out -o open/old.img >out 2>err
says 'a protected file is not replaced' told 'scanboot: open/old.img: Permission denied'
says 'and is as it was' [ "$(cat open/old.img)" = old ]
chmod 000 open/a.out
as_user program/scanboot list open/a.out >out 2>err
says 'a file that may not be read' told 'scanboot: open/a.out: Permission denied'
says 'nothing is left beside' only open 'a.out old.img'

end
