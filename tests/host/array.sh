#!/bin/sh
# The C array.
. "$(dirname "$0")/common.sh"
inputs a.out a.img long.out long.img bare.out bare.img

run convert a.out --c-array boot_table -o a.h
says 'A as a C header' ended 0
says 'the array is the image' ask array a.h a.img boot_table a.out
run convert a.out --c-array boot_table
says 'a C header goes to standard output by itself' same out a.h
run convert --c-array=Boot1 long.out -o long.h
says 'a long array' ask array long.h long.img Boot1 long.out
run convert bare.out --c-array bare -o bare.h
says 'an array without blocks' ask array bare.h bare.img bare bare.out
cat >user.c <<'C'
#include "a.h"
#include "a.h"
#include "long.h"
typedef char as_long[sizeof boot_table == BOOT_TABLE_LENGTH && sizeof Boot1 == BOOT1_LENGTH ? 1 : -1];
int user(as_long *x) { return x != 0 && boot_table[4] == 5 && Boot1[0] == 0; }
C
says 'the header is C99' gcc -std=c99 -Wall -Wextra -Wpedantic -Werror -fsyntax-only user.c
says 'the header is C++' g++ -std=c++11 -Wall -Wextra -Wpedantic -Werror -fsyntax-only -x c++ user.c

# Beside the library's own header, and beside an array whose name differs in case alone; in either order.
run convert a.out --c-array scanboot -o array_scanboot.h
run convert a.out --c-array Scanboot -o array_Scanboot.h
for order in 'scanboot.h array_scanboot.h array_Scanboot.h' 'array_Scanboot.h array_scanboot.h scanboot.h'; do
    printf '#include "%s"\n' $order >beside.c
    cat >>beside.c <<'C'
unsigned beside(void);
unsigned beside(void)
{
    scanboot_reading reading = scanboot_read_image(scanboot, sizeof scanboot);
    return scanboot_code(reading) + scanboot[4] + Scanboot[4] + (unsigned)SCANBOOT_LENGTH + SCANBOOT_OK;
}
C
    says "in C: $order" gcc -std=c99 -Wall -Wextra -Wpedantic -Werror -I"$tests/../include" -fsyntax-only beside.c
    says "in C++: $order" g++ -std=c++11 -Wall -Wextra -Wpedantic -Werror -I"$tests/../include" -fsyntax-only -x c++ beside.c
done
cp a.out 'a*#\?.out'
run convert 'a*#\?.out' --c-array x -o -
says 'a file name does no harm in a comment' grep -q 'made from a____.out by' out

end
