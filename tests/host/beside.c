/* beside LENGTH OUTPUT: writes so many zeros by the program's own code, built as for a file system
 * that has no files without a name. */
#include "files.h"

#include <stdlib.h>

int main(int count, char **given)
{
    if (count == 3)
        write_file(given[2], make_room(strtoul(given[1], NULL, 10)));
    return count != 3;
}
