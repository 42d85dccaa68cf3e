#include "files.h"
#include "names.h"

#include <errno.h>
#include <fcntl.h>
#include <stdio.h>
#include <stdlib.h>
#include <string.h>
#include <sys/stat.h>
#include <unistd.h>

_Noreturn void file_failed_since(const char *path, const char *why)
{
    fprintf(stderr, "scanboot: %s: %s\n", in_one_line(path), why);
    exit(EXIT_FILES);
}

_Noreturn void file_failed(const char *path, int why)
{
    file_failed_since(path, strerror(why));
}

_Noreturn void no_memory(void)
{
    file_failed("memory", ENOMEM);
}

void *room_of(size_t count, size_t size)
{
    void *room = calloc(count + 1, size);
    if (room == NULL)
        no_memory();
    return room;
}

struct bytes make_room(size_t length)
{
    struct bytes room = { room_of(length, 1), length };
    return room;
}

/* A file that is opened takes the lowest number that is free. Were that one of a
 * standard file, the file would be read or written in its place. So a standard file
 * that is closed is opened the wrong way round: what is asked of it fails as it
 * would have. */
void hold_standard_files(void)
{
    static const int wrong_way[] = {
        [STDIN_FILENO] = O_WRONLY, [STDOUT_FILENO] = O_RDONLY, [STDERR_FILENO] = O_RDONLY
    };
    for (int number = STDIN_FILENO; number <= STDERR_FILENO; number++)
        if (fcntl(number, F_GETFD) < 0 && open("/dev/null", wrong_way[number]) != number)
            file_failed("/dev/null", errno);
}

/* The pages of the room that nothing is read into are never touched. */
struct bytes read_file(const char *path, size_t most)
{
    struct bytes content = make_room(most);
    content.length = 0;
    int from = is_standard(path) ? STDIN_FILENO : open(path, O_RDONLY | O_CLOEXEC);
    const char *name = is_standard(path) ? "standard input" : path;
    if (from < 0)
        file_failed(name, errno);
    while (content.length < most) {
        ssize_t got = read(from, content.at + content.length, most - content.length);
        if (got < 0 && errno == EINTR)
            continue;
        if (got < 0)
            file_failed(name, errno);
        if (got == 0)
            break;
        content.length += (size_t)got;
    }
    if (!is_standard(path))
        close(from);
    return content;
}

uint64_t length_of_file(const char *path)
{
    struct stat there;
    return !is_standard(path) && stat(path, &there) == 0 && S_ISREG(there.st_mode) ? (uint64_t)there.st_size : 0;
}
