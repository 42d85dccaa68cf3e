#include "files.h"
#include "names.h"
#include "replace.h"

#include <errno.h>
#include <fcntl.h>
#include <limits.h>
#include <signal.h>
#include <stdio.h>
#include <stdlib.h>
#include <string.h>
#include <sys/stat.h>
#include <unistd.h>

/* A file over the limit of sizes is an error to be told, and no signal. */
int write_all(int to, struct bytes content)
{
    signal(SIGXFSZ, SIG_IGN);
    while (content.length > 0) {
        ssize_t done = write(to, content.at, content.length);
        if (done < 0 && errno == EINTR)
            continue;
        if (done < 0)
            return -1;
        content.at += done;
        content.length -= (size_t)done;
    }
    return 0;
}

void write_output(struct bytes content)
{
    if (write_all(STDOUT_FILENO, content) < 0)
        file_failed("standard output", errno);
}

/* The number of the open file that has this path in the folder where each process finds
 * its own, or -1. */
static int descriptor_at(const char *path)
{
    static const char *const folders[] = { "/dev/fd/", "/proc/self/fd/" };
    for (size_t i = 0; i < sizeof folders / sizeof folders[0]; i++) {
        size_t folder = strlen(folders[i]);
        if (strncmp(path, folders[i], folder) == 0 && path[folder + strspn(path + folder, "0123456789")] == '\0')
            return atoi(path + folder);
    }
    return -1;
}

/* The open file to which the path leads by way of that folder, as /dev/stdout does, or
 * -1. It is followed link by link: the last one leads on to a regular file, if that is
 * what is open there. */
static int descriptor_behind(const char *path)
{
    char here[PATH_MAX], link[PATH_MAX];
    if (strlen(path) >= sizeof here)
        return -1;
    strcpy(here, path);
    for (int links = 0; links < 40; links++) {
        ssize_t length = readlink(here, link, sizeof link);
        if (length < 0 || descriptor_at(here) >= 0)
            return length < 0 ? -1 : descriptor_at(here);
        char *slash = strrchr(here, '/');
        char *from = link[0] == '/' || slash == NULL ? here : slash + 1;
        if (length >= here + sizeof here - from)
            return -1;
        memcpy(from, link, (size_t)length);
        from[length] = '\0';
    }
    return -1;
}

/* Nothing can be renamed to where such an output leads. */
static void write_through(const char *path, int to, struct bytes content)
{
    if (to < 0 || write_all(to, content) < 0 || close(to) < 0)
        file_failed(path, errno);
}

void write_file(const char *path, struct bytes content)
{
    struct stat there;
    if (is_standard(path)) {
        write_output(content);
        return;
    }
    int open_already = descriptor_behind(path);
    if (open_already >= 0)
        write_through(path, open_already, content);
    else if (stat(path, &there) == 0 && !S_ISREG(there.st_mode))
        write_through(path, open(path, O_WRONLY | O_NOCTTY | O_CLOEXEC), content);
    else
        replace_file(path, content);
}

static int look_at(const char *path, int standard, struct stat *there)
{
    return (is_standard(path) ? fstat(standard, there) : stat(path, there)) == 0;
}

int is_same_file(const char *input, const char *output)
{
    struct stat from, to;
    return look_at(input, STDIN_FILENO, &from) && look_at(output, STDOUT_FILENO, &to) && from.st_dev == to.st_dev &&
           from.st_ino == to.st_ino && (S_ISREG(from.st_mode) || S_ISBLK(from.st_mode));
}
