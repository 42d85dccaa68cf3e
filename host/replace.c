#include "replace.h"

#include <errno.h>
#include <fcntl.h>
#include <signal.h>
#include <stdio.h>
#include <stdlib.h>
#include <string.h>
#include <sys/stat.h>
#include <unistd.h>

/* Behind the folder of the output: short, so that every name that a file may have
 * can be an output's. */
static const char beside_name[] = "scanboot.XXXXXX";

struct place {
    char *target;  /* behind all links */
    size_t folder; /* as many characters of that are its folder, with the slash */
    char *beside;  /* the folder, and room for a name beside the target */
    mode_t mode;
};

/* What a link leads to is replaced, and not the link. */
static char *behind_links(const char *path)
{
    struct stat there;
    char *real = realpath(path, NULL);
    int why = errno;
    if (real == NULL && lstat(path, &there) == 0)
        file_failed_since(path, why == ENOENT ? "a link that leads nowhere" : strerror(why));
    return real != NULL ? real : strdup(path);
}

/* The mode of the file that is replaced, or that of a file the shell would make. */
static mode_t mode_for(const char *path, const char *target)
{
    struct stat there;
    if (stat(target, &there) == 0) {
        if (access(target, W_OK) < 0)
            file_failed(path, errno);
        return there.st_mode & 0777;
    }
    mode_t mask = umask(0);
    umask(mask);
    return 0666 & ~mask;
}

static struct place place_of(const char *path)
{
    struct place place = { .target = behind_links(path) };
    const char *slash = place.target != NULL ? strrchr(place.target, '/') : NULL;
    place.folder = slash != NULL ? (size_t)(slash + 1 - place.target) : 0;
    place.beside = malloc(place.folder + sizeof beside_name);
    if (place.target == NULL || place.beside == NULL)
        no_memory();
    memcpy(place.beside, place.target, place.folder);
    place.mode = mode_for(path, place.target);
    return place;
}

static sigset_t hold_signals(void)
{
    sigset_t all, before;
    sigfillset(&all);
    sigprocmask(SIG_BLOCK, &all, &before);
    return before;
}

/* errno stays what it is. */
static void release_signals(sigset_t before)
{
    int why = errno;
    sigprocmask(SIG_SETMASK, &before, NULL);
    errno = why;
}

static int write_whole(int to, struct bytes content, mode_t mode)
{
    return write_all(to, content) < 0 || fchmod(to, mode) < 0 || fsync(to) < 0 ? -1 : 0;
}

/* The test of the other way builds without this one. */
static int open_unnamed(struct place place)
{
#if defined(O_TMPFILE) && !defined(WITHOUT_UNNAMED_FILES)
    strcpy(place.beside + place.folder, ".");
    return open(place.beside, O_TMPFILE | O_WRONLY | O_CLOEXEC, 0600);
#else
    (void)place;
    return -1;
#endif
}

/* 0, or -1 with errno set; then nothing is left beside. */
static int rename_beside(struct place place)
{
    int done = rename(place.beside, place.target);
    int why = errno;
    if (done < 0)
        unlink(place.beside);
    errno = why;
    return done;
}

/* No system call gives an open file the name that another has. */
static int give_name(int file, struct place place)
{
    char unnamed[32];
    snprintf(unnamed, sizeof unnamed, "/proc/self/fd/%d", file);
    if (linkat(AT_FDCWD, unnamed, AT_FDCWD, place.target, AT_SYMLINK_FOLLOW) == 0)
        return 0;
    for (int turn = 0; errno == EEXIST && turn < 1000; turn++) {
        sprintf(place.beside + place.folder, "scanboot.%06d", (getpid() + turn) % 1000000);
        if (linkat(AT_FDCWD, unnamed, AT_FDCWD, place.beside, AT_SYMLINK_FOLLOW) == 0)
            return rename_beside(place);
    }
    return -1;
}

/* What is being written under a name. */
static char *volatile unfinished;

static void clear_away(int signal_number)
{
    if (unfinished != NULL)
        unlink(unfinished);
    raise(signal_number);
}

/* All signals end a program that neither catches nor ignores them, but for these. */
static int is_harmless(int number)
{
    static const int harmless[] = { SIGCHLD, SIGCONT, SIGURG, SIGWINCH, SIGSTOP, SIGTSTP, SIGTTIN, SIGTTOU };
    for (size_t i = 0; i < sizeof harmless / sizeof harmless[0]; i++)
        if (number == harmless[i])
            return 1;
    return 0;
}

static void watch_endings(void)
{
    struct sigaction action, before;
    memset(&action, 0, sizeof action);
    action.sa_handler = clear_away;
    action.sa_flags = (int)SA_RESETHAND;
    sigfillset(&action.sa_mask);
    for (int number = 1; number <= SIGRTMAX; number++)
        if (!is_harmless(number) && sigaction(number, NULL, &before) == 0 && before.sa_handler == SIG_DFL)
            sigaction(number, &action, NULL);
}

static int open_beside(struct place place)
{
    strcpy(place.beside + place.folder, beside_name);
    sigset_t before = hold_signals();
    int to = mkstemp(place.beside);
    if (to >= 0) {
        unfinished = place.beside;
        watch_endings();
    }
    release_signals(before);
    return to;
}

static void write_beside(const char *path, struct place place, struct bytes content)
{
    int to = open_beside(place);
    if (to < 0)
        file_failed(path, errno);
    int failed = write_whole(to, content, place.mode) < 0;
    int why = errno;
    if (close(to) < 0 && !failed) {
        failed = 1;
        why = errno;
    }
    sigset_t before = hold_signals();
    if (failed) {
        unlink(place.beside);
    } else {
        failed = rename_beside(place) < 0;
        why = errno;
    }
    unfinished = NULL;
    release_signals(before);
    if (failed)
        file_failed(path, why);
}

/* Where there are no unnamed files, or this one can get no name, the other way is
 * taken; if the reason was another, it fails too, and tells. */
void replace_file(const char *path, struct bytes content)
{
    struct place place = place_of(path);
    int to = open_unnamed(place);
    int done = -1;
    if (to >= 0) {
        if (write_whole(to, content, place.mode) < 0)
            file_failed(path, errno);
        sigset_t before = hold_signals();
        done = give_name(to, place);
        release_signals(before);
        close(to);
    }
    if (done < 0)
        write_beside(path, place, content);
    free(place.beside);
    free(place.target);
}
