/* A regular file that takes the place of another, or of nothing, in one step. */
#ifndef REPLACE_H
#define REPLACE_H

#include "files.h"

/* Makes `path` a file of these bytes, with the mode of the file that was there.
 * Whenever the program is stopped, the old file or the new one is there, whole.
 * Where it fails, the old one is as it was; ends the program with status 3.
 *
 * The new file has no name until it is whole, so that it goes with the program that
 * writes it, however that ends. Where nothing stands at `path`, giving it its name is
 * one step. Where a file does, it gets a name beside that file first and is renamed;
 * all signals wait meanwhile. SIGKILL, one of the two signals that the C library keeps
 * for itself, or the machine's end between these two steps leaves the whole new file
 * beside the old one; nothing else leaves anything.
 *
 * Some file systems have no files without a name. There it is written beside under a
 * name, and each signal that ends a program and can be caught takes it away; SIGKILL
 * and its like leave what was written. */
void replace_file(const char *path, struct bytes content);

#endif
