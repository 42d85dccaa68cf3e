/* A program's memory as an SVG picture. */
#ifndef PICTURE_H
#define PICTURE_H

#include "answers.h"

/* Sorts the program's blocks by load address on the way. */
struct bytes picture_of(struct program *program);

#endif
