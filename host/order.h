/* The byte order of an image: what --order says, and the orders in which the library takes an
 * image. Nothing in an image tells its order. */
#ifndef ORDER_H
#define ORDER_H

#include "skip.h"

/* What stands behind --order, a number or "big"; 0 if it was not given. Whether it is an order
 * is the library's answer. */
uint32_t order_in(const struct words *words);

/* The orders in which the library takes an image, and those in which it says that the image is
 * the same as a file: a bit for each. */
#define IN_ORDER(order) (1u << (order))
unsigned orders_taking(struct bytes image);
unsigned orders_same(struct bytes file, struct bytes image, struct patterns patterns);

/* "3", "1 or 3", "0, 1 or 3". */
void add_orders(struct text *text, unsigned orders);

/* As JSON, behind other members: the order, where --order was given. */
void add_order_member(struct text *text, const struct words *words);

/* A copy of an image in which each four bytes are reversed. All parts of an image begin at a
 * multiple of four: where the order reverses the blocks' bytes, they stand in it as the
 * processor finds them. */
struct bytes turned(struct bytes image);

#endif
