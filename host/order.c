#include "order.h"
#include "answers.h"
#include "scanboot.h"
#include "words.h"

#include <string.h>

uint32_t order_in(const struct words *words)
{
    const char *word = words->option[ORDER];
    if (word == NULL)
        return SCANBOOT_ORDER_PLAIN;
    if (strcmp(word, "big") == 0)
        return SCANBOOT_ORDER_BIG;
    if (word[0] < '0' || word[0] > '9')
        misused("--order ORDER is neither a number nor 'big': ", word);
    return (uint32_t)number_of(words, ORDER, UINT32_MAX);
}

unsigned orders_taking(struct bytes image)
{
    unsigned orders = 0;
    for (uint32_t order = SCANBOOT_ORDER_PLAIN; order <= SCANBOOT_ORDER_BIG; order++)
        if (ask_image(image, order).code == SCANBOOT_OK)
            orders |= IN_ORDER(order);
    return orders;
}

unsigned orders_same(struct bytes file, struct bytes image, struct patterns patterns)
{
    unsigned orders = 0;
    for (uint32_t order = SCANBOOT_ORDER_PLAIN; order <= SCANBOOT_ORDER_BIG; order++)
        if (scanboot_code(scanboot_check_with(file.at, file.length, image.at, image.length, patterns.row.at,
                                              patterns.row.length, order)) == SCANBOOT_OK)
            orders |= IN_ORDER(order);
    return orders;
}

void add_orders(struct text *text, unsigned orders)
{
    for (unsigned order = 0; orders >> order != 0; order++) {
        unsigned before = orders & (IN_ORDER(order) - 1), behind = orders >> order >> 1;
        if (orders & IN_ORDER(order))
            add(text, "%s%u", before == 0 ? "" : behind == 0 ? " or " : ", ", order);
    }
}

void add_order_member(struct text *text, const struct words *words)
{
    if (words->option[ORDER] != NULL)
        add(text, ", \"order\": %u", order_in(words));
}

struct bytes turned(struct bytes image)
{
    struct bytes copy = make_room(image.length);
    for (size_t i = 0; i < image.length / 4 * 4; i++)
        copy.at[i] = image.at[i ^ 3];
    return copy;
}
