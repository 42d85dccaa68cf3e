#include "headers.h"
#include "inspect.h"
#include "order.h"

long target_of(const struct inspected *inspected)
{
    const uint8_t *at = inspected->content.at;
    size_t length = inspected->content.length;
    switch (inspected->kind) {
    case IS_COFF: return length < FILE_HEADER ? -1 : (long)half_at(at + 20);
    case IS_COFF_1: return (long)half_at(at + 20);
    case IS_COFF_0: return (long)half_at(at);
    case IS_TURNED_COFF: return (long)turned_half_at(at + 20);
    default: return -1;
    }
}

struct elf elf_of(struct bytes content)
{
    struct elf elf = { 0, NULL, 0 };
    const uint8_t *at = content.at;
    if (content.length < 20)
        return elf;
    elf.bits = at[4] == 1 ? 32 : at[4] == 2 ? 64 : 0;
    elf.order = at[5] == 1 ? "little" : at[5] == 2 ? "big" : NULL;
    elf.machine = at[5] == 2 ? turned_half_at(at + 18) : half_at(at + 18);
    return elf;
}

static void add_elf(struct text *text, struct elf elf)
{
    if (elf.bits != 0)
        add(text, " of %u bits", elf.bits);
    if (elf.order != NULL)
        add(text, ", %s-endian, for machine %u%s", elf.order, elf.machine, elf.machine == 140 ? " (C6000)" : "");
}

void add_description(struct text *text, const struct inspected *inspected)
{
    long target = target_of(inspected);
    add(text, "%s", kind_name(inspected->kind));
    if (inspected->kind == IS_TURNED_IMAGE) {
        add(text, " (--order ");
        add_orders(text, inspected->orders);
        add(text, ")");
    }
    if (inspected->kind == IS_TURNED_COFF)
        add(text, ", version %u,", turned_half_at(inspected->content.at) & 3);
    if (target >= 0 && target_name((uint32_t)target) != NULL)
        add(text, " for the %s (target %04lXh)", target_name((uint32_t)target), target);
    else if (target >= 0)
        add(text, " for target %04lXh", target);
    if (inspected->kind == IS_ELF)
        add_elf(text, elf_of(inspected->content));
}
