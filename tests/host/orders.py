"""A whole image of order 0 in another byte order: reversed in each four bytes are its numbers with 1, its raw data and padding with 2, both with 3."""
from struct import unpack_from


def fours(part):
    return b''.join(part[i:i + 4][::-1] for i in range(0, len(part), 4))


def in_order(image, order):
    numbers, data = (fours if order & bit else bytes for bit in (1, 2))
    at, made = 4, numbers(image[:4])
    while size := unpack_from('<I', image, at)[0]:
        raw, end = at + 12, at + 12 + (size + 3) // 4 * 4
        made += numbers(image[at:raw]) + data(image[raw:end])
        at = end
    return made + image[at:]
