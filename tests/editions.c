/* The editions as the tests know them: how each reads a functor, and numbers that are none. */
#include "editions.h"

/* Kind = cell divided by 2^28; a functor's is 4. */
static const uint32_t kind_unit = UINT32_C(1) << 28;

uint32_t raw_cell(size_t kind, size_t payload)
{
    return (uint32_t)kind * kind_unit + (uint32_t)payload;
}

uint32_t other_edition(uint32_t edition)
{
    return edition == 1 ? 2 : 1;
}

/* What a functor's name is multiplied by. */
static uint32_t name_unit(uint32_t edition)
{
    return edition == 1 ? 16 : 256;
}

uint32_t arity_in(uint32_t edition, uint32_t functor)
{
    return functor % kind_unit % name_unit(edition);
}

uint32_t recoded(uint32_t edition, uint32_t cell)
{
    uint32_t payload = cell % kind_unit;
    if (cell / kind_unit != 4)
        return cell;
    return 4 * kind_unit + payload / 16 * name_unit(edition) + payload % 16;
}

const uint32_t no_editions[NO_EDITIONS] = {
    0,   3,   4,     5,     15,    16,    17,         255,        256,        257,
    258, 259, 65535, 65536, 65537, 65538, 0x80000000, 0x80000001, 0x80000002, 0xffffffff,
};
