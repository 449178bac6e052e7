#include "random.h"

static uint64_t random_state;

void seed_random(uint64_t number)
{
    random_state = 88172645463325252u + number;
}

size_t random_below(size_t count)
{
    random_state ^= random_state << 13;
    random_state ^= random_state >> 7;
    random_state ^= random_state << 17;
    return (size_t)(random_state % count);
}

uint8_t random_letter(size_t letters)
{
    return (uint8_t)(random_below(letters) * 255 / (letters > 4 ? letters - 1 : 3));
}

uint8_t from_32(size_t byte)
{
    return (uint8_t)(byte % 256 < 32 ? byte + 32 : byte);
}
