#include "chance.h"
#include "numbers.h"

uint64_t below(struct chance *chance, uint64_t limit) { return (splitmix64(&chance->state) >> 16) % limit; }

int one_in(struct chance *chance, uint64_t times) { return below(chance, times) == 0; }
