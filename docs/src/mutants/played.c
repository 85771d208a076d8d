/* Which mutant is played: a number in the environment, and 0 where none is named. */
#include <stddef.h>
#include <stdlib.h>

static size_t mutant;

__attribute__((constructor)) static void kept(void)
{
    const char *named = getenv("MUTANT");
    mutant = named ? (size_t)atol(named) : 0;
}

size_t mutant_played(void)
{
    return mutant;
}
