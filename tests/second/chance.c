/* Numbers by chance: see chance.h. */
#include "chance.h"

static uint64_t state;

void seed_chance(uint64_t seed)
{
    state = seed;
}

static uint64_t next(void)
{
    uint64_t z = state += 0x9e3779b97f4a7c15u;
    z = (z ^ (z >> 30)) * 0xbf58476d1ce4e5b9u;
    z = (z ^ (z >> 27)) * 0x94d049bb133111ebu;
    return z ^ (z >> 31);
}

uint32_t below(uint64_t limit)
{
    return (uint32_t)((next() >> 32) * limit >> 32);
}

uint32_t from(uint32_t least, uint32_t greatest)
{
    return least + below((uint64_t)greatest - least + 1);
}

int chance(unsigned percent)
{
    return below(100) < percent;
}

uint32_t pick(const uint32_t *of, size_t count)
{
    return of[below(count)];
}

enum { FIRST_YEAR = 1980 };

enum {
    ONE_YEAR,     /* mostly one */
    STRETCH,      /* no span over four */
    AT_THE_LIMIT, /* spans of four and of five */
    NINE_YEARS,   /* some sets within a span of four, others not */
    AND_LATER,    /* a stretch, and the assessment year with what is repeated then */
    DECADES
};

struct years some_years(uint32_t assessment)
{
    struct years y = {0, assessment, assessment};
    y.manner = chance(60) ? ONE_OF(ONE_YEAR, STRETCH) : ONE_OF(AT_THE_LIMIT, NINE_YEARS, NINE_YEARS, AND_LATER, DECADES);
    if (y.manner == AND_LATER || chance(50))
        y.last = chance(80) ? years_before(assessment, below(15)) : from(FIRST_YEAR, assessment);
    return y;
}

uint32_t year_of(struct years y)
{
    switch (y.manner) {
    case ONE_YEAR: return years_before(y.last, chance(90) ? 0 : below(5));
    case STRETCH: return years_before(y.last, below(5));
    case AT_THE_LIMIT: return years_before(y.last, ONE_OF(0, 0, 1, 4, 4, 5));
    case NINE_YEARS: return years_before(y.last, below(9));
    case AND_LATER: return chance(20) ? y.assessment : years_before(y.last, below(5));
    default: return years_before(y.last, below(30));
    }
}

uint32_t any_year(struct years y)
{
    return from(FIRST_YEAR, y.assessment);
}

uint32_t years_before(uint32_t year, uint32_t many)
{
    return year < FIRST_YEAR + many ? FIRST_YEAR : year - many;
}
