/* The values that samples can have: from rail to rail, and between the limits that the instrument states. */
#include "host.h"
#include "tessarquin.h"

struct limits rails_of(const struct opened *o)
{
    int words = o->type == TESSARQUIN_WORD;
    return (struct limits){words ? INT16_MIN : INT8_MIN, words ? INT16_MAX : INT8_MAX, (double)float_at(o, TESSARQUIN_AT_VERTICAL_GAIN)};
}

int were_words(const struct opened *o)
{
    float low = float_at(o, TESSARQUIN_AT_MIN_VALUE), high = float_at(o, TESSARQUIN_AT_MAX_VALUE);
    return o->type == TESSARQUIN_BYTE && low >= INT16_MIN && high <= INT16_MAX && (low < INT8_MIN || high > INT8_MAX);
}

/* Those of words stand for what they did before the gain was made 256 times itself. */
struct limits stated_limits(const struct opened *o)
{
    double gain = (double)float_at(o, TESSARQUIN_AT_VERTICAL_GAIN);
    return (struct limits){float_at(o, TESSARQUIN_AT_MIN_VALUE), float_at(o, TESSARQUIN_AT_MAX_VALUE), were_words(o) ? gain / 256 : gain};
}

int are_stated(struct limits limits)
{
    return limits.low != 0 || limits.high != 0;
}

struct range values_of(const struct opened *o, struct limits limits)
{
    double offset = (double)float_at(o, TESSARQUIN_AT_VERTICAL_OFFSET);
    double one = limits.gain * (double)limits.low - offset, other = limits.gain * (double)limits.high - offset;
    return one < other ? (struct range){one, other} : (struct range){other, one};
}
