/* The layout of each struct: its size, and where each number lies and of which type it is. The header's flat struct lies as the same one
   nested in C, in which what is told stands first as a struct of its own, as it does in the library. The calls of the other programs here
   hold the library to it. */
#include <stddef.h>
#include <stdio.h>

#include "shtegomir.h"

struct told {
    uint64_t refusal, place;
};

struct best {
    struct told told;
    uint32_t aggregate;
    uint16_t set;
};

struct curve {
    struct told told;
    uint32_t population, rate;
};

struct placed {
    struct told told;
    uint32_t remainder;
};

struct text {
    struct told told;
    uint64_t length;
};

/* a number of the flat struct: where it lies, and its type */
#define NUMBER(flat, name, type, bytes)                                                                     \
    _Static_assert(offsetof(struct flat, name) == (bytes), #flat " " #name);                                \
    _Static_assert(sizeof(((struct flat *)0)->name) == sizeof(type), #flat " " #name " size");              \
    _Static_assert(_Generic(((struct flat *)0)->name, type : 1, default : 0), #flat " " #name " is " #type)

/* of the size and alignment of the nested one, with refusal and place at 0 and 8 */
#define AS_LONG(flat, ours, bytes)                                                           \
    _Static_assert(sizeof(struct flat) == (bytes) && sizeof(struct ours) == (bytes), #flat); \
    _Static_assert(_Alignof(struct flat) == 8 && _Alignof(struct ours) == 8, #flat);         \
    NUMBER(flat, refusal, uint64_t, 0);                                                      \
    NUMBER(flat, place, uint64_t, 8)

/* a value at the place where the nested one has it */
#define AT(flat, ours, name, type, bytes) \
    NUMBER(flat, name, type, bytes);      \
    _Static_assert(offsetof(struct ours, name) == (bytes), #flat " " #name " nested")

_Static_assert(offsetof(struct told, refusal) == 0 && offsetof(struct told, place) == 8, "told");

AS_LONG(shtegomir_best, best, 24);
AT(shtegomir_best, best, aggregate, uint32_t, 16);
AT(shtegomir_best, best, set, uint16_t, 20);

AS_LONG(shtegomir_scored, told, 16);

AS_LONG(shtegomir_curve, curve, 24);
AT(shtegomir_curve, curve, population, uint32_t, 16);
AT(shtegomir_curve, curve, rate, uint32_t, 20);

AS_LONG(shtegomir_ranked, told, 16);

AS_LONG(shtegomir_placed, placed, 24);
AT(shtegomir_placed, placed, remainder, uint32_t, 16);

AS_LONG(shtegomir_text, text, 24);
AT(shtegomir_text, text, length, uint64_t, 16);

/* what is passed: lengths and pointers of eight bytes */
_Static_assert(sizeof(size_t) == 8 && sizeof(uint8_t *) == 8 && sizeof(uint16_t *) == 8 && sizeof(uint32_t *) == 8, "passed");

int main(void)
{
    printf("layout: all as it must be\n");
    return 0;
}
