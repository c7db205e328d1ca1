/* older.c: a program as it was compiled against the header of an older interface; INTERFACE says which. It declares the calls as that header did, by
 * their symbols. It must compile, and must not link: bindings/c/run sees to both, of every number below today's. If it did link, the library would
 * take each parameter behind zs or t for another, and write to wherever the stack happens to point; or, of interface 4, the program would take kinds
 * 3 to 5, of readings that were skipped, for news.
 */
#include <stddef.h>
#include <stdint.h>

#define SIZES size_t, size_t, size_t, size_t
#define IN const double *, size_t
#define OUT double *, size_t
#define BYTES_IN const uint8_t *, size_t
#define BYTES_OUT uint8_t *, size_t
#define BEHIND_ZS IN, IN, IN, IN, IN, IN, IN, IN, BYTES_IN, IN
#define LENT OUT, OUT, OUT, OUT, OUT, BYTES_OUT, OUT, OUT, OUT, OUT, OUT
#define FOUR_PLACES double *, size_t *, size_t *, size_t *
#define SIX_PLACES FOUR_PLACES, size_t *, size_t *
#if INTERFACE == 1 /* no number, and four places for the answer */
#define SYMBOL(name) name
#define GIVEN SIZES, IN, IN, BEHIND_ZS
#define PLACES FOUR_PLACES
#elif INTERFACE == 2 /* no repeats */
#define SYMBOL(name) name##_2
#define GIVEN SIZES, IN, IN, BEHIND_ZS
#define PLACES SIX_PLACES
#elif INTERFACE == 3 /* no ts */
#define SYMBOL(name) name##_3
#define GIVEN SIZES, IN, IN, uint8_t, BEHIND_ZS
#define PLACES SIX_PLACES
#elif INTERFACE == 4 /* kinds 0 to 2 alone */
#define SYMBOL(name) name##_4
#define GIVEN SIZES, IN, IN, uint8_t, IN, BEHIND_ZS
#define PLACES SIX_PLACES
#else
#error "say here what this interface declared"
#endif

uint32_t SYMBOL(goxundar_filter)(GIVEN, LENT, PLACES);
uint32_t SYMBOL(goxundar_smooth)(GIVEN, LENT, OUT, OUT, PLACES);
uint32_t SYMBOL(goxundar_stretch)(GIVEN, uint8_t, BYTES_IN, uint8_t, LENT, BYTES_OUT, PLACES);

/* Their addresses are enough: the linker must find them. */
struct {
    uint32_t (*filter)(GIVEN, LENT, PLACES);
    uint32_t (*smooth)(GIVEN, LENT, OUT, OUT, PLACES);
    uint32_t (*stretch)(GIVEN, uint8_t, BYTES_IN, uint8_t, LENT, BYTES_OUT, PLACES);
} calls = {SYMBOL(goxundar_filter), SYMBOL(goxundar_smooth), SYMBOL(goxundar_stretch)};

int main(void)
{
    return calls.filter == NULL || calls.smooth == NULL || calls.stretch == NULL;
}
