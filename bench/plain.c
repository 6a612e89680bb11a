/* The plain loop that hy_compare_below is measured against. measure.sh compiles it once with each compiler, under the
 * name PLAIN_BELOW.
 */
#include <stddef.h>
#include <stdint.h>

void PLAIN_BELOW(const int64_t *values, size_t len, int64_t right, uint64_t *into, size_t words)
{
    for (size_t k = 0; k < words && k < len / 64; k++) {
        uint64_t word = 0;
        for (size_t i = 0; i < 64; i++)
            word |= (uint64_t)(values[64 * k + i] < right) << i;
        into[k] = word;
    }
}
