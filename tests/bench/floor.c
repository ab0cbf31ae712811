/* The floor: what an accepted file costs when its length words are followed and nothing is checked, kept or written.
   It trusts the file, and the machine is little-endian. */
#include <stddef.h>
#include <stdint.h>
#include <string.h>

static uint32_t word(const uint8_t *file, size_t place)
{
    uint32_t value;
    memcpy(&value, file + place, sizeof value);
    return value;
}

/* How many structures there are: the header, then containers and what stands in them. */
uint64_t floor_table(const uint8_t *file, size_t length)
{
    uint64_t structures = 1;
    size_t place = 8;
    while (place < length) {
        size_t end = place + 8 + word(file, place + 4);
        structures++;
        place += 8;
        while (place < end) {
            structures++;
            place += 8 + word(file, place + 4);
        }
    }
    return structures;
}

/* One structure's kind and length words. */
uint64_t floor_record(const uint8_t *file, size_t place)
{
    return (uint64_t)word(file, place) + word(file, place + 4);
}
