/* A session of many records through the C calls, for growth.sh: the machine waits, and a port 1 record comes every ten cycles.
 *   sessions COUNT      prints the records used
 * Build: CC -O2 -static -Iboard -o sessions benchmarks/sessions.c target/staticlib/libboard.a */
#include "pliruzza.h"
#include <stdio.h>
#include <stdlib.h>

static uint8_t image[PLIRUZZA_IMAGE], area[PLIRUZZA_AREA], machine[PLIRUZZA_MACHINE], result[PLIRUZZA_LEAPING], output[1];

static void put(uint8_t *to, int bytes, uint32_t n) {
    for (int i = 0; i < bytes; i++) to[i] = (uint8_t)(n >> 8 * i);
}

int main(int count, char **words) {
    uint32_t records = count > 1 ? (uint32_t)strtoul(words[1], NULL, 10) : 10;
    uint8_t *session = malloc(9 * (size_t)records + 1);
    if (!session) return 1;
    for (uint32_t k = 0; k < records; k++) {
        uint8_t *at = session + 9 * (size_t)k;
        put(at, 2, 7);
        put(at + 2, 2, 1);
        put(at + 4, 4, 10 * (k + 1));
        at[8] = 0x55;
    }
    image[0xE000] = 0x3E; /* WAI */
    image[0xFFFE] = 0xE0;
    if (pliruzza_power_on(image, sizeof image, 65536, machine, sizeof machine)) return 1;
    uint32_t stop = pliruzza_run_leaping(image, sizeof image, area, sizeof area, machine, sizeof machine, session, 9 * (size_t)records, 10 * records + 100,
                                         output, sizeof output, result, sizeof result);
    printf("stop %u used %u\n", stop, result[16] | result[17] << 8 | result[18] << 16);
    return 0;
}
