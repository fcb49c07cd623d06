/* Runs a ring of four nodes at STM-4 with one circuit and no failure for 60 settle steps of 128 rounds, from C. Prints
 * how many ports delivered a chunk in the last round. The function is that of the static library
 * crates/sdh_bench_ring. */
#include <stddef.h>
#include <stdint.h>
#include <stdio.h>

/* A slice is two parameters: where it begins, and its length. */
uint32_t sdh_bench_ring(size_t n, const int64_t *ids, size_t nodes, size_t circuits, const uint8_t *names,
                        size_t names_length, size_t cuts, uint32_t steps);

int main(void) {
    const int64_t ids[] = {0, 1, 2, 3};
    const uint32_t ports = sdh_bench_ring(4, ids, 4, 1, (const uint8_t *)"c001", 4, 0, 60);
    printf("ports with a chunk: %u\n", ports);
    return ports == 1000;
}
