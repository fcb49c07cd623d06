/* Times rounds of a node of the library: two neighbours of a plan's ring, each given what the other one sends.
 *
 *     cc -O2 -Ilibrary bench/library/rounds.c dist/libsdhnode.a -o rounds
 *     ./rounds ROUNDS < PLAN
 *
 * Writes the microseconds of a processor that a round of a node takes, with the copies of both frames, and how long it
 * took to make a node. */
#include <stdio.h>
#include <stdlib.h>
#include <time.h>

#include "sdhnode.h"

static double now(void) {
    struct timespec time;
    clock_gettime(CLOCK_PROCESS_CPUTIME_ID, &time);
    return time.tv_sec * 1e6 + time.tv_nsec / 1e3;
}

int main(int count, char **words) {
    static char plan[1 << 20];
    char why[64] = "";
    size_t length = fread(plan, 1, sizeof plan, stdin);
    int rounds = count > 1 ? atoi(words[1]) : 10000;
    double begun = now();
    sdhnode *west = sdhnode_make(plan, length, 1, why, sizeof why), *east = sdhnode_make(plan, length, 2, why, sizeof why);
    if (west == NULL || east == NULL) return fprintf(stderr, "%s\n", why), 1;
    double made = now();
    for (int round = 0; round < rounds; round++) {
        if (round > 0) {
            sdhnode_receive(west, SDHNODE_EAST, sdhnode_frame(east, SDHNODE_WEST));
            sdhnode_receive(west, SDHNODE_WEST, sdhnode_frame(east, SDHNODE_EAST));
            sdhnode_receive(east, SDHNODE_WEST, sdhnode_frame(west, SDHNODE_EAST));
            sdhnode_receive(east, SDHNODE_EAST, sdhnode_frame(west, SDHNODE_WEST));
        }
        if (sdhnode_round(west) || sdhnode_round(east)) return 1;
    }
    printf("%.1f us a round, %.0f us to make a node, frames of %zu bytes\n", (now() - made) / rounds / 2, (made - begun) / 2, sdhnode_frame_size(west));
    fputs(sdhnode_lines(east), stdout);
    sdhnode_free(west);
    sdhnode_free(east);
    return 0;
}
