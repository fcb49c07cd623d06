/* A node from C: answers the stream of BENCH.md on standard input as `sdhnode ID frames` does, through the library.
 * LIBRARY.md has the commands that build it and try it. */
#include <stdio.h>
#include <stdlib.h>
#include <string.h>

#include "sdhnode.h"

static char plan[1 << 20], line[128], name[128];

/* Reads the plan up to the line that ends it; returns its length. */
static size_t read_plan(void) {
    size_t length = 0;
    while (length < sizeof plan - 2 && fgets(plan + length, sizeof plan - length, stdin)) {
        if (strcmp(plan + length, "end of plan\n") == 0) return length;
        length += strlen(plan + length);
    }
    exit(2);
}

/* Gives the node what came on a side. */
static void arrive(sdhnode *node, int side, const char *what) {
    static uint8_t frame[38880];
    if (strcmp(what, "dark") == 0) sdhnode_dark(node, side);
    if (strcmp(what, "frame") == 0) {
        if (fread(frame, 1, sdhnode_frame_size(node), stdin) != sdhnode_frame_size(node)) exit(2);
        sdhnode_receive(node, side, frame);
    }
}

/* Writes the lines of the round, and both frames. */
static void answer(const sdhnode *node) {
    size_t size = sdhnode_frame_size(node);
    printf("%sbytes %zu\n", sdhnode_lines(node), 2 * size);
    fwrite(sdhnode_frame(node, SDHNODE_WEST), 1, size, stdout);
    fwrite(sdhnode_frame(node, SDHNODE_EAST), 1, size, stdout);
    fflush(stdout);
}

/* Does a record. */
static int act(sdhnode *node, const char *record) {
    char west[16], east[16], side[16], turn[16];
    unsigned number;
    if (sscanf(record, "round %15s %15s", west, east) == 2) {
        arrive(node, SDHNODE_WEST, west);
        arrive(node, SDHNODE_EAST, east);
        if (sdhnode_round(node) != SDHNODE_OK) return SDHNODE_ENDED;
        answer(node);
        return SDHNODE_OK;
    }
    if (sscanf(record, "moment %u", &number) == 1) return sdhnode_moment(node, number);
    if (sscanf(record, "hold %u", &number) == 1) return sdhnode_hold(node, number);
    if (sscanf(record, "slip %127s %15s %u", name, turn, &number) == 3)
        return sdhnode_slip(node, name, strcmp(turn, "up") ? SDHNODE_DOWN : SDHNODE_UP, number);
    if (sscanf(record, "%127s %15s", name, side) != 2) return SDHNODE_ENDED;
    int command = name[0] == 'f' ? SDHNODE_FORCED : name[0] == 'm' ? SDHNODE_MANUAL : SDHNODE_CLEAR;
    return sdhnode_command(node, strcmp(side, "west") ? SDHNODE_EAST : SDHNODE_WEST, command);
}

int main(int count, char **words) {
    char why[64];
    size_t length = read_plan();
    sdhnode *node = sdhnode_make(plan, length, count > 1 ? atoi(words[1]) : 16, why, sizeof why);
    if (node == NULL) return puts(why), 1;
    while (fgets(line, sizeof line, stdin))
        if (act(node, line) != SDHNODE_OK) return puts(sdhnode_said(node)), 1;
    sdhnode_free(node);
    return puts("done"), 0;
}
