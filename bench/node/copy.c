/* The least that a program has to do that stands in a node's place over pipes, round by round: it reads HEAD bytes first. Then, ROUNDS
   times, it reads a line of LINE bytes and two frames of FRAME bytes each, one after the other, and writes OUT bytes. bench/node/pipe
   measures it beside sdhnode. Ends with 3 where the input is short, and with 4 where a write fails. */
#include <stdio.h>
#include <stdlib.h>
#include <unistd.h>

static void take(char *to, size_t count) {
    for (size_t at = 0; at < count;) {
        ssize_t got = read(STDIN_FILENO, to + at, count - at);
        if (got <= 0) exit(3);
        at += (size_t)got;
    }
}

static void put(const char *from, size_t count) {
    for (size_t at = 0; at < count;) {
        ssize_t sent = write(STDOUT_FILENO, from + at, count - at);
        if (sent <= 0) exit(4);
        at += (size_t)sent;
    }
}

int main(int count, char **words) {
    if (count != 6) {
        fputs("usage: copy HEAD LINE FRAME ROUNDS OUT < STREAM\n", stderr);
        return 2;
    }
    size_t size[5];
    for (int k = 0; k < 5; k++) size[k] = strtoul(words[k + 1], NULL, 10);
    size_t head = size[0], line = size[1], frame = size[2], rounds = size[3], out = size[4];
    char *room = calloc(head + line + 2 * frame + out, 1);
    if (room == NULL) return 70;
    take(room, head);
    for (size_t done = 0; done < rounds; done++) {
        take(room, line);
        take(room, frame);
        take(room + frame, frame);
        put(room, out);
    }
    return 0;
}
