/* The C side of the library: the proved program runs on a stack of its own, and these functions are its standard input
 * and output, and give it its words. It reads a record, answers it, and goes on to read the next one. Where that isn't
 * there yet, the caller goes on. The program's `main`, `read`, `write` and so on have the names that stand here when the
 * library is put together. */
#define _GNU_SOURCE
#include "sdhnode.h"

#include <stdio.h>
#include <stdlib.h>
#include <string.h>
#include <sys/mman.h>
#include <sys/types.h>
#include <ucontext.h>
#include <unistd.h>

enum {
    STACK = 1 << 23,     /* bytes, as the system gives a program; only what is used is there */
    GUARD = 1 << 16,     /* bytes below the stack that nobody may touch */
    LARGEST = 38880,     /* bytes of a frame */
    LINES = 12448,       /* bytes of the lines of an answer */
    PORTS = 128,
    RECORD = 128,        /* bytes of a record's line, a name of any length cut off */
    MEMORY = 70          /* the program's status where memory ran out */
};

/* A part of what the program is still to read. */
struct part {
    const char *at;
    size_t left;
};

struct sdhnode {
    ucontext_t caller, program;
    char *stack;
    unsigned id;
    int has_ended, status;
    struct part parts[4]; /* what the program reads next, one after the other */
    const uint8_t *frames;
    size_t frame_size, frames_size;
    uint8_t came[2][LARGEST];
    int kind[2]; /* 0 none, 1 dark, 2 frame */
    char line[RECORD], lines[LINES + 1], said[RECORD];
    sdhnode_shown shown;
    sdhnode_port ports[PORTS];
    size_t port_count;
};

/* The proved program: reads its stream, and returns its status. */
int sdhnode_main(void);

static _Thread_local sdhnode *running;

/* -- the program's side */

/* Gives the program what is there of its stream. Where nothing is, its caller goes on until something is; at the end of
 * the stream nothing is any more. */
ssize_t sdhnode_give(int descriptor, void *room, size_t most) {
    sdhnode *node = running;
    (void)descriptor;
    for (int again = 0; again < 2; again++) {
        for (struct part *part = node->parts; part < node->parts + 4; part++) {
            size_t count = part->left < most ? part->left : most;
            if (count == 0) continue;
            memcpy(room, part->at, count);
            part->at += count, part->left -= count;
            return count;
        }
        if (again == 0) swapcontext(&node->program, &node->caller);
        node = running;
    }
    return 0;
}

static void keep_text(char *room, size_t size, const char *text, size_t length) {
    if (length > size - 1) length = size - 1;
    memcpy(room, text, length);
    room[length] = 0;
}

/* Takes what the program writes: the answer to a round, which stays where it is, or its last line. */
ssize_t sdhnode_take(int descriptor, const void *bytes, size_t count) {
    sdhnode *node = running;
    const char *text = bytes, *mark = memmem(bytes, count, "\nbytes ", 7);
    if (descriptor != STDOUT_FILENO) return count;
    if (mark == NULL) {
        keep_text(node->said, sizeof node->said, text, count ? count - 1 : 0);
        return count;
    }
    node->frames_size = strtoul(mark + 7, NULL, 10);
    node->frames = (const uint8_t *)bytes + count - node->frames_size;
    keep_text(node->lines, sizeof node->lines, text, mark + 1 - text);
    return count;
}

/* The same, by the C library's other name. */
ssize_t sdhnode_write(int descriptor, const void *bytes, size_t count) { return sdhnode_take(descriptor, bytes, count); }

/* Gives the program a word: its own name, the identifier, or `frames`. Returns the word's length, -1 where there is none,
 * or -2 where there is too little room. */
ssize_t sdhnode_word_of(size_t number, char *room, size_t most) {
    char id[4];
    snprintf(id, sizeof id, "%u", running->id);
    const char *words[] = {"sdhnode", id, "frames"};
    if (number > 2) return -1;
    size_t length = strlen(words[number]);
    if (length > most) return -2;
    memcpy(room, words[number], length);
    return length;
}

/* The program asks for no signals here: they are its caller's. */
void *sdhnode_signal(int number, void *handler) {
    (void)number;
    return handler;
}

static void serve(unsigned low, unsigned high) {
    sdhnode *node = (sdhnode *)((uintptr_t)high << 32 | low);
    node->status = sdhnode_main();
    node->has_ended = 1;
}

/* -- the caller's side */

/* Lets the program go on until it wants more than there is, or ends. */
static int go_on(sdhnode *node) {
    sdhnode *before = running;
    if (node->has_ended) return SDHNODE_ENDED;
    running = node;
    swapcontext(&node->caller, &node->program);
    running = before;
    memset(node->parts, 0, sizeof node->parts);
    return node->has_ended ? SDHNODE_ENDED : SDHNODE_OK;
}

static void put(sdhnode *node, int number, const void *bytes, size_t count) {
    node->parts[number].at = bytes;
    node->parts[number].left = count;
}

static int tell(sdhnode *node) {
    put(node, 0, node->line, strlen(node->line));
    return go_on(node);
}

static int begin(sdhnode *node) {
    uintptr_t at = (uintptr_t)node;
    const int how = MAP_PRIVATE | MAP_ANONYMOUS | MAP_STACK | MAP_NORESERVE;
    char *stack = mmap(NULL, STACK + GUARD, PROT_READ | PROT_WRITE, how, -1, 0);
    if (stack == MAP_FAILED) return -1;
    node->stack = stack;
    if (mprotect(stack, GUARD, PROT_NONE) || getcontext(&node->program)) return -1;
    node->program.uc_stack.ss_sp = node->stack + GUARD;
    node->program.uc_stack.ss_size = STACK;
    node->program.uc_link = &node->caller;
    makecontext(&node->program, (void (*)(void))serve, 2, (unsigned)at, (unsigned)(at >> 32));
    return 0;
}

static void give_back(sdhnode *node) {
    if (node->stack != NULL) munmap(node->stack, STACK + GUARD);
    free(node);
}

/* Ends the program, so that another one can begin. */
static void end(sdhnode *node) {
    go_on(node);
    munmap(node->stack, STACK + GUARD);
    node->stack = NULL;
}

/* Begins the node of a plan: the program reads the plan and waits for the first record. */
static int begin_with(sdhnode *node, const char *plan, size_t length) {
    static const char mark[] = "\nend of plan\n";
    node->has_ended = 0;
    if (begin(node) != 0) {
        node->has_ended = 1, node->status = MEMORY;
        return SDHNODE_ENDED;
    }
    put(node, 0, plan, length);
    put(node, 1, mark, sizeof mark - 1);
    return go_on(node);
}

/* Learns from the answer to a round how long frames are, of a node that is ended then. */
static int learn(sdhnode *node, const char *plan, size_t length) {
    if (begin_with(node, plan, length) != SDHNODE_OK || sdhnode_round(node) != SDHNODE_OK) return SDHNODE_ENDED;
    node->frame_size = node->frames_size / 2;
    end(node);
    node->lines[0] = node->said[0] = 0;
    memset(&node->shown, 0, sizeof node->shown);
    return begin_with(node, plan, length);
}

sdhnode *sdhnode_make(const char *plan, size_t length, unsigned id, char *why, size_t room) {
    sdhnode *node = id > 15 ? NULL : calloc(1, sizeof *node);
    const char *said = id > 15 ? "no such node" : "out of memory";
    if (room) why[0] = 0;
    if (node != NULL) {
        node->id = id;
        if (learn(node, plan, length) == SDHNODE_OK) return node;
        if (node->status != MEMORY) said = node->said;
    }
    if (room) keep_text(why, room, said, strlen(said));
    if (node != NULL) give_back(node);
    return NULL;
}

void sdhnode_free(sdhnode *node) {
    if (node == NULL) return;
    end(node);
    give_back(node);
}

static const char *const sides[] = {"west", "east"};

int sdhnode_command(sdhnode *node, int side, int command) {
    static const char *const names[] = {"clear", "manual", "forced"};
    snprintf(node->line, RECORD, "%s %s\n", names[command], sides[side]);
    return tell(node);
}

int sdhnode_hold(sdhnode *node, unsigned rounds) {
    snprintf(node->line, RECORD, "hold %u\n", rounds);
    return tell(node);
}

int sdhnode_moment(sdhnode *node, uint32_t moment) {
    snprintf(node->line, RECORD, "moment %lu\n", (unsigned long)moment);
    return tell(node);
}

int sdhnode_slip(sdhnode *node, const char *name, int turn, unsigned count) {
    snprintf(node->line, RECORD, "slip %.64s %s %u\n", name, turn == SDHNODE_UP ? "up" : "down", count);
    return tell(node);
}

size_t sdhnode_frame_size(const sdhnode *node) { return node->frame_size; }

void sdhnode_receive(sdhnode *node, int side, const uint8_t *frame) {
    memcpy(node->came[side], frame, node->frame_size);
    node->kind[side] = 2;
}

void sdhnode_dark(sdhnode *node, int side) { node->kind[side] = 1; }

/* -- what an answer says */

static sdhnode_word word_in(const char *one, const char *two) {
    sdhnode_word word = {one[0] != '-', 0, 0};
    if (word.is_there) word.k1 = strtoul(one, NULL, 16), word.k2 = strtoul(two, NULL, 16);
    return word;
}

static int number_of(const char *word, const char *const *words, const int *numbers, int count) {
    for (int at = 0; at < count; at++)
        if (strcmp(word, words[at]) == 0) return numbers[at];
    return -1;
}

/* Reads the first line of an answer: `round R node ID STATE far F west K K east K K heard K K K K asks C C`. */
static void read_shown(sdhnode *node) {
    static const char *const states[] = {"idle", "pass", "switch-west", "switch-east", "isolated"};
    static const char *const codes[] = {"nr", "rr", "wtr", "ms", "sd", "sf", "fs"};
    static const int state_numbers[] = {0, 1, 2, 3, 4}, code_numbers[] = {0, 1, 5, 6, 8, 11, 13};
    char words[21][16] = {{0}};
    int at = 0;
    for (const char *from = node->lines; at < 21; at++) {
        size_t length = strcspn(from, " \n");
        keep_text(words[at], sizeof words[at], from, length);
        if (from[length] != ' ') break;
        from += length + 1;
    }
    sdhnode_shown *shown = &node->shown;
    shown->round = strtoull(words[1], NULL, 10);
    shown->state = number_of(words[4], states, state_numbers, 5);
    shown->far = words[6][0] == '-' ? -1 : atoi(words[6]);
    for (int side = 0; side < 2; side++) {
        shown->sent[side] = word_in(words[8 + 3 * side], words[9 + 3 * side]);
        shown->heard[side] = word_in(words[14 + 2 * side], words[15 + 2 * side]);
        shown->asks[side] = number_of(words[19 + side], codes, code_numbers, 7);
    }
}

/* Reads the line of a port: `port NAME END ais` or `port NAME END norm V HEX`. */
static void read_port(sdhnode_port *port, const char *line) {
    char hex[33] = "", byte[3] = "";
    int read = sscanf(line, "port %16s %c norm %u %32s", port->name, &port->end, &port->value, hex);
    port->is_ais = read < 4;
    if (port->is_ais) port->value = 0;
    for (int at = 0; at < 16; at++) {
        memcpy(byte, hex + 2 * at, port->is_ais ? 0 : 2);
        port->front[at] = strtoul(byte, NULL, 16);
    }
}

static void read_answer(sdhnode *node) {
    const char *line = node->lines;
    read_shown(node);
    node->port_count = 0;
    while ((line = strchr(line, '\n')) != NULL && *++line && node->port_count < PORTS)
        read_port(&node->ports[node->port_count++], line);
}

int sdhnode_round(sdhnode *node) {
    static const char *const kinds[] = {"none", "dark", "frame"};
    snprintf(node->line, RECORD, "round %s %s\n", kinds[node->kind[0]], kinds[node->kind[1]]);
    put(node, 0, node->line, strlen(node->line));
    for (int side = 0; side < 2; side++)
        put(node, 1 + side, node->came[side], node->kind[side] == 2 ? node->frame_size : 0);
    node->kind[0] = node->kind[1] = 0;
    if (go_on(node) != SDHNODE_OK) return SDHNODE_ENDED;
    read_answer(node);
    return SDHNODE_OK;
}

const uint8_t *sdhnode_frame(const sdhnode *node, int side) { return node->frames + side * node->frame_size; }

void sdhnode_send(const sdhnode *node, int side, uint8_t *room) {
    memcpy(room, sdhnode_frame(node, side), node->frame_size);
}

const sdhnode_shown *sdhnode_show(const sdhnode *node) { return &node->shown; }
size_t sdhnode_ports(const sdhnode *node) { return node->port_count; }
const sdhnode_port *sdhnode_deliver(const sdhnode *node, size_t number) { return &node->ports[number]; }
const char *sdhnode_lines(const sdhnode *node) { return node->lines; }
const char *sdhnode_said(const sdhnode *node) { return node->said; }
