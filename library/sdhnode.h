/* One node of a ring, from C: an add-drop multiplexer of a two-fibre MS-SPRing (after ITU-T G.841), STM-4 or STM-16.
 *
 * The node is the proved program `sdhnode`, with these functions in place of its standard input and output. So it
 * refuses what that refuses, and the lines and frames of a round are those that `sdhnode ID frames` writes for the same
 * records (BENCH.md). What a node does with what arrives is NODE.md.
 *
 *     sdhnode *node = sdhnode_make(plan, strlen(plan), 2, why, sizeof why);
 *     sdhnode_receive(node, SDHNODE_WEST, frame);
 *     sdhnode_round(node);
 *     send(sdhnode_frame(node, SDHNODE_EAST), sdhnode_frame_size(node));
 *
 * All memory is taken in sdhnode_make, and given back in sdhnode_free: what `malloc` gives, and a stack of its own from
 * `mmap`. Nodes know nothing of each other. A node is used by one thread at a time, and not from a signal handler.
 * Where a function requires something of its arguments, its comment says so, and nothing checks it unless the comment
 * says what then happens. `node` is always one that sdhnode_make returned and that wasn't freed. */
#ifndef SDHNODE_H
#define SDHNODE_H

#include <stddef.h>
#include <stdint.h>

#ifdef __cplusplus
extern "C" {
#endif

typedef struct sdhnode sdhnode;

enum { SDHNODE_WEST = 0, SDHNODE_EAST = 1 };

/* What a function returns. */
enum {
    SDHNODE_OK = 0,
    SDHNODE_ENDED = 1 /* the node has ended, since something that it was given can't be done: sdhnode_said says what */
};

/* Commands, and turns of a clock. */
enum { SDHNODE_CLEAR = 0, SDHNODE_MANUAL = 1, SDHNODE_FORCED = 2 };
enum { SDHNODE_DOWN = 0, SDHNODE_UP = 1 };

/* States. */
enum {
    SDHNODE_IDLE = 0,
    SDHNODE_PASS = 1,
    SDHNODE_SWITCH_WEST = 2,
    SDHNODE_SWITCH_EAST = 3,
    SDHNODE_ISOLATED = 4
};

/* A word: the bytes K1 and K2, or none. */
typedef struct {
    int is_there;
    uint8_t k1, k2;
} sdhnode_word;

/* What a node shows after a round. Arrays have west first. */
typedef struct {
    uint64_t round;        /* 0 in the first */
    int state;             /* SDHNODE_IDLE and so on */
    int far;               /* the identifier of the far end, or -1 */
    sdhnode_word sent[2];  /* the word that leaves on each side */
    sdhnode_word heard[2]; /* the word that is heard on each side */
    int asks[2];           /* what each side asks for: 0, or 5, 6, 8, 11 or 13, which are WTR, MS, SD, SF and FS */
} sdhnode_shown;

/* What a port delivers in a round. */
typedef struct {
    char name[17]; /* the circuit */
    char end;      /* 'a' or 'b' */
    int is_ais;
    unsigned value;    /* the pointer value, where it isn't AIS */
    uint8_t front[16]; /* the first bytes of the AU-4's payload, where it isn't AIS */
} sdhnode_port;

/* Makes the node with identifier `id` of a plan, before any round. Returns NULL where there is none: `why` then has the
 * line that `sdhnode` ends with, such as `bad plan 13 at 2`, `no such node`, or `out of memory`.
 * Requires: `plan` has `length` bytes. `why` has room for `room` bytes, and may be NULL where `room` is 0. */
sdhnode *sdhnode_make(const char *plan, size_t length, unsigned id, char *why, size_t room);

/* Ends a node and gives its memory back. Does nothing with NULL. */
void sdhnode_free(sdhnode *node);

/* Gives a side a command, in place of the one that it had.
 * Requires: `side` is SDHNODE_WEST or SDHNODE_EAST, `command` one of the three. */
int sdhnode_command(sdhnode *node, int side, int command);

/* Lets the controller miss its turn in the next rounds, in place of those left. Other numbers than 1 to 100 end it. */
int sdhnode_hold(sdhnode *node, unsigned rounds);

/* Says what moment it is: at most 1,000,000,000, and not below the one before, or the node ends. It is 0 at first. */
int sdhnode_moment(sdhnode *node, uint32_t moment);

/* Lets the clock of the customer at the node's port of a circuit slip, `count` times more. The node ends where it has
 * no such port, with other counts than 1 to 16, and where more than 16 slips would wait.
 * Requires: `name` is a string, `turn` is SDHNODE_UP or SDHNODE_DOWN. */
int sdhnode_slip(sdhnode *node, const char *name, int turn, unsigned count);

/* The number of bytes of a frame: 9,720 or 38,880. */
size_t sdhnode_frame_size(const sdhnode *node);

/* What came on a side since the last round, for the next one: a frame, which is copied, or nothing any more (dark).
 * What is given last counts. Where neither is called before a round, nothing is known of the side, as in a ring's first
 * round (`none`).
 * Requires: `side` is SDHNODE_WEST or SDHNODE_EAST, `frame` has sdhnode_frame_size bytes, as they are on the line. */
void sdhnode_receive(sdhnode *node, int side, const uint8_t *frame);
void sdhnode_dark(sdhnode *node, int side);

/* Runs a round over what came. */
int sdhnode_round(sdhnode *node);

/* The frame that leaves on a side, as it is on the line. It stays as it is up to the next sdhnode_round.
 * Requires: a round has run. `side` is SDHNODE_WEST or SDHNODE_EAST. */
const uint8_t *sdhnode_frame(const sdhnode *node, int side);

/* Copies it. Requires besides: `room` has sdhnode_frame_size bytes. */
void sdhnode_send(const sdhnode *node, int side, uint8_t *room);

/* What the node showed in the last round. Requires: a round has run. */
const sdhnode_shown *sdhnode_show(const sdhnode *node);

/* The number of the node's ports, in the order of the plan's circuits, and what one of them delivered in the last
 * round. Requires: a round has run. `number` is below sdhnode_ports. */
size_t sdhnode_ports(const sdhnode *node);
const sdhnode_port *sdhnode_deliver(const sdhnode *node, size_t number);

/* The lines of the last round, as `sdhnode ID lines` writes them, or none before the first one. */
const char *sdhnode_lines(const sdhnode *node);

/* The line with which the node ended, such as `bad record 27 at 4`, or an empty one. */
const char *sdhnode_said(const sdhnode *node);

#ifdef __cplusplus
}
#endif

#endif
