/* Sets up a book of two ports, registers two announces of one master at port 1, decides, and prints what was decided. */
#include "rillarch.h"

#include <inttypes.h>
#include <stdio.h>
#include <stdlib.h>

/* A struct of words as a slice: where it stands, and how many words it has. */
#define WORDS(block) (uint64_t *)&(block), sizeof(block) / sizeof(uint64_t)

#define FRAME_BYTES 64

/* A second, in units of 2^-16 ns. */
#define SECOND (UINT64_C(1000000000) << 16)

static const char *const names[] = {"stay", "M1", "M2", "M3", "P1", "P2", "S1"};

/* Ends the program where a call was turned away. */
static void expect_done(const char *call, uint32_t number)
{
    if (number == RILLARCH_DONE)
        return;
    fprintf(stderr, "decide: %s is refused %" PRIu32 "\n", call, number);
    exit(1);
}

/* The announce of clock 1, port 1, which is its own grandmaster. */
static void announce(uint8_t frame[FRAME_BYTES], uint16_t sequence)
{
    static const uint8_t plain[FRAME_BYTES] = {
        0x0B, 0x02, 0x00, FRAME_BYTES, /* type, version, length */
        [27] = 0x01, [29] = 0x01,      /* sender: clock, port */
        [32] = 0x05,                   /* control */
        [47] = 0x80,                   /* priority 1 */
        0x06, 0x20, 0x4E, 0x5D,        /* class, accuracy, variance */
        0x80,                          /* priority 2 */
        [60] = 0x01,                   /* grandmaster */
        [63] = 0x20,                   /* time source */
    };
    for (size_t i = 0; i < FRAME_BYTES; i++)
        frame[i] = plain[i];
    frame[30] = (uint8_t)(sequence >> 8);
    frame[31] = (uint8_t)sequence;
}

/* What is recommended to a port, and whose time that means. */
static void print_port(unsigned port, uint64_t state, const struct rillarch_announce *message)
{
    printf("port %u: %s", port, names[state]);
    if (state == RILLARCH_M1 || state == RILLARCH_M2)
        printf(", our own clock");
    if (state >= RILLARCH_M3) {
        uint64_t steps = message->steps_removed + 1;
        printf(", grandmaster %016" PRIX64 ", %" PRIu64 " step%s away", message->grandmaster, steps, steps == 1 ? "" : "s");
    }
    putchar('\n');
}

int main(void)
{
    const uint64_t intervals[] = {SECOND, SECOND};
    const uint64_t listed[] = {0}; /* not looked at: any master is acceptable */
    uint64_t words = rillarch_store_words();
    uint64_t *store = calloc(words, sizeof *store);
    if (store == NULL) {
        fputs("decide: no memory for the store\n", stderr);
        return 1;
    }
    expect_done("rillarch_fresh_start", rillarch_fresh_start(store, words, 0x0A, 1, listed, 0, intervals, 2));

    for (uint16_t sequence = 1; sequence <= 2; sequence++) {
        uint8_t frame[FRAME_BYTES];
        struct rillarch_tallies tallies;
        announce(frame, sequence);
        expect_done("rillarch_register", rillarch_register(store, words, 1, frame, FRAME_BYTES, WORDS(tallies)));
    }

    /* Our own priority 1, class, accuracy, variance and priority 2; no port listens. */
    struct rillarch_decision decision;
    expect_done("rillarch_decide", rillarch_decide(store, words, 0x80, 0xF8, 0xFE, 0xFFFF, 0x80, 0, WORDS(decision)));

    for (unsigned port = 1; port <= decision.count; port++)
        print_port(port, decision.ports[port - 1].state, &decision.ports[port - 1].message);
    printf("%" PRIu64 " evicted, %" PRIu64 " aged out, %" PRIu64 " consumed\n", decision.tallies.evicted,
           decision.tallies.aged_out, decision.tallies.consumed);
    free(store);
    return 0;
}
