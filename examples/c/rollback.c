/*
 * A sender loses a packet, loses another a flight later, and takes the second reduction back when it turns out that
 * only one packet was gone: 12,000, 8,400, 5,880 and 8,400 bytes of window. One line a call.
 *
 *   .ci/library
 *   cc -std=c99 -Iinclude examples/c/rollback.c target/staticlib/libhost.a -o rollback && ./rollback
 */
#include <inttypes.h>
#include <stdio.h>
#include <stdlib.h>

#include "skavvilet.h"

#define MS UINT64_C(1000000)
#define COMPLETED (SKAVVILET_HAS_HANDSHAKE_KEYS | SKAVVILET_PEER_VERIFIED_ADDRESS | SKAVVILET_COMPLETED)
#define DATA (SKAVVILET_ACK_ELICITING | SKAVVILET_IN_FLIGHT | SKAVVILET_HAS_DATA)

/* 56 kB: not on the stack. */
static skavvilet_connection connection;

static void must(uint64_t refusal) {
    if (refusal != SKAVVILET_ACCEPTED) {
        printf("refused with %" PRIu64 "\n", refusal);
        exit(1);
    }
}

static void say(const char *what, uint64_t first, uint64_t end, uint64_t lost) {
    const skavvilet_values *v = &connection.values;
    printf("%3" PRIu64 " ms %s %" PRIu64 "..%" PRIu64 ": window %" PRIu64 ", in flight %" PRIu64 ", lost %" PRIu64 ", timer ",
           v->clock / MS, what, first, end, v->congestion.congestion_window, v->bytes_in_flight, lost);
    if (v->loss_timer.set) {
        printf("%" PRIu64 "\n", v->loss_timer.ns);
    } else {
        printf("-\n");
    }
}

/* Packets first to end - 1, 1,200 bytes each; a packet's handle is its number and 1. */
static void sent(uint64_t now, uint64_t first, uint64_t end) {
    for (uint64_t n = first; n < end; n++) {
        must(skavvilet_on_packet_sent(&connection, now, SKAVVILET_APPLICATION, n, 1200, DATA, n + 1, COMPLETED));
        say("sent", n, n + 1, 0);
    }
}

static void acked(uint64_t now, uint64_t first, uint64_t end) {
    const uint64_t range[2] = {first, end};
    skavvilet_ack_answer a = skavvilet_on_ack_received(&connection, now, SKAVVILET_APPLICATION, range, 2, 0, COMPLETED, 0, SKAVVILET_NONE_SKIPPED);
    must(a.refusal);
    say("acked", first, end, a.lost_packets);
}

int main(void) {
    must(skavvilet_begin(&connection, 1200, 10, 333 * MS, 25 * MS));
    sent(0, 0, 4);
    acked(100 * MS, 3, 4); /* 0 is lost, three numbers below 3: a first period */
    sent(101 * MS, 4, 8);
    acked(150 * MS, 1, 3);
    acked(201 * MS, 7, 8); /* 4 is lost: a second period */
    sent(202 * MS, 8, 9);
    acked(210 * MS, 5, 7);
    acked(302 * MS, 8, 9); /* sent after the period began, and one lost in it: rolled back */
    printf("w_max %.0f\n", connection.values.congestion.cubic.w_max);

    skavvilet_take_answer taken;
    while ((taken = skavvilet_next_lost_frame(&connection, SKAVVILET_APPLICATION)).handle != 0) {
        printf("to be sent again: %" PRIu64 "\n", taken.handle);
    }
    must(taken.refusal);

    /* A clock that goes back is refused, and nothing changes. */
    uint64_t refusal = skavvilet_on_packet_sent(&connection, 301 * MS, SKAVVILET_APPLICATION, 9, 1200, DATA, 10, COMPLETED);
    printf("refused with %" PRIu64 ", in flight %" PRIu64 "\n", refusal, connection.values.bytes_in_flight);
    return 0;
}
