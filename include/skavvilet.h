/*
 * Skavvilet: the loss recovery of a QUIC sender, for hosts in C and C++.
 *
 * Link libhost.a (x86-64-v2, System V ABI). It calls nothing but memcpy and its like, allocates nothing,
 * has no state of its own and gets by with 16 kB of stack.
 *
 * The record. A host holds one skavvilet_connection for each connection and lends it to each call.
 * The record is numbers and nothing else: no pointer stands in it and nothing outside belongs to it.
 * Between two calls it may be copied with = or memcpy, kept as a checkpoint, moved, or dropped without
 * a farewell. It has 55,960 bytes: keep it off small stacks.
 *
 * Threads. One connection, one thread at a time. Calls on different records need no lock.
 *
 * Units. Moments and spans are whole nanoseconds, 0 to 2^53 - 1 (104 days). The host chooses where
 * moment 0 lies, say where the connection began. An ack's delay alone is in microseconds, as the frame
 * has it once its exponent is applied. Sizes and windows are bytes.
 *
 * Refusals. Every event answers 0, accepted, or the number of its refusal (SKAVVILET_REFUSED_*). A
 * refused event has changed nothing. No call crashes, whatever numbers stand in the record and in the
 * arguments; the pointers must be good: `c` points to a whole record, `ranges` to `range_words` words
 * (to anything, NULL too, if that is 0).
 *
 * A host's turn:
 *   - on_packet_sent for each packet that goes out, on_ack_received for each ACK frame that comes in;
 *   - at values.loss_timer, on_loss_detection_timeout;
 *   - after each of them, next_acked_frame and next_lost_frame until they give handle 0: a queue that
 *     nobody empties fills up, and then events are refused with 6;
 *   - send while skavvilet_readouts(c->values).cwnd_available allows.
 * examples/c/rollback.c is a small one.
 *
 * Every function below is proved to do what its definition says, for every record and every argument;
 * docs/READING.md says where the definitions stand. This header is not proved: tests hold its sizes,
 * offsets and numbers to the library's (rust/test).
 */
#ifndef SKAVVILET_H
#define SKAVVILET_H

#include <stddef.h>
#include <stdint.h>

#ifdef __cplusplus
extern "C" {
#endif

/* ---- numbers ---- */

/* What an event answers. If several apply, the first of this list is given; of a full queue (6) and 7,
   the one that is reached first. */
enum {
    SKAVVILET_ACCEPTED = 0,
    /* `now` lies before that of the last accepted event, or past 2^53 - 1 */
    SKAVVILET_REFUSED_CLOCK = 1,
    /* a space, size, packet number, setting or datagram size outside its range; a PMTUD probe that is
       not in flight; a record that was never begun */
    SKAVVILET_REFUSED_DOMAIN = 2,
    /* a packet number not above the last one sent in its space, even if that was discarded since */
    SKAVVILET_REFUSED_NUMBER = 3,
    /* ranges: none, an odd count of words, more than 64, a start that is not below its end, an end
       above 2^62, or a start that is not above the end before it */
    SKAVVILET_REFUSED_RANGES = 4,
    /* a range holds the skipped number: the peer acknowledges what was never sent */
    SKAVVILET_REFUSED_SKIPPED = 5,
    /* 256 records stand in the space already, or a queue would pass 256 handles */
    SKAVVILET_REFUSED_FULL = 6,
    /* an ack's delay, a moment, span, sum, product or count would pass 2^53 - 1, the PTO count
       2^32 - 1, or the window 2^30 */
    SKAVVILET_REFUSED_TOO_LARGE = 7
};

/* Packet number spaces. */
enum { SKAVVILET_INITIAL = 0, SKAVVILET_HANDSHAKE = 1, SKAVVILET_APPLICATION = 2 };

/* Bits of a packet's flags; others are ignored. A PMTUD probe must be in flight. */
enum {
    SKAVVILET_ACK_ELICITING = 1,
    SKAVVILET_IN_FLIGHT = 2,
    SKAVVILET_HAS_DATA = 4,
    SKAVVILET_PMTUD_PROBE = 8
};

/* Bits of the handshake's status, as it is when the event happens; others are ignored. */
enum {
    SKAVVILET_HAS_HANDSHAKE_KEYS = 1,
    SKAVVILET_PEER_VERIFIED_ADDRESS = 2,
    SKAVVILET_COMPLETED = 4
};

/* No packet number was skipped. */
#define SKAVVILET_NONE_SKIPPED UINT64_MAX

/* Most records of a space and most handles of a queue; most ranges of an ack; a record's words. */
enum { SKAVVILET_CAPACITY = 256, SKAVVILET_MOST_RANGES = 64, SKAVVILET_WORDS = 6912 };

/* ---- the record ---- */

/* A moment, or none: 0 in `set` says none. */
typedef struct {
    uint64_t set;
    uint64_t ns;
} skavvilet_time;

/* A packet number, or none. */
typedef struct {
    uint64_t set;
    uint64_t number;
} skavvilet_number;

/* One packet number space. */
typedef struct {
    uint64_t head;     /* slot of the oldest record in the words, 0 to 255 */
    uint64_t len;      /* records that stand: sent, and not yet drained */
    uint64_t acked;    /* handles that wait for next_acked_frame */
    uint64_t lost_ack; /* handles of lost packets that wait for next_lost_frame */
    uint64_t lost_pto; /* handles that a timeout wants sent again; they come after those */
    skavvilet_time time_of_last_ack_eliciting_packet; /* of those in flight */
    skavvilet_number largest_acked_packet;
    skavvilet_time loss_time; /* when its next packet can be lost by time */
    uint64_t loss_probes;     /* probes to be sent, whatever the window says: 0 to 2 */
    uint64_t in_flight_count; /* packets in flight */
    skavvilet_number largest_sent_packet;
} skavvilet_space;

/* Round-trip estimates, nanoseconds. */
typedef struct {
    uint64_t latest_rtt;           /* 0 before a sample */
    uint64_t min_rtt;              /* smallest sample; before one it is the initial RTT */
    uint64_t max_rtt;              /* largest sample; likewise */
    uint64_t smoothed_rtt;         /* likewise */
    uint64_t rttvar;               /* half the initial RTT before a sample */
    uint64_t has_first_rtt_sample; /* 0: no sample yet */
    uint64_t max_ack_delay;        /* as set at the start */
} skavvilet_rtt;

/* CUBIC's own values: windows in bytes, k in seconds. */
typedef struct {
    double k;
    double w_max;
    double w_est;
    double alpha_aimd;
    uint64_t cwnd_inc; /* bytes that wait to be added to the window */
} skavvilet_cubic;

/* What a rollback restores: the controller before the latest recovery period; and the lost count of
   then, which it does not. */
typedef struct {
    uint64_t congestion_window;
    uint64_t ssthresh;
    double w_max;
    double k;
    skavvilet_time epoch_start; /* the recovery start of then */
    uint64_t lost_count;
} skavvilet_prior;

/* The congestion controller. */
typedef struct {
    uint64_t congestion_window; /* bytes, at most 2^30 */
    uint64_t ssthresh;          /* bytes; 2^64 - 1 before the first loss */
    uint64_t bytes_acked_sl;    /* acked in slow start since the window last grew */
    skavvilet_time congestion_recovery_start_time;
    uint64_t lost_count; /* packets declared lost, PMTUD probes apart */
    skavvilet_cubic cubic;
    skavvilet_prior prior;
    uint64_t max_datagram_size; /* as set at the start: a size change leaves it */
    uint64_t initial_window_packets;
} skavvilet_congestion;

/* All that a connection keeps beside its words. A host may read every field and should write none. */
typedef struct {
    uint64_t seal; /* skavvilet_begin writes it; a record without it refuses every event with 2 */
    skavvilet_space initial;
    skavvilet_space handshake;
    skavvilet_space application;
    uint64_t clock;            /* `now` of the last accepted event that had one */
    skavvilet_time loss_timer; /* when on_loss_detection_timeout is due; unset: not at all */
    uint64_t pto_count;        /* timeouts by PTO since something was newly acked */
    skavvilet_rtt rtt;
    uint64_t pkt_thresh;  /* so many numbers below the largest acked is lost: 3 to 20 */
    uint64_t time_thresh; /* so many round trips late is lost: 0 means 9/8, all else 5/4 */
    uint64_t lost_spurious_count; /* packets declared lost and acked after all */
    uint64_t bytes_in_flight;
    uint64_t max_datagram_size;             /* the present one */
    uint64_t outstanding_non_ack_eliciting; /* packets sent in a row that elicit no ack */
    skavvilet_congestion congestion;
} skavvilet_values;

/* A connection. The words are the library's own: for each space 256 records of 6 words (number, time
   sent, size, flags, handle, mark) and three queues of 256 handles. */
typedef struct {
    uint64_t words[SKAVVILET_WORDS];
    skavvilet_values values;
} skavvilet_connection;

/* ---- answers ---- */

/* Beside a refusal everything is 0. */
typedef struct {
    uint64_t refusal;
    uint64_t lost_packets;    /* declared lost by this event, PMTUD probes apart */
    uint64_t lost_bytes;      /* of those, what was in flight */
    uint64_t acked_bytes;     /* newly acked, of what was in flight */
    uint64_t spurious_losses; /* lost before and acked now; 0 if nothing was newly acked */
} skavvilet_ack_answer;

typedef struct {
    uint64_t refusal;
    uint64_t lost_packets;
    uint64_t lost_bytes;
} skavvilet_timeout_answer;

typedef struct {
    uint64_t refusal;
    uint64_t handle; /* 0: the queue is empty */
} skavvilet_take_answer;

/* What is computed from the values and stands in no field. An array has a word for each space. */
typedef struct {
    uint64_t cwnd_available;       /* bytes that may be sent; 2^64 - 1 while a space has probes */
    uint64_t pto_is_too_large;     /* not 0: the PTO passes 2^53 - 1, and `pto` is 0 */
    uint64_t pto;                  /* ns, without max ack delay and without doubling */
    uint64_t should_elicit_ack[3]; /* not 0: the next packet there should elicit an ack */
    uint64_t has_lost_frames[3];   /* not 0: next_lost_frame has a handle there */
} skavvilet_readout;

/* ---- functions ---- */

/* Makes *c a connection to which nothing has happened, whatever stood there before. Refusal 2, and *c
   stays, for a setting outside its range:
     max_datagram_size       1,200 to 65,527 bytes
     initial_window_packets  2 to 100
     initial_rtt             1 ms to 10 s, in nanoseconds; usually 333 ms
     max_ack_delay           0 to 16,383 ms, in nanoseconds; usually 25 ms */
uint64_t skavvilet_begin(skavvilet_connection *c, uint64_t max_datagram_size,
                         uint64_t initial_window_packets, uint64_t initial_rtt,
                         uint64_t max_ack_delay);

/* A packet was sent. number: below 2^62, above the last one of its space. size: 1 to 65,527 bytes.
   handle: what the host calls the packet's frames; 0 for none. Refusals 1, 2, 3, 6, 7. */
uint64_t skavvilet_on_packet_sent(skavvilet_connection *c, uint64_t now, uint64_t space,
                                  uint64_t number, uint64_t size, uint8_t flags, uint64_t handle,
                                  uint8_t status);

/* An ACK frame came in. ranges: starts and ends in turn; a range is without its end; they ascend and
   do not touch. range_words: how many words that is, two for each range. delay: microseconds.
   limited: bit 0 says that the application, not the window, limits sending; other bits are ignored.
   skipped: a packet number left out on purpose, or SKAVVILET_NONE_SKIPPED. Refusals 1, 2, 4 to 7. */
skavvilet_ack_answer skavvilet_on_ack_received(skavvilet_connection *c, uint64_t now, uint64_t space,
                                               const uint64_t *ranges, size_t range_words,
                                               uint64_t delay, uint8_t status, uint8_t limited,
                                               uint64_t skipped);

/* The timer ran out; called earlier it does the same. Refusals 1, 6, 7. */
skavvilet_timeout_answer skavvilet_on_loss_detection_timeout(skavvilet_connection *c, uint64_t now,
                                                             uint8_t status);

/* A space goes with its keys: its records and queues are gone. Refusals 1, 2, 7. */
uint64_t skavvilet_on_pkt_num_space_discarded(skavvilet_connection *c, uint64_t now, uint64_t space,
                                              uint8_t status);

/* From now on the path takes datagrams of this size, 1,200 to 65,527 bytes. The window moves with it
   only while it is still the initial one. Refusals 2, 7. */
uint64_t skavvilet_pmtud_update_max_datagram_size(skavvilet_connection *c, uint64_t size);

/* Takes the newest handle of an acked packet, 0 if there is none. Refusal 2. */
skavvilet_take_answer skavvilet_next_acked_frame(skavvilet_connection *c, uint64_t space);

/* Takes the newest handle to be sent again, 0 if there is none: first those of lost packets, then
   those that a timeout asked for. Refusal 2. */
skavvilet_take_answer skavvilet_next_lost_frame(skavvilet_connection *c, uint64_t space);

/* A probe was sent: one less is to be. Refusal 2. */
uint64_t skavvilet_ping_sent(skavvilet_connection *c, uint64_t space);

/* Reads and changes nothing: skavvilet_readouts(c->values). */
skavvilet_readout skavvilet_readouts(skavvilet_values v);

/* ---- sizes, in bytes ---- */

#if defined(__cplusplus) && __cplusplus >= 201103L
#define SKAVVILET_SIZE(type, size) static_assert(sizeof(type) == (size), #type " has another size")
#elif defined(__STDC_VERSION__) && __STDC_VERSION__ >= 201112L
#define SKAVVILET_SIZE(type, size) _Static_assert(sizeof(type) == (size), #type " has another size")
#else
#define SKAVVILET_SIZE(type, size) extern char type##_has_its_size[sizeof(type) == (size) ? 1 : -1]
#endif

SKAVVILET_SIZE(skavvilet_time, 16);
SKAVVILET_SIZE(skavvilet_number, 16);
SKAVVILET_SIZE(skavvilet_space, 120);
SKAVVILET_SIZE(skavvilet_rtt, 56);
SKAVVILET_SIZE(skavvilet_cubic, 40);
SKAVVILET_SIZE(skavvilet_prior, 56);
SKAVVILET_SIZE(skavvilet_congestion, 160);
SKAVVILET_SIZE(skavvilet_values, 664);
SKAVVILET_SIZE(skavvilet_connection, 55960);
SKAVVILET_SIZE(skavvilet_ack_answer, 40);
SKAVVILET_SIZE(skavvilet_timeout_answer, 24);
SKAVVILET_SIZE(skavvilet_take_answer, 16);
SKAVVILET_SIZE(skavvilet_readout, 72);

#undef SKAVVILET_SIZE

#ifdef __cplusplus
}
#endif

#endif
