//! Three declarations of one record: the library's own, the C header's and ours. Nothing but
//! these tests holds them to each other.

use std::fmt::Write as _;
use std::mem::{align_of, offset_of, size_of};
use std::path::Path;
use std::process::Command;

use skavvilet::{sys, Refusal};

/// A struct's name in C, its size and alignment, and its fields with their offsets and sizes.
struct Layout {
    c_name: &'static str,
    size: usize,
    align: usize,
    fields: Vec<(&'static str, usize, usize)>,
}

fn size_of_field<S, F>(_: fn(&S) -> &F) -> usize {
    size_of::<F>()
}

macro_rules! layout {
    ($ours:ident, $c_name:literal, $($field:ident)*) => {
        Layout {
            c_name: $c_name,
            size: size_of::<sys::$ours>(),
            align: align_of::<sys::$ours>(),
            fields: vec![$((
                stringify!($field),
                offset_of!(sys::$ours, $field),
                size_of_field(|s: &sys::$ours| &s.$field),
            ),)*],
        }
    };
}

fn layouts() -> Vec<Layout> {
    vec![
        layout!(TimeValue, "skavvilet_time", set ns),
        layout!(NumberValue, "skavvilet_number", set number),
        layout!(SpaceValues, "skavvilet_space", head len acked lost_ack lost_pto
            time_of_last_ack_eliciting_packet largest_acked_packet loss_time loss_probes
            in_flight_count largest_sent_packet),
        layout!(RttValues, "skavvilet_rtt", latest_rtt min_rtt max_rtt smoothed_rtt rttvar
            has_first_rtt_sample max_ack_delay),
        layout!(CubicValues, "skavvilet_cubic", k w_max w_est alpha_aimd cwnd_inc),
        layout!(PriorValues, "skavvilet_prior", congestion_window ssthresh w_max k epoch_start
            lost_count),
        layout!(CongestionValues, "skavvilet_congestion", congestion_window ssthresh bytes_acked_sl
            congestion_recovery_start_time lost_count cubic prior max_datagram_size
            initial_window_packets),
        layout!(Values, "skavvilet_values", seal initial handshake application clock loss_timer
            pto_count rtt pkt_thresh time_thresh lost_spurious_count bytes_in_flight
            max_datagram_size outstanding_non_ack_eliciting congestion),
        layout!(Connection, "skavvilet_connection", words values),
        layout!(AckAnswer, "skavvilet_ack_answer", refusal lost_packets lost_bytes acked_bytes
            spurious_losses),
        layout!(TimeoutAnswer, "skavvilet_timeout_answer", refusal lost_packets lost_bytes),
        layout!(TakeAnswer, "skavvilet_take_answer", refusal handle),
        layout!(Readouts, "skavvilet_readout", cwnd_available pto_is_too_large pto
            should_elicit_ack has_lost_frames),
    ]
}

/// The header's constants, with what we hold them to be.
fn constants() -> Vec<(&'static str, u64)> {
    vec![
        ("SKAVVILET_ACCEPTED", 0),
        ("SKAVVILET_REFUSED_CLOCK", Refusal::Clock.number()),
        ("SKAVVILET_REFUSED_DOMAIN", Refusal::Domain.number()),
        ("SKAVVILET_REFUSED_NUMBER", Refusal::Number.number()),
        ("SKAVVILET_REFUSED_RANGES", Refusal::Ranges.number()),
        ("SKAVVILET_REFUSED_SKIPPED", Refusal::Skipped.number()),
        ("SKAVVILET_REFUSED_FULL", Refusal::Full.number()),
        ("SKAVVILET_REFUSED_TOO_LARGE", Refusal::TooLarge.number()),
        ("SKAVVILET_INITIAL", 0),
        ("SKAVVILET_HANDSHAKE", 1),
        ("SKAVVILET_APPLICATION", 2),
        ("SKAVVILET_ACK_ELICITING", 1),
        ("SKAVVILET_IN_FLIGHT", 2),
        ("SKAVVILET_HAS_DATA", 4),
        ("SKAVVILET_PMTUD_PROBE", 8),
        ("SKAVVILET_HAS_HANDSHAKE_KEYS", 1),
        ("SKAVVILET_PEER_VERIFIED_ADDRESS", 2),
        ("SKAVVILET_COMPLETED", 4),
        ("SKAVVILET_NONE_SKIPPED", sys::NONE_SKIPPED),
        ("SKAVVILET_CAPACITY", sys::CAPACITY as u64),
        ("SKAVVILET_MOST_RANGES", sys::MOST_RANGES as u64),
        ("SKAVVILET_WORDS", sys::WORDS as u64),
    ]
}

/// What our declarations say, a line a fact.
fn ours() -> String {
    let mut out = String::new();
    for l in layouts() {
        writeln!(out, "{} size {} align {}", l.c_name, l.size, l.align).unwrap();
        for (field, offset, size) in l.fields {
            writeln!(out, "{}.{field} at {offset} size {size}", l.c_name).unwrap();
        }
    }
    for (name, value) in constants() {
        writeln!(out, "{name} {value}").unwrap();
    }
    out
}

/// A C program that prints the same lines from the header.
fn probe() -> String {
    let mut c = String::from(
        "#include <stdio.h>\n#include \"skavvilet.h\"\n\
         #define ALIGN(t) offsetof(struct { char c; t x; }, x)\n\
         int main(void) {\n",
    );
    for l in layouts() {
        let name = l.c_name;
        writeln!(
            c,
            "printf(\"{name} size %zu align %zu\\n\", sizeof({name}), ALIGN({name}));"
        )
        .unwrap();
        for (field, ..) in l.fields {
            writeln!(
                c,
                "printf(\"{name}.{field} at %zu size %zu\\n\", \
                 offsetof({name}, {field}), sizeof((({name} *)0)->{field}));"
            )
            .unwrap();
        }
    }
    for (name, _) in constants() {
        writeln!(c, "printf(\"{name} %llu\\n\", (unsigned long long){name});").unwrap();
    }
    c + "return 0; }\n"
}

#[test]
fn c_and_rust_have_the_same_sizes_offsets_and_constants() {
    let compiler = std::env::var("CC").unwrap_or("cc".to_string());
    if Command::new(&compiler).arg("--version").output().is_err() {
        println!("{compiler} is not here: the header was not compared");
        return;
    }
    let folder = Path::new(env!("CARGO_TARGET_TMPDIR"));
    let (source, program) = (folder.join("probe.c"), folder.join("probe"));
    std::fs::write(&source, probe()).unwrap();
    let include = Path::new(env!("CARGO_MANIFEST_DIR")).join("../../include");
    let built = Command::new(&compiler)
        .args(["-std=c99", "-Wall", "-Wextra", "-Werror", "-I"])
        .arg(include)
        .arg(&source)
        .arg("-o")
        .arg(&program)
        .status();
    assert!(built.unwrap().success(), "the probe does not compile");
    let said = Command::new(&program).output().unwrap().stdout;
    let said = String::from_utf8(said).unwrap();
    for (c, rust) in said.lines().zip(ours().lines()) {
        assert_eq!(c, rust);
    }
    assert_eq!(said, ours());
}

#[test]
fn fields_fill_their_structs_so_none_is_left_out() {
    for l in layouts() {
        let filled: usize = l.fields.iter().map(|f| f.2).sum();
        assert_eq!(filled, l.size, "{}", l.c_name);
    }
}

const MS: u64 = 1_000_000;
const ALL: u8 = 7;
const DATA: u8 = 7;

/// A record begun with settings that are all different numbers.
fn begun() -> Box<sys::Connection> {
    let mut c = sys::Connection::unbegun();
    let refusal = unsafe { sys::skavvilet_begin(&mut *c, 1_234, 7, 123_456_789, 9_876_543) };
    assert_eq!(refusal, 0);
    c
}

/// The library writes what it was given where we read it.
#[test]
fn settings_stand_in_the_fields_that_we_read() {
    let v = begun().values;
    assert_ne!(v.seal, 0);
    assert_eq!(v.congestion.max_datagram_size, 1_234);
    assert_eq!(v.max_datagram_size, 1_234);
    assert_eq!(v.congestion.initial_window_packets, 7);
    assert_eq!(v.congestion.congestion_window, 7 * 1_234);
    assert_eq!(v.congestion.ssthresh, u64::MAX);
    assert_eq!(v.rtt.smoothed_rtt, 123_456_789);
    assert_eq!(v.rtt.min_rtt, 123_456_789);
    assert_eq!(v.rtt.rttvar, 123_456_789 / 2);
    assert_eq!((v.rtt.latest_rtt, v.rtt.has_first_rtt_sample), (0, 0));
    assert_eq!(v.rtt.max_ack_delay, 9_876_543);
    assert_eq!((v.pkt_thresh, v.time_thresh), (3, 0));
    assert_eq!(v.initial, sys::SpaceValues::default());
    assert_eq!(v.loss_timer.get(), None);
}

/// Each space's fields and words, told apart by packets of different numbers.
#[test]
fn spaces_records_and_queues_stand_where_we_say() {
    let mut c = begun();
    for space in 0..3 {
        for number in [10 * space + 1, 10 * space + 2] {
            let now = (space + 1) * MS;
            let (size, handle) = (100 + number, 1_000 + number);
            let sent = unsafe {
                sys::skavvilet_on_packet_sent(&mut *c, now, space, number, size, DATA, handle, ALL)
            };
            assert_eq!(sent, 0);
        }
    }
    let v = c.values;
    for (space, s) in [v.initial, v.handshake, v.application].iter().enumerate() {
        let n = space as u64;
        assert_eq!((s.len, s.in_flight_count), (2, 2));
        assert_eq!(s.largest_sent_packet.get(), Some(10 * n + 2));
        let last = s.time_of_last_ack_eliciting_packet.get();
        assert_eq!(last, Some((n + 1) * MS));
        for k in 0..2 {
            let at = 2_304 * space + 6 * ((s.head as usize + k) % sys::CAPACITY);
            let number = 10 * n + 1 + k as u64;
            let wanted = [
                number,
                (n + 1) * MS,
                100 + number,
                u64::from(DATA),
                1_000 + number,
                0,
            ];
            assert_eq!(c.words[at..at + 6], wanted);
        }
    }
    assert_eq!(v.clock, 3 * MS);
    assert_eq!(v.bytes_in_flight, 101 + 102 + 111 + 112 + 121 + 122);

    // The first packet of Handshake is acked: its handle waits in that space's first queue.
    let answer = unsafe {
        let range = [11, 12];
        let (now, none) = (50 * MS, sys::NONE_SKIPPED);
        sys::skavvilet_on_ack_received(&mut *c, now, 1, range.as_ptr(), 2, 0, ALL, 0, none)
    };
    let wanted = sys::AckAnswer {
        acked_bytes: 111,
        ..Default::default()
    };
    assert_eq!(answer, wanted);
    assert_eq!(c.values.handshake.acked, 1);
    assert_eq!(c.values.handshake.largest_acked_packet.get(), Some(11));
    assert_eq!(c.words[2_304 + 1_536], 1_011);
    let taken = unsafe { sys::skavvilet_next_acked_frame(&mut *c, 1) };
    assert_eq!((taken.refusal, taken.handle), (0, 1_011));

    // A timeout grants a probe in Initial and asks for its first handle once more.
    let answer = unsafe { sys::skavvilet_on_loss_detection_timeout(&mut *c, 60 * MS, ALL) };
    assert_eq!(answer, sys::TimeoutAnswer::default());
    assert_eq!((c.values.pto_count, c.values.initial.loss_probes), (1, 1));
    assert_eq!(c.values.initial.lost_pto, 1);
    assert_eq!(c.words[1_536 + 2 * 256], 1_001);
    let readouts = unsafe { sys::skavvilet_readouts(c.values) };
    assert_eq!(readouts.cwnd_available, u64::MAX);
    assert_eq!(readouts.should_elicit_ack, [1, 0, 0]);
    assert_eq!(readouts.has_lost_frames, [1, 0, 0]);
    // One sample of 48 ms: 48 + 4 × 24.
    assert_eq!((readouts.pto_is_too_large, readouts.pto), (0, 144 * MS));
}

/// The rehearsal of the second loss, just before its rollback; the wanted values are the Rust's
/// (`oracle replay --all` of that trace).
#[test]
fn controller_and_checkpoint_stand_where_we_say() {
    let mut c = sys::Connection::unbegun();
    let refusal = unsafe { sys::skavvilet_begin(&mut *c, 1_200, 10, 333 * MS, 25 * MS) };
    assert_eq!(refusal, 0);
    let none = sys::NONE_SKIPPED;
    let steps: [(u64, u64, u64, bool); 5] = [
        (0, 0, 4, true),
        (100, 3, 4, false),
        (101, 4, 8, true),
        (150, 1, 3, false),
        (201, 7, 8, false),
    ];
    for (ms, first, end, is_send) in steps {
        let (now, range) = (ms * MS, [first, end]);
        if !is_send {
            let answer = unsafe {
                let words = range.as_ptr();
                sys::skavvilet_on_ack_received(&mut *c, now, 2, words, 2, 0, ALL, 0, none)
            };
            assert_eq!(answer.refusal, 0);
            continue;
        }
        for n in first..end {
            let sent =
                unsafe { sys::skavvilet_on_packet_sent(&mut *c, now, 2, n, 1_200, DATA, n, ALL) };
            assert_eq!(sent, 0);
        }
    }
    let g = c.values.congestion;
    assert_eq!((g.congestion_window, g.ssthresh), (5_880, 5_880));
    assert_eq!(g.congestion_recovery_start_time.get(), Some(201 * MS));
    assert_eq!(g.lost_count, 2);
    assert_eq!(g.cubic.w_est, 5_880.0);
    let prior = g.prior;
    assert_eq!((prior.congestion_window, prior.ssthresh), (8_400, 8_400));
    assert_eq!(prior.w_max, 12_000.0);
    assert_eq!(prior.k.to_bits(), 0x3fff_51a6_2037_e955);
    assert_eq!(prior.epoch_start.get(), Some(100 * MS));
    assert_eq!(prior.lost_count, 1);
    assert_eq!(c.values.application.loss_time.get(), Some(213_500_000));
    assert_eq!(c.values.loss_timer.get(), Some(213_500_000));
    assert_eq!(c.values.bytes_in_flight, 2_400);
}
