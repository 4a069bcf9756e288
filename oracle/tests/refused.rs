//! A refused event changes nothing that the oracle holds.

use oracle::cases;
use oracle::event::Event;
use oracle::replay::Player;
use oracle::root::Root;
use oracle::snapshot::{Queues, Record, Snapshot};
use oracle::trace::Reader;

fn everything(player: &Player) -> (Snapshot, Vec<Vec<Record>>, Vec<Queues>, u64) {
    let oracle = &player.oracle;
    let records = (0..3).map(|space| oracle.records(space)).collect();
    let queues = (0..3).map(|space| oracle.queues(space)).collect();
    (oracle.snapshot(), records, queues, oracle.last_now())
}

#[test]
fn every_refusal_of_every_case_leaves_all_as_it_was() {
    Root::Exact.choose().unwrap();
    let mut refused = [0; 8];
    for case in cases::all() {
        let mut player = Player::with_defaults();
        for event in Reader::new(&(case.trace)()).map_while(Result::ok) {
            let before = everything(&player);
            if let Some(Err(refusal)) = player.play(&event) {
                refused[usize::from(refusal.number())] += 1;
                assert!(before == everything(&player), "{}", case.name);
            }
        }
    }
    // Each of the seven numbers was given.
    assert!(refused[1..].iter().all(|&n| n > 0), "{refused:?}");
}

#[test]
fn acked_queue_takes_its_256th_handle_and_no_more() {
    Root::Exact.choose().unwrap();
    let case = cases::named("acked_queue_of_256_handles_is_full").unwrap();
    let mut player = Player::with_defaults();
    let mut longest = 0;
    for event in Reader::new(&(case.trace)()).map_while(Result::ok) {
        player.play(&event);
        longest = longest.max(player.oracle.snapshot().spaces[2].acked_queue);
        assert!(longest <= 256);
    }
    assert_eq!(longest, 256);
}

#[test]
fn taking_from_the_queues_is_last_in_first_out_acked_losses_before_pto() {
    Root::Exact.choose().unwrap();
    let case = cases::named("handles_come_out_last_in_first_out_and_then_0").unwrap();
    let mut player = Player::with_defaults();
    let mut taken = Vec::new();
    for event in Reader::new(&(case.trace)()).map_while(Result::ok) {
        let outcome = player.play(&event);
        if let (Event::TakeAcked(_) | Event::TakeLost(_), Some(Ok(answer))) = (&event, outcome) {
            taken.push(format!("{answer:?}"));
        }
    }
    // Packets 4 and 5 were acked, 0, 1 and 2 lost by number, 3 by time.
    let wanted = [6, 5, 0, 4, 3, 2, 1].map(|handle| format!("Handle({handle})"));
    assert_eq!(taken, wanted);
}
