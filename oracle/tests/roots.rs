//! The exact root against libm's, where that is built in.

use oracle::exact_root::exact_root;
use oracle::root::Root;

#[test]
fn exact_root_is_the_shipped_one_or_its_neighbour() {
    let Some(shipped) = Root::Shipped.function() else {
        println!("libm is not here: nothing to compare with");
        return;
    };
    let (mut same, mut beside) = (0, 0);
    let mut x = 2f64.powi(-60);
    while x < 2f64.powi(40) {
        let (ours, theirs) = (exact_root(x).to_bits(), shipped(x).to_bits());
        assert!(ours.abs_diff(theirs) <= 1, "{x}");
        same += u64::from(ours == theirs);
        beside += u64::from(ours != theirs);
        x *= 1.000_123_456_789;
    }
    // Rounding down against rounding to nearest: about half differ.
    assert!(same > 100_000 && beside > 100_000, "{same} {beside}");
}
