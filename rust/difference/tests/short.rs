//! A short run of a fixed seed, which has to reach every refusal that 01 allows.

use difference::compare::Comparer;
use difference::generate;
use difference::random::Random;

const SEED: u64 = 20_250_101;
const ROUNDS: u64 = 3200;

#[test]
fn library_and_reference_agree() {
    let mut comparer = Comparer::default();
    for number in 0..ROUNDS {
        if let Err(disagreement) = difference::round(&mut comparer, SEED, number) {
            panic!("{}\nagain with `difference {SEED} 0 {number}`", disagreement.head());
        }
    }
    println!("{}", comparer.reached);
    assert_eq!(comparer.reached.gaps(), [], "calls that never gave a refusal that 01 lets them give");
}

#[test]
fn the_largest_sheet_is_reached() {
    for seed in 0..20 {
        let sheet = generate::full(8, &mut Random::new(seed)).words();
        assert_eq!(sheet.len(), 30_224);
        assert_eq!(reference::check(&sheet).refusal, 0);
    }
}
