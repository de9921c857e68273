// The bids of `trial SEED COUNT` in Rust's BTreeMap, as trial.cpp has them in std::map.
use std::collections::BTreeMap;

fn main() {
    let words: Vec<u64> = std::env::args().skip(1).map(|word| word.parse().expect("SEED COUNT")).collect();
    let (mut drawn, count) = (words[0], words[1]);
    let mut book = BTreeMap::new();
    let mut bids = BTreeMap::new();
    let mut sums = BTreeMap::new();
    for number in 1..=count {
        drawn = drawn.wrapping_mul(6364136223846793005).wrapping_add(1442695040888963407);
        let (steps, bidder) = (1000 + ((drawn >> 33) % 101) as u32, (number % 4096) as u32);
        let amount = 100 * (1 + (drawn >> 40) % 1000);
        book.insert((steps, bidder, number), amount);
        bids.insert((bidder, number), steps);
        *sums.entry(bidder).or_insert(0u64) += amount;
    }
    let mut at = BTreeMap::new();
    for (&(steps, _, _), amount) in &book {
        *at.entry(steps).or_insert(0u64) += amount;
    }
    let (sought, mut below, mut high, mut hundredths) = (1_000_000_000u64, 0, 0, 10_000);
    for (steps, sum) in at {
        high = steps;
        if below + sum >= sought {
            hundredths = (10_000 * (sought - below)).div_ceil(sum);
            break;
        }
        below += sum;
    }
    println!("high {}.{:03}\nallotted {}.{:02}", high / 200, high % 200 * 5, hundredths / 100, hundredths % 100);
}
