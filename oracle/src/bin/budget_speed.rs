//! Works out the budgets of each rate of its input a hundred thousand times with the crate: what `crates/budget_speed` does with the port.

use std::io::Read;

use cea708_types::Framerate;

/// The pairs and the triples of a rate, which the crate takes without a test; a rate that the port refuses has none.
fn budgets(rate: Framerate) -> Option<(usize, usize)> {
    if rate.numer() == 0 {
        return None;
    }
    let (pairs, triples) = (rate.cea608_pairs_per_frame(), rate.max_cc_count());
    (0 < pairs && triples <= 31).then_some((pairs, triples))
}

/// The number of four bytes.
fn number(bytes: &[u8]) -> u32 {
    u32::from_be_bytes(bytes.try_into().unwrap())
}

fn main() {
    let mut input = Vec::new();
    std::io::stdin().take(4096).read_to_end(&mut input).unwrap();
    let (mut accepted, mut pairs, mut triples, mut last) = (0, 0, 0, 0);
    for rate in input.chunks_exact(8) {
        let (numer, denom) = (number(&rate[..4]), number(&rate[4..]));
        for _ in 0..100_000 {
            match budgets(Framerate::new(numer.wrapping_add(last as u32), denom.wrapping_add(last as u32))) {
                Some((p, t)) => {
                    accepted += 1;
                    pairs += p;
                    triples += t;
                    last = p + t;
                }
                None => last = 0,
            }
        }
    }
    println!("{accepted} {pairs} {triples}");
}
