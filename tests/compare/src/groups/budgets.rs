//! Least bands: every budget within the limit, and budgets beyond it, also those that end in a small number when cut short.
//! A text with special slots has none, whatever the budget.

use crate::comparison::Comparison;
use crate::document::BUDGET_LIMIT;
use crate::document::text::Profile;
use crate::inputs::profiles::{SHAPES, any_profile, profile};
use crate::inputs::random::Random;
use crate::inputs::typed::any_text;

const BEYOND: [u64; 9] = [1_024, 1_025, 32_768, 65_535, 65_536, 65_537, 1 << 32, (1 << 32) + 1, u64::MAX];

pub fn run(comparison: &mut Comparison) {
    let mut random = Random::new(3);
    for shape in SHAPES {
        for slots in [1, 2, 3, 5, 6, 8, 22, 31, 300, 512] {
            let special = profile(&mut random, shape, slots);
            let plain = Profile { specials: Vec::new(), ..special.clone() };
            let limits = [BUDGET_LIMIT - 1, BUDGET_LIMIT].into_iter().chain(BEYOND);
            let text = any_text(&mut random, &plain);
            for budget in (0..=BUDGET_LIMIT.min(2 * slots as u64)).chain(limits.clone()) {
                comparison.least_band_of_text(&text, budget);
            }
            let text = any_text(&mut random, &special);
            for budget in (0..3).chain(limits) {
                comparison.least_band_of_text(&text, budget);
            }
        }
    }
    for _ in 0..2_000 {
        let slots = 1 + random.below(64);
        let profile = any_profile(&mut random, slots);
        let text = any_text(&mut random, &profile);
        let budget = random.next() >> random.below(64);
        comparison.least_band_of_text(&text, budget);
        comparison.least_band_of_text(&text, budget % (slots as u64 + 2));
    }
}
