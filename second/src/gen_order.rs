//! The numbered cases with an order: seed and number make one call.

use crate::calls::{Call, Case, CALLS_IN_ORDER};
use crate::gen_with;
use crate::generate;
use crate::order::ORDERS;
use crate::ordered::{in_order, refused, told, NO_ORDERS};
use crate::rng::Rng;

/// So that these cases are others than those without an order.
const SERIES: u64 = 1 << 41;

fn draw_call(rng: &mut Rng) -> Call {
    rng.pick(&CALLS_IN_ORDER)
}

pub fn call_of(seed: u64, number: u64) -> Call {
    draw_call(&mut Rng::new(seed, SERIES + number))
}

fn no_order(rng: &mut Rng) -> u32 {
    match rng.below(3) {
        0 => rng.range(4, u64::from(u32::MAX)) as u32,
        _ => rng.pick(&NO_ORDERS),
    }
}

pub fn case(seed: u64, number: u64) -> Case {
    let mut rng = Rng::new(seed, SERIES + number);
    let rng = &mut rng;
    let call = draw_call(rng);
    let plain = match call.has_patterns() && rng.one_in(2) {
        true => gen_with::with(rng, call),
        false => generate::of_call(rng, call.plain()),
    };
    let order = rng.pick(&ORDERS);
    let case = match rng.below(16) {
        0 => refused(&plain, no_order(rng)),
        1 if call.reads_image() => told(&plain, order),
        // Sound in one order, told another: numbers or data are the wrong way round.
        2 if call.reads_image() => in_order(&plain, order).and_then(|case| told(&case, rng.pick(&ORDERS))),
        _ => in_order(&plain, order),
    };
    let mut case = case.expect("a call that takes an order");
    case.place = (number % 32) as u8;
    case.fill = rng.below(60_000) as u32;
    case
}

#[cfg(test)]
mod tests {
    use super::case;
    use crate::naive::assert_agreed;

    #[test]
    fn answers_agree_with_the_makers_of_the_cases() {
        assert_agreed(case);
    }
}
