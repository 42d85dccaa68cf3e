//! Blocks that meet in an image that another rule refuses too. Rule 27 is asked after all
//! of them, also where the other fault comes long after the blocks that meet.

use super::asked::{each, refused_case};
use super::makers::{roomy, Makers};
use super::plan::{Change, Plan};
use super::sequence::ALL;
use super::span::Shape;
use crate::image::MOST_BLOCKS;
use crate::make::Image;
use crate::rng::Rng;

/// The rules that are asked of the blocks one by one, or behind them. Rule 22 takes more
/// blocks than an image may have.
const RULES: [u8; 5] = [21, 23, 24, 25, 26];

const COUNTS: [usize; 5] = [34, 66, 98, 130, 258];

/// The image with this fault in or behind its last block, and the index of it.
fn with_fault(plan: &Plan, code: u8) -> (Image, usize) {
    let mut image = plan.image();
    let last = plan.count - 1;
    let offset = image.offset(last);
    let block = &mut image.blocks[last];
    // Three bytes, which can pass 2^32 and have padding.
    block.data = vec![0x55; 3];
    match code {
        21 => image.cut = Some(offset + 5),
        23 => block.load = 0xffff_fffe,
        24 => block.run = 0xffff_ffff,
        25 => block.padding = Some(vec![1]),
        26 => image.end.push(0),
        _ => assert_eq!((code, plan.count), (22, MOST_BLOCKS + 1)),
    }
    match code {
        22 => (image, MOST_BLOCKS),
        26 => (image, plan.count),
        _ => (image, last),
    }
}

/// Two of the first blocks meet, two in or around a batch, or the last two before the fault.
/// Each call is asked, with an order and without.
fn add(rng: &mut Rng, makers: &mut Makers, count: usize, code: u8) {
    for (call, ordered) in each() {
        let (earlier, later) = rng.pick(&[(0, 1), (5, 20), (0, 31), (31, 32), (count - 3, count - 2), (0, count - 2)]);
        let sequence = rng.pick(&ALL);
        let plan = roomy(rng, count, sequence, &[Change::Put { earlier, later, shape: Shape::Equal }]);
        let asked = makers.asked(call, ordered);
        makers.all.push(Box::new(move || {
            let (image, index) = with_fault(&plan, code);
            refused_case(asked, &format!("fault {code} and {}", plan.what()), &image, &plan.sound(), code, index)
        }));
    }
}

pub fn cases(rng: &mut Rng, makers: &mut Makers) {
    for code in RULES {
        for count in COUNTS {
            add(rng, makers, count, code);
        }
    }
    add(rng, makers, MOST_BLOCKS + 1, 22);
}
