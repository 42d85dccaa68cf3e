//! The four images of one file: each is what conversion writes in its order, is checked
//! as the same in it, and they load alike.

use crate::bench;
use crate::calls::{Call, Case};
use crate::coff::read_coff_with;
use crate::fields::up_to_four;
use crate::gen_file;
use crate::gen_names;
use crate::gen_row;
use crate::naive_order::image_in;
use crate::order::ORDERS;
use crate::patterns::read_patterns;
use crate::rng::Rng;
use crate::samples::Sample;
use crate::walk::{FIRST_PLACE, STEP};

/// Of a large file not all is loaded.
const MOST_WINDOW: u64 = 4096;

fn of_file(name: &str, file: &[u8], row: &[u8], all: &mut Vec<Case>) {
    let patterns = read_patterns(row).expect("patterns");
    let program = match read_coff_with(file, &patterns) {
        Ok(coff) => coff.program,
        Err(_) => return,
    };
    let images = ORDERS.map(|order| image_in(&program, file, order));
    let length = images[0].len() as u64;
    let low = program.blocks.iter().map(|b| b.load).min().unwrap_or(0);
    let high = program.blocks.iter().map(|b| b.load_end()).max().unwrap_or(0);
    let room = STEP * program.blocks.len() as u64;
    for order in ORDERS {
        let image = &images[order as usize];
        let of_file = |call: Call| Case::new(call, name).file(file).row(row).order(order);
        for (lent, code) in [(length, 0), (length - 1, 15), (length + 7, 0)] {
            all.push(of_file(Call::ConvertWith).lent(lent).expect_at(code, 0));
        }
        all.push(of_file(Call::CheckWith).image(image).expect_at(0, 0));
        let of_image = |call: Call| Case::new(call, name).image(image).order(order);
        all.push(of_image(Call::ReadWith).expect_at(0, 0));
        all.push(of_image(Call::WalkWith).lent(room).expect_at(0, 0));
        let mut place = FIRST_PLACE;
        for (number, block) in program.blocks.iter().enumerate().take(12) {
            all.push(of_image(Call::BlockWith).number(number as u64).expect_at(0, 0));
            all.push(of_image(Call::BlockAtWith).number(place).expect_at(0, 0));
            place += 12 + up_to_four(block.size);
        }
        if high - low <= MOST_WINDOW {
            all.push(of_image(Call::LoadImageWith).number(low).lent(high - low).expect_at(0, 0));
        }
        // Read in another order than its own.
        for told in ORDERS.into_iter().filter(|told| *told != order) {
            let case = |call: Call| Case::new(call, &format!("{name}, order {order} told {told}")).image(image).order(told);
            all.push(case(Call::ReadWith));
            all.push(case(Call::CheckWith).file(file).row(row));
            all.push(case(Call::WalkWith).lent(room));
            all.push(case(Call::LoadImageWith).number(low).lent((high - low).min(MOST_WINDOW)));
        }
    }
}

pub fn cases(rng: &mut Rng, samples: &[Sample], all: &mut Vec<Case>) {
    of_file("A", &bench::a(), b"", all);
    for sample in samples {
        for row in [b"".as_slice(), b".t*", b"no such name*"] {
            of_file(&sample.name, &sample.bytes, row, all);
        }
    }
    for _ in 0..300 {
        let mut made = gen_file::sound(rng);
        let names = gen_names::give(rng, &mut made);
        let patterns = gen_row::sound(rng, &names);
        let row = gen_row::row(rng, &patterns);
        let file = made.file.bytes();
        of_file("a file", &file, b"", all);
        of_file("a file with patterns", &file, &row, all);
    }
}
