//! Files and images for the numbered cases: sound, with one fault or two,
//! changed at random.

use crate::calls::Input;
use crate::fault_file::{self, FILE_FAULTS};
use crate::fault_image::{self, IMAGE_FAULTS};
use crate::gen_file::{self, Made};
use crate::gen_image;
use crate::make::Image;
use crate::rng::Rng;

/// A file or image, and the code that its reader is known to answer.
pub struct Given {
    pub input: Input,
    pub what: String,
    pub code: Option<u8>,
}

/// A few bytes changed, put in or taken out.
pub fn mutate(rng: &mut Rng, bytes: &mut Vec<u8>) {
    for _ in 0..rng.range(1, 3) {
        if bytes.is_empty() {
            bytes.push(rng.next() as u8);
        }
        let at = rng.index(bytes.len());
        match rng.below(10) {
            0 => bytes[at] = 0,
            1 => bytes[at] = 0xff,
            2 => bytes[at] = bytes[at].wrapping_add(1),
            3 => bytes[at] = bytes[at].wrapping_sub(1),
            4 | 5 => bytes[at] ^= 1 << rng.below(8),
            6 => bytes[at] = rng.next() as u8,
            7 => bytes.insert(at, rng.pick(&[0, 1, 0xff, 0xaa])),
            8 => {
                bytes.remove(at);
            }
            _ => bytes.truncate(at),
        }
    }
}

/// A file whose image is longer than the limit is large; there are few.
pub fn some_file(rng: &mut Rng) -> Made {
    if rng.one_in(2500) {
        let count = rng.range(200, 256) as usize;
        let plan: Vec<Option<u64>> = (0..count).map(|_| Some(rng.range(1, 9))).collect();
        return gen_file::sound_of(rng, &plan);
    }
    gen_file::sound(rng)
}

/// Load addresses so close together that several blocks may meet.
fn crowd(rng: &mut Rng, count: usize) -> Vec<u32> {
    let room = rng.range(20, 120);
    let base = rng.pick(&[0, 0x400, 0x7fff_ffe0, 0xffff_ff00]);
    (0..count).map(|_| base + rng.below(room) as u32).collect()
}

fn crowded_file(rng: &mut Rng) -> Given {
    let count = rng.range(3, 8) as usize;
    let plan: Vec<Option<u64>> = (0..count).map(|_| if rng.one_in(8) { None } else { Some(rng.range(1, 12)) }).collect();
    let mut made = gen_file::sound_of(rng, &plan);
    for (load, &i) in crowd(rng, count).into_iter().zip(&made.kept) {
        made.file.sections[i].load = load;
    }
    Given { input: made.file.input(), what: "crowded file".to_string(), code: None }
}

fn crowded_image(rng: &mut Rng) -> Given {
    let count = rng.range(3, 8) as usize;
    let sizes: Vec<u64> = (0..count).map(|_| rng.range(1, 12)).collect();
    let mut image = gen_image::sound_of(rng, &sizes);
    for (load, block) in crowd(rng, count).into_iter().zip(&mut image.blocks) {
        block.load = load;
    }
    Given { input: image.input(), what: "crowded image".to_string(), code: None }
}

pub fn given_file(rng: &mut Rng, made: &Made) -> Given {
    let mut made = made.clone();
    let kept = made.kept.len().max(1);
    match rng.below(20) {
        0 => crowded_file(rng),
        1..=8 => Given { input: made.file.input(), what: "sound file".to_string(), code: Some(0) },
        9..=12 => {
            let code = fault_of_file(rng, &mut made, kept);
            Given { input: made.file.input(), what: format!("file with fault {code}"), code: Some(code) }
        }
        13..=15 => {
            let first = fault_of_file(rng, &mut made, kept);
            let second = fault_of_file(rng, &mut made, kept);
            Given { input: made.file.input(), what: format!("file with faults {first} and {second}"), code: None }
        }
        16..=18 => {
            let mut bytes = made.file.bytes();
            mutate(rng, &mut bytes);
            Given { input: Input::of(bytes), what: "changed file".to_string(), code: None }
        }
        _ => {
            let length = rng.index(200);
            let mut bytes = rng.bytes(length);
            let sound = made.file.bytes();
            let same = rng.index(sound.len().min(length) + 1);
            bytes[..same].copy_from_slice(&sound[..same]);
            Given { input: Input::of(bytes), what: "random file".to_string(), code: None }
        }
    }
}

/// Draws faults until one can be put in. Lengths over the limit cost time and
/// are drawn less often.
fn fault_of_file(rng: &mut Rng, made: &mut Made, kept: usize) -> u8 {
    loop {
        let code = rng.pick(&FILE_FAULTS);
        let at = rng.index(kept);
        if code == 1 && !rng.one_in(12) {
            continue;
        }
        if fault_file::damage(rng, made, code, at) {
            return code;
        }
    }
}

fn fault_of_image(rng: &mut Rng, image: &mut Image) -> u8 {
    loop {
        let code = rng.pick(&IMAGE_FAULTS);
        let at = rng.index(image.blocks.len() + 1);
        if code == 20 && !rng.one_in(12) {
            continue;
        }
        if fault_image::damage(rng, image, code, at) {
            return code;
        }
    }
}

pub fn given_image(rng: &mut Rng, image: &Image) -> Given {
    let mut image = image.clone();
    match rng.below(20) {
        0 => crowded_image(rng),
        1..=8 => Given { input: image.input(), what: "sound image".to_string(), code: Some(0) },
        9..=12 => {
            let code = fault_of_image(rng, &mut image);
            Given { input: image.input(), what: format!("image with fault {code}"), code: Some(code) }
        }
        13..=15 => {
            let first = fault_of_image(rng, &mut image);
            let second = fault_of_image(rng, &mut image);
            Given { input: image.input(), what: format!("image with faults {first} and {second}"), code: None }
        }
        16..=18 => {
            let mut bytes = image.bytes();
            mutate(rng, &mut bytes);
            Given { input: Input::of(bytes), what: "changed image".to_string(), code: None }
        }
        _ => {
            let length = rng.index(80);
            let mut bytes = rng.bytes(length);
            for b in bytes.iter_mut() {
                // Sizes must be small to lead anywhere.
                if rng.one_in(2) {
                    *b = rng.below(3) as u8;
                }
            }
            Given { input: Input::of(bytes), what: "random image".to_string(), code: None }
        }
    }
}

pub fn some_image(rng: &mut Rng) -> Image {
    if rng.one_in(2500) {
        let count = rng.range(100, 400) as usize;
        return gen_image::many(rng, count);
    }
    gen_image::sound(rng)
}
