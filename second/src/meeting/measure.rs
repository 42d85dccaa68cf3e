//! What an image of many blocks is, measured on its bytes alone: which sequence its blocks
//! come in, which of them meet, and how they lie.

use super::batches::BATCHES;
use crate::answer::ADDRESSES;
use crate::fields::up_to_four;
use crate::image::read_image;
use crate::program::{lies, meet, Block};
use crate::walk::{block_at, FIRST_PLACE};

/// The blocks that are there, whatever else is wrong with them or behind them.
fn blocks(image: &[u8]) -> Vec<Block> {
    let mut all = Vec::new();
    let mut place = FIRST_PLACE;
    while let Ok(Some(block)) = block_at(image, place) {
        place = block.raw as u64 + up_to_four(block.size);
        all.push(Block { index: all.len(), ..block });
    }
    all
}

/// All pairs of an earlier and a later block that meet, the first later one first.
fn pairs(blocks: &[Block]) -> Vec<(usize, usize)> {
    let mut all = Vec::new();
    for (j, later) in blocks.iter().enumerate() {
        all.extend((0..j).filter(|&i| meet(&blocks[i], later)).map(|i| (i, j)));
    }
    all
}

fn ascends(loads: &[u64]) -> bool {
    loads.windows(2).all(|two| two[0] < two[1])
}

/// One block alone is not where it would be: without it the others ascend.
fn ascends_but_for_one(loads: &[u64]) -> bool {
    let without = |out: usize| [&loads[..out], &loads[out + 1..]].concat();
    match loads.windows(2).position(|two| two[0] > two[1]) {
        Some(place) => ascends(&without(place)) || ascends(&without(place + 1)),
        None => false,
    }
}

/// Each lies outside of all before it, on the other side than the one before.
fn goes_outwards<'a>(loads: impl Iterator<Item = &'a u64>) -> bool {
    let (mut low, mut high) = (u64::MAX, 0);
    let mut above = None;
    for &load in loads {
        let side = load > high;
        if low <= high && (load > low && !side || above == Some(side)) {
            return false;
        }
        above = (low <= high).then_some(side);
        (low, high) = (low.min(load), high.max(load));
    }
    true
}

/// How many rows that ascend lie one above the other: a row ends where the next block by
/// address comes sooner.
fn rows(loads: &[u64]) -> usize {
    let mut places: Vec<usize> = (0..loads.len()).collect();
    places.sort_by_key(|&place| loads[place]);
    1 + places.windows(2).filter(|two| two[1] < two[0]).count()
}

/// The most blocks that ascend one directly after the other.
fn longest_run(loads: &[u64]) -> usize {
    let (mut longest, mut run) = (1, 1);
    for two in loads.windows(2) {
        run = if two[0] < two[1] { run + 1 } else { 1 };
        longest = longest.max(run);
    }
    longest
}

/// So few blocks may be in any sequence by chance.
const FEW: usize = 60;

/// More rows than this are not told apart.
const MOST_ROWS: usize = 20;

/// The sequence of these load addresses, which all differ.
fn sequence(loads: &[u64]) -> Option<String> {
    if loads.len() < FEW {
        return None;
    }
    let down: Vec<u64> = loads.iter().map(|load| ADDRESSES - load).collect();
    let swapped: Vec<u64> = loads.chunks(2).flat_map(|two| two.iter().rev().copied()).collect();
    let simple = [
        (ascends(loads), "ascending"),
        (ascends_but_for_one(loads), "one out of place"),
        (ascends(&down), "descending"),
        (goes_outwards(loads.iter()), "outwards"),
        (goes_outwards(loads.iter().rev()), "inwards"),
        (ascends(&swapped), "swapped"),
    ];
    if let Some((_, name)) = simple.into_iter().find(|(is, _)| *is) {
        return Some(name.to_string());
    }
    Some(match (rows(loads), rows(&down)) {
        // Where rows of one block each take turns, no more than one of each ascend together;
        // one more where a block in between was left out.
        (rising, _) if rising <= MOST_ROWS && longest_run(loads) <= rising + 1 => format!("{rising} rows"),
        (rising, _) if rising <= MOST_ROWS => format!("{rising} rows in runs"),
        (_, falling) if falling <= MOST_ROWS => format!("{falling} falling rows"),
        _ => "shuffled".to_string(),
    })
}

/// Where a pair lies in batches of one size that are counted from the first block on.
fn in_batches(batch: usize, count: usize, earlier: usize, later: usize) -> Vec<String> {
    let one = earlier / batch == later / batch;
    let (first, last) = (later / batch * batch, later / batch * batch + batch - 1);
    let in_last = later / batch == (count - 1) / batch;
    let all = [
        (one && earlier + 1 == later, "neighbours in one"),
        (one && earlier == first && later == last, "the first and the last of one"),
        (one && earlier + 1 < later, "apart in one"),
        (!one && earlier + 1 == later, "neighbours in two"),
        (!one && earlier + 1 < later, "apart in two"),
        (later == first && count > first + 1, "the later is the first of one"),
        (later == last, "the later is the last of one"),
        (in_last && count % batch != 0 && one, "both in a last one that is not whole"),
        (in_last && count % batch != 0 && !one, "the later in a last one that is not whole"),
        (in_last && count % batch == 0, "the later in a last one that is whole"),
        (in_last && later == first && later + 1 == count, "the later alone in the last one"),
        (!in_last, "others behind it"),
    ];
    all.into_iter().filter(|(is, _)| *is).map(|(_, name)| format!("batches of {batch}: {name}")).collect()
}

/// What of the other pairs may lead to another index than the first later one's.
fn beside_the_first(batch: usize, pairs: &[(usize, usize)]) -> Vec<String> {
    let (earlier, later) = pairs[0];
    let others = || pairs.iter().filter(|pair| pair.1 != later);
    let of_batch = |pair: &&(usize, usize)| pair.1 / batch == later / batch;
    let all = [
        (others().filter(of_batch).any(|pair| pair.0 < earlier), "a later one of its batch meets a sooner one"),
        (others().filter(of_batch).any(|pair| pair.0 == earlier), "a later one of its batch meets the same"),
        (others().filter(of_batch).any(|pair| pair.0 == later), "a later one of its batch meets it"),
        (others().any(|pair| !of_batch(&pair) && pair.0 < earlier), "one of a later batch meets a sooner one"),
        (
            earlier / batch == later / batch && others().filter(of_batch).any(|pair| pair.0 / batch < later / batch),
            "it meets in its batch, a later one of it before",
        ),
    ];
    all.into_iter().filter(|(is, _)| *is).map(|(_, name)| format!("batches of {batch}: {name}")).collect()
}

/// How the first two that meet share addresses.
fn shared(earlier: &Block, later: &Block) -> Vec<String> {
    let first = earlier.load.max(later.load);
    let end = earlier.load_end().min(later.load_end());
    let mut all = vec![lies(earlier, later).to_string()];
    if end - first == 1 {
        all.push(format!("{} by one byte", lies(earlier, later)));
    }
    if first == 0 {
        all.push("meeting at address 0".to_string());
    }
    if end == ADDRESSES {
        all.push("meeting at the last address".to_string());
    }
    all
}

fn of_meeting(blocks: &[Block], pairs: &[(usize, usize)]) -> Vec<String> {
    let (count, (earlier, later)) = (blocks.len(), pairs[0]);
    let mut all = vec![format!("{count} blocks, meeting")];
    all.extend(shared(&blocks[earlier], &blocks[later]));
    let firsts = [
        (later + 1 == count, "the last block meets one"),
        (earlier == 0, "the first block is met"),
        (earlier == 0 && later + 1 == count, "the last block meets the first"),
        (pairs.len() == 1, "one pair"),
        (pairs.iter().filter(|pair| pair.1 == later).count() > 1, "one later meets several"),
        (pairs.iter().any(|pair| pair.1 != later), "several later ones"),
    ];
    all.extend(firsts.into_iter().filter(|(is, _)| *is).map(|(_, name)| name.to_string()));
    for batch in BATCHES {
        all.extend(in_batches(batch, count, earlier, later));
        all.extend(beside_the_first(batch, pairs));
    }
    // Without the later ones of all pairs, which were put elsewhere.
    let stays = blocks.iter().filter(|block| !pairs.iter().any(|pair| pair.1 == block.index));
    let loads: Vec<u64> = stays.map(|block| block.load).collect();
    all.extend(sequence(&loads).map(|name| format!("{name}, meeting")));
    all
}

fn of_sound(blocks: &[Block]) -> Vec<String> {
    let count = blocks.len();
    let mut all = vec![format!("{count} blocks, sound")];
    let loads: Vec<u64> = blocks.iter().map(|block| block.load).collect();
    all.extend(sequence(&loads).map(|name| format!("{name}, sound")));
    let mut by_load: Vec<&Block> = blocks.iter().collect();
    by_load.sort_by_key(|block| block.load);
    if count > 1 && by_load.windows(2).all(|two| two[0].load_end() == two[1].load) {
        all.push("all adjoin".to_string());
    }
    if let (Some(lowest), Some(highest)) = (by_load.first(), by_load.last()) {
        let ends = [(lowest.load == 0, "address 0, sound"), (highest.load_end() == ADDRESSES, "the last address, sound")];
        all.extend(ends.into_iter().filter(|(is, _)| *is).map(|(_, name)| name.to_string()));
    }
    if let Some((last, others)) = blocks.split_last() {
        let sides = [
            (others.iter().any(|other| last.load_end() == other.load), "the last block ends where one begins"),
            (others.iter().any(|other| last.load == other.load_end()), "the last block begins where one ends"),
        ];
        all.extend(sides.into_iter().filter(|(is, _)| *is).map(|(_, name)| name.to_string()));
    }
    all
}

/// What there is to say of an image in order 0.
pub fn measured(image: &[u8]) -> Vec<String> {
    let blocks = blocks(image);
    let pairs = pairs(&blocks);
    match read_image(image) {
        Ok(_) => of_sound(&blocks),
        Err(_) if pairs.is_empty() => Vec::new(),
        Err(refused) if refused.code == 27 => of_meeting(&blocks, &pairs),
        Err(refused) => vec![format!("meeting beside rule {}", refused.code)],
    }
}

#[cfg(test)]
mod tests {
    use super::super::sequence::{Sequence, FALLING_ROWS, ROWS};
    use super::sequence;

    fn named(of: Sequence, count: usize) -> String {
        let loads: Vec<u64> = of.ranks(count).into_iter().map(|rank| rank as u64 * 4).collect();
        sequence(&loads).expect("enough blocks")
    }

    #[test]
    fn sequences_are_told_apart() {
        for count in [63, 64, 65, 97, 257, 4096] {
            assert_eq!(named(Sequence::Up, count), "ascending");
            assert_eq!(named(Sequence::Down, count), "descending");
            assert_eq!(named(Sequence::Shuffled(1), count), "shuffled");
            assert_eq!(named(Sequence::Inwards, count), "inwards");
            assert_eq!(named(Sequence::Outwards, count), "outwards");
            assert_eq!(named(Sequence::Swapped, count), "swapped");
            assert_eq!(named(Sequence::OutOfPlace(2, 0), count), "one out of place");
            for rows in ROWS {
                assert_eq!(named(Sequence::Rows(rows, 1), count), format!("{rows} rows"));
                // A row that has only one turn may go on the one below it.
                if count >= 4 * rows {
                    assert_eq!(named(Sequence::Rows(rows, 2), count), format!("{rows} rows in runs"));
                }
            }
            for rows in FALLING_ROWS {
                assert_eq!(named(Sequence::Falling(rows), count), format!("{rows} falling rows"));
            }
        }
    }
}
