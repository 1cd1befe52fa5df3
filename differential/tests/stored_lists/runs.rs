//! Bytes that rise as the weights of neighbouring heads do.

/// So many entries are a list; up to eight may be stored.
const LIST: usize = 9;

/// The widest entry that is looked for, in bytes. In code, other instructions come between.
const WIDEST: usize = 32;

/// How many numbers, at equal distances from a place on, rise by the same amount, modulo what the
/// bytes hold, and by which. A weight whose lowest bits stand high in a byte goes on in the next
/// one, so that two bytes together rise.
fn run(bytes: &[u8], start: usize, width: usize, distance: usize) -> (usize, u16) {
    let number = |at: usize| {
        let bytes = bytes.get(at..at + width)?;
        Some(bytes.iter().rev().fold(0, |number, &byte| number << 8 | u16::from(byte)))
    };
    let most = u16::MAX >> (16 - 8 * width);
    let step = |at: usize| Some(number(at + distance)?.wrapping_sub(number(at)?) & most);
    let amount = step(start).unwrap_or(0);
    let same = (start..).step_by(distance).take_while(|&at| step(at) == Some(amount));
    (1 + same.count(), amount)
}

/// The runs in data as long as a list, by any amount, for whatever is packed below the weights; of
/// those that begin in another, the narrowest. Two numbers that alternate are no list of weights.
pub fn in_data(bytes: &[u8]) -> Vec<String> {
    let (mut found, mut covered) = (Vec::new(), vec![false; bytes.len()]);
    for (width, distance) in (1..=WIDEST).flat_map(|distance| [(1, distance), (2, distance)]) {
        for start in 0..bytes.len() {
            let (count, amount) = run(bytes, start, width, distance);
            let different = (1_usize << (8 * width)) >> amount.trailing_zeros();
            if count.min(different) >= LIST && !covered[start] {
                let end = bytes.len().min(start + count * distance);
                covered[start..end].fill(true);
                let entries = format!("{count} entries, {distance} apart, rise by {amount}");
                found.push(format!("at byte {start}: {entries}"));
            }
        }
    }
    found
}

/// The longest row of bytes in code that rise by one, each near the one before it, if it is as long
/// as a list: what is stored from constants, one byte or eight at a time. Places in code rise as
/// well, by the width of what stands there. A row ends at 255: of fifty weights that go over it, one
/// side is a list still.
pub fn in_code(bytes: &[u8]) -> Option<String> {
    let mut counts = vec![1; bytes.len()];
    for at in (0..bytes.len()).rev() {
        let next = (at + 1..bytes.len().min(at + 1 + WIDEST))
            .filter(|&next| bytes[at].checked_add(1) == Some(bytes[next]));
        counts[at] = 1 + next.map(|next| counts[next]).max().unwrap_or(0);
    }
    let count = counts.iter().copied().max().filter(|&count| count >= LIST)?;
    let start = counts.iter().position(|&other| other == count)?;
    Some(format!("at byte {start}: {count} bytes near each other rise by 1"))
}
