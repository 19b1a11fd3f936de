//! What the bytes of an input mean.
//!
//! | byte | |
//! |---|---|
//! | 0 | bits 0 and 1: the entry; 2 and 3: the lengths; 4: kinds and separator as they stand; 5: one length less than kinds |
//! | 1 | the separator |
//! | 2 | the depth limit: 0 is 256, 255 is 0, 254 is 257 |
//! | 3 | the table: 0 is room enough; up to 128 is that many elements less one; above, from 63 below to 63 above what the tree takes |
//! | from 4 | the kinds; where the lengths are read from the input too they are the second half |

use oracle::case::Case;
use oracle::{Entry, DEEPEST, ROW};

const HEAD: usize = 4;
const AS_IT_STANDS: u8 = 1 << 4;
const ONE_LESS: u8 = 1 << 5;

/// The most tokens of an input; longer ones are cut.
pub const MOST: usize = 4096;

/// The case that an input stands for; none if it has no head.
pub fn read(data: &[u8]) -> Option<Case> {
    let (&[flags, separator, limit, room], rest) = data.split_first_chunk::<HEAD>()?;
    let rest = &rest[..rest.len().min(MOST)];
    let kind = |byte: &u8| match *byte {
        // Most numbers are tokens' then.
        byte if flags & AS_IT_STANDS == 0 && !(1..=127).contains(&byte) => 1 + byte % 95,
        byte => byte,
    };
    let (kinds, mut lens) = match flags >> 2 & 3 {
        0 => (rest, vec![1; rest.len()]),
        1 => (rest, (0..rest.len() as u32).map(|at| at * 5 % 7).collect()),
        // Read from the input: small, or so large that few reach the total.
        mode => {
            let (kinds, lens) = rest.split_at(rest.len() / 2);
            let shift = if mode == 2 { 0 } else { 16 };
            (
                kinds,
                lens[..kinds.len()]
                    .iter()
                    .map(|len| u32::from(*len) << shift)
                    .collect(),
            )
        }
    };
    if flags & ONE_LESS != 0 {
        lens.pop();
    }
    let entry = [Entry::Root, Entry::Exprs, Entry::Format, Entry::Exprs][usize::from(flags & 3)];
    let mut case = Case::roomy(entry, kinds.iter().map(kind).collect(), lens);
    if entry == Entry::Exprs {
        case.separator = kind(&separator).into();
    }
    case.limit = limit_of(limit);
    case.elements = elements_of(room, &case);
    Some(case)
}

fn limit_of(byte: u8) -> u32 {
    match byte {
        0 => DEEPEST,
        255 => 0,
        254 => DEEPEST + 1,
        byte => byte.into(),
    }
}

fn elements_of(byte: u8, case: &Case) -> usize {
    match byte {
        0 => case.elements,
        1..=128 => usize::from(byte) - 1,
        _ => {
            let taken = case.run().0.rows as usize * ROW;
            (taken + usize::from(byte)).saturating_sub(192)
        }
    }
}

/// An input with the entry, the separator, the limit and the kinds of a case, if there is one. Lengths and table are those that `read` gives it.
pub fn write(case: &Case) -> Option<Vec<u8>> {
    let odd = case.kinds.iter().any(|kind| !(1..=127).contains(kind));
    let odd = odd || case.entry == Entry::Exprs && !(1..=127).contains(&case.separator);
    let limit = (0..=255).find(|byte| limit_of(*byte) == case.limit)?;
    let mut data = vec![
        case.entry as u8,
        u8::try_from(case.separator).ok()?,
        limit,
        0,
    ];
    data[0] |= if odd { AS_IT_STANDS } else { 0 };
    data.extend(&case.kinds);
    (case.kinds.len() <= MOST).then_some(data)
}

#[cfg(test)]
mod tests {
    use super::*;
    use oracle::generate::Source;

    #[test]
    fn what_is_written_is_read_back() {
        let mut source = Source::new(7, 60);
        let mut written = 0;
        for _ in 0..5000 {
            let (_, case) = source.next_case();
            let Some(data) = write(&case) else { continue };
            let back = read(&data).unwrap();
            assert_eq!(
                (back.entry, back.separator, back.limit),
                (case.entry, case.separator, case.limit)
            );
            assert_eq!(back.kinds, case.kinds);
            written += 1;
        }
        assert!(written > 4000);
    }

    /// Every refusal but 3, which takes more tokens, can be had, and tables from empty to roomy.
    #[test]
    fn what_inputs_reach() {
        let number = |data: &[u8]| read(data).unwrap().run().0.number;
        assert_eq!(number(&[0, 0, 255, 0]), 1);
        assert_eq!(number(&[0, 0, 254, 0]), 1);
        assert_eq!(number(&[ONE_LESS, 0, 0, 0, 1]), 2);
        assert_eq!(number(&[AS_IT_STANDS, 0, 0, 0, 200]), 4);
        assert_eq!(number(&[3 << 2, 0, 0, 0, 1, 1, 255, 255]), 5);
        assert_eq!(number(&[1, 24, 0, 0, 1, 28]), 6);
        assert_eq!(number(&[1, 24, 0, 0, 1, 41, 1, 41, 1]), 7);
        assert_eq!(number(&[0, 0, 0, 0, 35, 20]), 8);
        assert_eq!(number(&[0, 0, 0, 0, 35, 14, 20]), 9);
        assert_eq!(number(&[1, 24, 1, 0, 1]), 10);
        assert_eq!(number(&[1, 24, 0, 191, 1]), 11);
        assert_eq!(number(&[1, 24, 0, 192, 1]), 0);
        assert_eq!(read(&[1, 24, 0, 1, 1]).unwrap().elements, 0);
        assert!(read(&[0, 0, 0]).is_none());
    }
}
