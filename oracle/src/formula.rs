//! Document 01, "The syllable", with document 02's finals of independent letters and its
//! second finals: the formula, as the list of all writings of all pieces, ready to be
//! found by first value.

use crate::letters::*;
use crate::limits::RECORD_SIZE;
use crate::syllable::*;

/// How many writings the formula has: 57 + 33 + 1 heads, 12 medial groups, 16
/// vowels, 68 finals, 34 second finals and 3 tones, counting "none" as a writing.
const WRITING_COUNT: usize = 224;

/// The writings in the order of the document.
struct Listing {
    writings: [Writing; WRITING_COUNT],
    count: usize,
}

impl Listing {
    const fn new() -> Listing {
        let nothing = Writing::new(Piece::Head, &[], [0; RECORD_SIZE], Piece::Head);
        let mut listing = Listing { writings: [nothing; WRITING_COUNT], count: 0 };
        listing.put_heads();
        listing.put_medial_groups();
        listing.put_vowels();
        listing.put_finals();
        listing.put_second_finals();
        listing.put_tones();
        assert!(listing.count == WRITING_COUNT);
        listing
    }

    const fn put(&mut self, piece: Piece, values: &[u16], record: Record, then: Piece) {
        self.writings[self.count] = Writing::new(piece, values, record, then);
        self.count += 1;
    }

    /// After a stacked final or kinzi stands "a head of 1000 to 1020, written as a
    /// letter"; document 02: "An I or 104E after 1039 is still refused". After great sa
    /// it is "the head 101E of its own".
    const fn put_heads(&mut self) {
        let mut value = 0x1000;
        while value <= 0x104F {
            if is_head(value) {
                self.put_head(Piece::Head, value, value);
            }
            if value <= LAST_FINAL_LETTER {
                self.put_head(Piece::StackedHead, value, value);
            }
            value += 1;
        }
        self.put_head(Piece::GreatSaHead, GREAT_SA, SA);
    }

    /// Puts a head that is written as `value`, and then what it may carry.
    const fn put_head(&mut self, piece: Piece, value: u16, head: u16) {
        let then = if carries_marks(head) {
            Piece::MedialGroup
        } else if carries_final(head) {
            Piece::Final
        } else {
            Piece::Head
        };
        self.put(piece, &[value], [(head - 0x1000) as u8, 0, 0, 0, 0, 0, 0, 0], then);
    }

    const fn put_medial_groups(&mut self) {
        let mut weight = 0;
        while weight < MEDIAL_GROUPS.len() {
            let record = [0, weight as u8, 0, 0, 0, 0, 0, 0];
            self.put(Piece::MedialGroup, MEDIAL_GROUPS[weight], record, Piece::Vowel);
            weight += 1;
        }
    }

    const fn put_vowels(&mut self) {
        let mut weight = 0;
        while weight < VOWELS.len() {
            let record = [0, 0, weight as u8, 0, 0, 0, 0, 0];
            self.put(Piece::Vowel, VOWELS[weight], record, Piece::Final);
            weight += 1;
        }
        let mut number = 0;
        while number < TALL_VOWELS.len() {
            let (values, weight) = TALL_VOWELS[number];
            self.put(Piece::Vowel, values, [0, 0, weight, 1, 0, 0, 0, 0], Piece::Final);
            number += 1;
        }
    }

    /// "A plain final is that letter and 103A. A stacked final is a final letter
    /// other than 1004 and then 1039. Kinzi is 1004 103A 1039. Both take no tone,
    /// and the next syllable must be full"; likewise the syllable before 103F has
    /// "no other final and no tone". Only a plain final leads to a second one.
    const fn put_finals(&mut self) {
        const fn record(letter: u16, link: u8) -> Record {
            [0, 0, 0, 0, final_weight(letter), 0, link, 0]
        }
        self.put(Piece::Final, &[], [0; RECORD_SIZE], Piece::Tone);
        self.put(Piece::Final, &[], record(SA, link::GREAT_SA), Piece::GreatSaHead);
        let mut letter = 0x1000;
        while letter <= LAST_FINAL_LETTER {
            let plain = record(letter, link::PLAIN);
            self.put(Piece::Final, &[letter, KILLER], plain, Piece::SecondFinal);
            let stacked: &[u16] =
                if letter == NGA { &[NGA, KILLER, STACKER] } else { &[letter, STACKER] };
            self.put(Piece::Final, stacked, record(letter, link::STACKED), Piece::StackedHead);
            letter += 1;
        }
    }

    /// "a second plain final": none that is stacked, no kinzi and no 103F.
    const fn put_second_finals(&mut self) {
        self.put(Piece::SecondFinal, &[], [0; RECORD_SIZE], Piece::Tone);
        let mut letter = 0x1000;
        while letter <= LAST_FINAL_LETTER {
            let record = [0, 0, 0, 0, 0, final_weight(letter), 0, 0];
            self.put(Piece::SecondFinal, &[letter, KILLER], record, Piece::Tone);
            letter += 1;
        }
    }

    const fn put_tones(&mut self) {
        let mut weight = 0;
        while weight < TONES.len() {
            let record = [0, 0, 0, 0, 0, 0, 0, weight as u8];
            self.put(Piece::Tone, TONES[weight], record, Piece::Head);
            weight += 1;
        }
    }
}

/// "Final: 1000 to 1020 are 1 to 33, whichever form."
const fn final_weight(letter: u16) -> u8 {
    (letter - 0x1000 + 1) as u8
}

/// The slots of the index: one a value 1000 to 104F, then one for empty writings.
const EMPTY_SLOT: usize = 0x50;

const fn slot_of(values: &[u16]) -> usize {
    match values {
        [] => EMPTY_SLOT,
        [first, ..] => first.wrapping_sub(0x1000) as usize,
    }
}

/// The writings slot by slot, inside a slot in the order of the document.
struct Formula {
    writings: [Writing; WRITING_COUNT],
    /// Where the writings of each slot end; they start where the slot before ends.
    ends: [usize; EMPTY_SLOT + 1],
}

static FORMULA: Formula = Formula::new(&Listing::new());

impl Formula {
    const fn new(listing: &Listing) -> Formula {
        let mut formula = Formula { writings: listing.writings, ends: [0; EMPTY_SLOT + 1] };
        let (mut slot, mut count) = (0, 0);
        while slot <= EMPTY_SLOT {
            let mut number = 0;
            while number < WRITING_COUNT {
                let writing = listing.writings[number];
                if slot_of(writing.values()) == slot {
                    formula.writings[count] = writing;
                    count += 1;
                }
                number += 1;
            }
            formula.ends[slot] = count;
            slot += 1;
        }
        assert!(count == WRITING_COUNT);
        formula
    }

    fn in_slot(&self, slot: usize) -> &[Writing] {
        let start = if slot == 0 { 0 } else { self.ends[slot - 1] };
        &self.writings[start..self.ends[slot]]
    }
}

/// The writings, of whatever piece, that begin with the first value of `rest`.
pub fn beginning_like(rest: &[u16]) -> &'static [Writing] {
    match slot_of(rest) {
        slot if slot < EMPTY_SLOT => FORMULA.in_slot(slot),
        _ => &[],
    }
}

/// The empty writings. None leads to the piece of itself or of one before it.
pub fn empty() -> &'static [Writing] {
    FORMULA.in_slot(EMPTY_SLOT)
}

/// All writings of `piece`.
pub fn writings(piece: Piece) -> impl Iterator<Item = &'static Writing> {
    FORMULA.writings.iter().filter(move |writing| writing.piece == piece)
}

/// The writing of `piece` in a syllable that has this record.
pub fn writing_of(piece: Piece, record: &Record) -> Option<&'static Writing> {
    let bytes = piece.record_bytes();
    writings(piece).find(|writing| bytes.iter().all(|&byte| writing.record[byte] == record[byte]))
}

#[cfg(test)]
mod tests {
    use super::*;

    #[test]
    fn each_piece_has_as_many_writings_as_the_document_gives() {
        let count = |piece| writings(piece).count();
        assert_eq!(count(Piece::Head), 34 + 7 + 10 + 2 + 4);
        assert_eq!(count(Piece::StackedHead), 33);
        assert_eq!(count(Piece::GreatSaHead), 1);
        assert_eq!(count(Piece::MedialGroup), 1 + 11);
        assert_eq!(count(Piece::Vowel), 1 + 12 + 3);
        assert_eq!(count(Piece::Final), 1 + 33 + 32 + 1 + 1);
        assert_eq!(count(Piece::SecondFinal), 1 + 33);
        assert_eq!(count(Piece::Tone), 1 + 2);
    }

    #[test]
    fn heads_go_on_as_the_documents_say() {
        let count = |then| writings(Piece::Head).filter(|head| head.then == then).count();
        assert_eq!(count(Piece::MedialGroup), 34);
        assert_eq!(count(Piece::Final), 7 + 1);
        assert_eq!(count(Piece::Head), 10 + 2 + 3);
        let asked = writings(Piece::StackedHead).chain(writings(Piece::GreatSaHead));
        assert!(asked.into_iter().all(|head| head.then == Piece::MedialGroup));
    }

    #[test]
    fn a_plain_final_alone_leads_to_a_second_one() {
        let before = FORMULA.writings.iter().filter(|one| one.then == Piece::SecondFinal);
        assert!(before.clone().all(|one| one.piece == Piece::Final && one.link() == link::PLAIN));
        assert_eq!(before.count(), 33);
        assert!(writings(Piece::SecondFinal).all(|second| second.then == Piece::Tone));
    }

    #[test]
    fn an_empty_writing_leads_only_to_later_ones() {
        for (number, writing) in empty().iter().enumerate() {
            assert!(empty()[..=number].iter().all(|earlier| earlier.piece != writing.then));
        }
    }

    #[test]
    fn each_byte_of_a_record_is_decided_by_one_piece() {
        for piece in Piece::ALL {
            for writing in writings(piece) {
                let others = (0..RECORD_SIZE).filter(|byte| !piece.record_bytes().contains(byte));
                assert!(others.into_iter().all(|byte| writing.record[byte] == 0));
            }
        }
        let decided = Piece::ALL[2..].iter().flat_map(|piece| piece.record_bytes());
        let mut decided: Vec<usize> = decided.copied().collect();
        decided.sort_unstable();
        assert!(decided.into_iter().eq(0..RECORD_SIZE));
    }

    #[test]
    fn no_two_writings_of_a_piece_have_the_same_record_bytes() {
        for piece in Piece::ALL {
            for writing in writings(piece) {
                let found = writing_of(piece, &writing.record).unwrap();
                assert!(std::ptr::eq(found, writing));
            }
        }
    }
}
