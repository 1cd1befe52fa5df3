//! Rows of syllables picked at random from the formula.

use crate::formula::writings;
use crate::limits::RECORD_SIZE;
use crate::random::Random;
use crate::syllable::{link, Piece, Record, Writing};

/// A row that is being put together.
pub struct RowUnderWay {
    /// The values so far.
    pub values: Vec<u16>,
    /// The records so far.
    pub records: Vec<Record>,
    next: Piece,
}

impl RowUnderWay {
    /// The row without syllables.
    pub fn new() -> RowUnderWay {
        RowUnderWay { values: Vec::new(), records: Vec::new(), next: Piece::Head }
    }

    /// Puts a writing of the piece that stands next at the end.
    pub fn put(&mut self, writing: &Writing) {
        if self.next.begins_syllable() {
            self.records.push([0; RECORD_SIZE]);
        }
        self.values.extend(writing.values());
        if let Some(record) = self.records.last_mut() {
            for (byte, added) in record.iter_mut().zip(writing.record) {
                *byte += added;
            }
        }
        self.next = writing.then;
    }

    /// Puts a syllable at the end that is only a head.
    fn put_head(&mut self, random: &mut Random) {
        let heads: Vec<&Writing> = writings(self.next).collect();
        self.put(random.pick(&heads));
        while !self.next.begins_syllable() {
            let empty = writings(self.next)
                .find(|writing| writing.values().is_empty() && writing.record == [0; RECORD_SIZE]);
            self.put(empty.expect("every piece but the head may be absent"));
        }
    }

    /// Puts a syllable of any form at the end.
    fn put_syllable(&mut self, random: &mut Random) {
        loop {
            self.put(pick_writing(random, self.next));
            if self.next.begins_syllable() {
                break;
            }
        }
    }

    /// Puts heads at the end until the last final has its next syllable.
    pub fn close(&mut self, random: &mut Random) {
        while self.next != Piece::Head {
            self.put_head(random);
        }
    }
}

impl Default for RowUnderWay {
    fn default() -> RowUnderWay {
        RowUnderWay::new()
    }
}

/// Picks the form first and then the writing, so that rare forms come often.
fn pick_writing(random: &mut Random, piece: Piece) -> &'static Writing {
    let percent = random.below(100);
    let wanted = |writing: &&Writing| match piece {
        Piece::Head => {
            writing.then
                == match percent {
                    0..10 => Piece::Head,
                    10..25 => Piece::Final,
                    _ => Piece::MedialGroup,
                }
        }
        Piece::StackedHead | Piece::GreatSaHead => true,
        Piece::MedialGroup | Piece::Vowel => writing.values().is_empty() == (percent < 40),
        Piece::SecondFinal => writing.values().is_empty() == (percent < 55),
        Piece::Tone => writing.values().is_empty() == (percent < 60),
        Piece::Final => {
            let is_kinzi = writing.values().len() == 3;
            match percent {
                0..40 => writing.link() == link::NONE,
                40..65 => writing.link() == link::PLAIN,
                65..78 => writing.link() == link::STACKED && !is_kinzi,
                78..84 => is_kinzi,
                _ => writing.link() == link::GREAT_SA,
            }
        }
    };
    let fitting: Vec<&Writing> = writings(piece).filter(wanted).collect();
    random.pick(&fitting)
}

/// A row of so many syllables, or one more where the last final asks for it.
pub fn random_row(random: &mut Random, syllables: usize) -> RowUnderWay {
    let mut row = RowUnderWay::new();
    for _ in 0..syllables {
        row.put_syllable(random);
    }
    row.close(random);
    row
}

/// A row of exactly so many values.
pub fn row_of_length(random: &mut Random, length: usize) -> RowUnderWay {
    let mut row = RowUnderWay::new();
    loop {
        let mut longer =
            RowUnderWay { values: row.values.clone(), records: row.records.clone(), ..row };
        longer.put_syllable(random);
        let closing = usize::from(longer.next != Piece::Head);
        if longer.values.len() + closing > length {
            break;
        }
        row = longer;
    }
    row.close(random);
    while row.values.len() < length {
        row.put_head(random);
    }
    row
}
