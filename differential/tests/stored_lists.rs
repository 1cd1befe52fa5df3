//! The weight of a head is worked out from the ranges in which the heads stand, and no stored list
//! of more than eight entries takes part. No proof says so, since a look-up in a list would be
//! right as well; so the compiled archive and the compiled programs are taken apart here.

#[path = "stored_lists/object.rs"]
mod object;
#[path = "stored_lists/planted.rs"]
mod planted;
#[path = "stored_lists/runs.rs"]
mod runs;

use object::{Object, Section, Target};
use std::collections::BTreeSet;
use std::env;
use std::path::{Path, PathBuf};

/// Makes a key, of a word as handed in or of its stored form, which `WEIGH` asks for.
const FILL: &str = "keying::fill::fill";
const WEIGH: &str = "collation::weigh::weigh";

/// Compares two words, at once where their first heads weigh differently.
const COMPARE: &str = "jogcairn_compare";

/// What a value does to a reading; no weight of a head is in it.
const RULES_OF: &str = "transitions::tables::rules_of";

/// Functions with the lists of that `match`: its own, and in a program those that it is compiled into.
const RULED: [&str; 3] = [RULES_OF, FILL, "recogniser::walk::answer_of"];

/// Whether a value is foreign, asked where a word is refused.
const FOREIGN_FROM: &str = "recogniser::foreign::foreign_from";

/// Packs a refusal: its number and its place, which are looked up by the refusal.
const REFUSED: &str = "packing::refused";

/// The library's comparison of two lists.
const LISTS: &str = "core::cmp::slices::RefSliceOrd::cmp";

/// Code on the way from a call to the weights of heads, and what it may refer to: so many lists of
/// medial weights, so many jump tables at most, and functions.
type Way = (&'static str, usize, usize, &'static [&'static str]);

const WAYS: [Way; 4] = [
    (FILL, 1, 0, &[RULES_OF, FOREIGN_FROM, "memset"]),
    (WEIGH, 0, 0, &[FILL, FOREIGN_FROM, "storage::stored"]),
    ("jogcairn_key", 0, 1, &[WEIGH, REFUSED, "memset", "memcpy"]),
    (
        COMPARE,
        0,
        2,
        &[WEIGH, RULES_OF, FOREIGN_FROM, REFUSED, LISTS, "storage::stored", "memset", "memcpy"],
    ),
];

/// The ends of the ranges of heads. Code that names them all works out the weight of a head.
const ENDS: [u16; 5] = [0x1021, 0x102A, 0x1049, 0x104B, 0x104F];

/// The weights of the sets of medials, by the sum of their members; 255 is no weight.
const MEDIALS: [u8; 16] = [0, 1, 2, 255, 3, 5, 6, 255, 4, 7, 8, 255, 9, 10, 11, 255];

/// Other functions with lists that the compiler made of a `match`: by the weight of a medial group,
/// how many values it is written with and which; and how many are written with a medial group and
/// its head, and with a vowel.
const MATCHING: [&str; 2] = ["syllable_text::part::put_part", "jogcairn_write"];

/// What a program has of std to tell why a read or a write failed: its functions and texts, its kinds
/// of errors by their numbers, and what only these lead to. No answer comes from there.
const TELLING: [&str; 3] = [
    "listing::running::fail",
    "listing::running::is_interrupted",
    "std_io::io::error::Error::from_raw_os_error",
];

/// What is named there as what failed, and how the answer to a line begins.
const TOLD: [&str; 4] = ["standard input", "standard output", "OK ", "NO "];

/// How many refusals there are (the variants of `Refusal` in crates/refusals/src/lib.rt): a call
/// jumps by its refusal where it packs its answer.
const REFUSALS: usize = 16;

/// The bytes of read-only memory that the archive takes. The price-label terminal has little left,
/// so a request that needs more has to raise this, knowingly.
const BUDGET: usize = 4_040;

/// How many values the rules are stored for: 1000 to 104F.
const CHART: usize = 80;

/// Values that do the same to a reading, as places behind 1000, each from, to and one between that
/// does another thing: letters that may be a final, but for 1004, which may become kinzi; independent
/// vowels; and digits, stops and signs, but for 104E.
const ALIKE: [(usize, usize, usize); 3] =
    [(0x00, 0x20, 0x04), (0x23, 0x2A, 0x28), (0x40, 0x4F, 0x4E)];

/// The function whose code a section is: each has one of its own, named after it, and a generic one
/// after its types as well.
fn function(section: &str) -> &str {
    let name = section.strip_prefix(".text.").unwrap_or(section);
    name.split_once("::<").map_or(name, |it| it.0)
}

/// The function of whose `match` the compiler made this list; it numbers the lists.
fn matching(section: &str) -> Option<&str> {
    let list = section.strip_prefix(".rodata..Lswitch.table.")?;
    let numbered = list.rsplit_once('.').filter(|it| it.1.parse::<u32>().is_ok());
    Some(numbered.map_or(list, |it| it.0))
}

/// The function whose code has the rules, if this list is one of them.
fn ruled(section: &str) -> Option<&str> {
    matching(section).filter(|it| RULED.contains(it))
}

/// A stored list that is not known here. Constants that fill one register and jump tables are no
/// such lists; other rules look at them.
fn unknown_list(name: &str, section: &Section) -> Option<String> {
    let size = section.bytes.len();
    let jumps: usize = section.tables.values().map(|entries| 4 * entries.len()).sum();
    let known = match matching(name) {
        Some(function) => MATCHING.contains(&function) || RULED.contains(&function),
        None => {
            let is_text = TOLD.iter().any(|it| it.as_bytes() == section.bytes);
            name.starts_with(".rodata.cst") || jumps == size || is_text
        }
    };
    (!known).then(|| format!("{size} bytes that no rule knows"))
}

/// Jumps by more than the refusals, which may be jumps by the heads; but for the one that tells of a
/// value whether it is foreign, and no more.
fn long_jumps(section: &Section) -> Vec<String> {
    let jump = |(start, entries): (&i64, &Vec<Target>)| {
        let places = entries.iter().collect::<BTreeSet<_>>().len();
        let foreign = entries.iter().all(|target| function(&target.0) == FOREIGN_FROM);
        let long = if foreign { places > 2 } else { entries.len() > REFUSALS };
        long.then(|| format!("at byte {start}: {} jumps, to {places} places", entries.len()))
    };
    section.tables.iter().filter_map(jump).collect()
}

/// Rules that tell heads apart which do the same to a reading: what weighs differently and has the
/// same rules has no weight from there.
fn told_apart(object: &Object) -> Vec<String> {
    let rules = object.sections.iter().filter(|it| ruled(it.0).is_some());
    let rules: Vec<_> = rules.map(|(name, section)| (name, &section.bytes)).collect();
    let count = |of| rules.iter().filter(|it| ruled(it.0) == Some(of)).count();
    // A program that does not ask for the amounts has no list of them.
    let [own, others @ ..] = RULED.map(count);
    let of_each = matches!(own, 0 | 3) && others.iter().all(|it| matches!(it, 0 | 2 | 3));
    let is_faulty = |bytes: &[u8]| bytes.is_empty() || bytes.len() % CHART != 0;
    if rules.is_empty() || !of_each || rules.iter().any(|it| is_faulty(it.1)) {
        return vec![format!("the rules are not picks, outcomes and amounts of {CHART} values")];
    }
    let mut complaints = Vec::new();
    for (name, bytes) in rules {
        let entries: Vec<&[u8]> = bytes.chunks(bytes.len() / CHART).collect();
        for (from, to, but) in ALIKE {
            let other = (from..=to).find(|&it| it != but && entries[it] != entries[from]);
            let tell = |it| format!("{name}: tells 10{from:02X} and 10{it:02X} apart");
            complaints.extend(other.map(tell));
        }
    }
    complaints
}

/// Functions that work out the weight of a head and are not known for it, and known ones that do not.
fn weighing_elsewhere(object: &Object, weighing: &[&str]) -> Vec<String> {
    let names = |bytes: &[u8], end: u16| bytes.windows(2).any(|two| two == end.to_le_bytes());
    let code = object.sections.iter().filter(|it| it.1.is_code);
    let found = code.filter(|it| ENDS.iter().all(|&end| names(&it.1.bytes, end)));
    let found: BTreeSet<&str> = found.map(|it| function(it.0)).collect();
    let known: BTreeSet<&str> = weighing.iter().copied().collect();
    let more = found.difference(&known).map(|it| format!("{it} names the ranges of heads"));
    let fewer = known.difference(&found).map(|it| format!("{it} names no ranges of heads"));
    more.chain(fewer).collect()
}

/// What the code on the way to the weights of heads refers to, and may not.
fn looked_up(object: &Object, (way, lists, tables, calls): &Way) -> Vec<String> {
    let name = format!(".text.{way}");
    let Some(section) = object.sections.get(&name) else { return Vec::new() };
    let (mut medials, mut jumps) = (BTreeSet::new(), BTreeSet::new());
    let mut complaints = Vec::new();
    for (at, target) in &section.references {
        let (other, offset) = target;
        let data = object.sections.get(other).filter(|section| !section.is_code);
        let from = data.and_then(|data| data.bytes.get(usize::try_from(*offset).ok()?..));
        if from.is_some_and(|bytes| bytes.starts_with(&MEDIALS)) {
            medials.insert(target);
        } else if data.is_some_and(|data| data.tables.contains_key(offset)) {
            jumps.insert(target);
        } else if ruled(other).is_some() {
            // They tell no heads apart that weigh differently: `told_apart` sees to that.
        } else if data.is_some() {
            complaints.push(format!("{name} refers to {other} at byte {offset}, at its byte {at}"));
        } else if !calls.contains(&function(other)) {
            complaints.push(format!("{name} calls {}, at its byte {at}", function(other)));
        }
    }
    if medials.len() != *lists || jumps.len() > *tables {
        let found = format!("{} medial lists and {} jump tables", medials.len(), jumps.len());
        complaints.push(format!("{name} has {found}, not {lists} and {tables}"));
    }
    complaints
}

/// More read-only memory than the terminal has.
fn memory_needed(object: &Object) -> Option<String> {
    let sections = object.sections.values().filter(|it| it.is_data && it.is_read_only);
    let size: usize = sections.map(|section| section.bytes.len()).sum();
    (size > BUDGET).then(|| format!("read-only memory: {size} bytes, more than {BUDGET}"))
}

/// What the rules have against an object in which these functions work out the weights of heads.
fn complaints(object: &Object, weighing: &[&str]) -> Vec<String> {
    let mut complaints = told_apart(object);
    for (name, section) in &object.sections {
        let mut found = Vec::new();
        if section.is_data {
            found.extend(runs::in_data(&section.bytes));
            found.extend(unknown_list(name, section));
            found.extend(long_jumps(section));
        } else if section.is_code {
            found.extend(runs::in_code(&section.bytes));
        }
        complaints.extend(found.iter().map(|found| format!("{name}: {found}")));
    }
    complaints.extend(weighing_elsewhere(object, weighing));
    complaints.extend(WAYS.iter().flat_map(|way| looked_up(object, way)));
    complaints.extend(memory_needed(object));
    complaints
}

/// Reads an object without what tells why a call failed.
fn read(objdump: &str, file: &Path) -> Result<Object, String> {
    let mut object = Object::read(objdump, file)?;
    object.leave_out(&TELLING);
    Ok(object)
}

/// The archive that is linked, in the folder that `JOGCAIRN_LIB` names or in the repository's own,
/// and the objects of the programs; the functions of each that work out the weights of heads; and
/// the command that makes it.
fn compiled() -> [(PathBuf, &'static [&'static str], &'static str); 3] {
    let target = Path::new(env!("CARGO_MANIFEST_DIR")).join("../target");
    let folder = env::var_os("JOGCAIRN_LIB").map_or_else(|| target.clone(), PathBuf::from);
    [
        (folder.join("libjogcairn.a"), &[FILL, COMPARE], "scripts/archive"),
        (target.join("obj/wordlist.o"), &[FILL], "scripts/prove wordlist"),
        // A skeleton asks for no weight.
        (target.join("obj/labels.o"), &[], "scripts/prove labels"),
    ]
}

#[test]
fn neither_the_archive_nor_a_program_has_a_list_of_head_weights() {
    for (path, weighing, command) in compiled() {
        assert!(path.is_file(), "`{command}`, run at the top, makes {path:?}, which is missing");
        let object = read("objdump", &path).unwrap_or_else(|error| panic!("{error}"));
        let complaints = complaints(&object, weighing);
        assert!(complaints.is_empty(), "{path:?}:\n{}", complaints.join("\n"));
    }
}
