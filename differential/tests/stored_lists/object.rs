//! A compiled object: its sections and what each of them refers to, as `objdump` prints it.

use std::collections::{BTreeMap, BTreeSet, HashMap};
use std::path::Path;
use std::process::Command;

/// A place in a section, which may be before its first byte; or a name that another object has.
pub type Target = (String, i64);

/// A part of what stands in memory when the program runs: code, or data, which is constants and what
/// variables begin with; or what tools alone read, which is neither.
#[derive(Default)]
pub struct Section {
    pub is_code: bool,
    pub is_data: bool,
    pub is_read_only: bool,
    pub bytes: Vec<u8>,
    /// The places whose bytes the linker fills in, and what they lead to.
    pub references: Vec<(i64, Target)>,
    /// The jump tables by their starts: what the entries of each lead to.
    pub tables: BTreeMap<i64, Vec<Target>>,
}

#[derive(Default)]
pub struct Object {
    pub sections: BTreeMap<String, Section>,
    symbols: HashMap<String, Target>,
}

impl Object {
    /// Reads an object, or an archive of one: in another member lists could stand that it refers to.
    pub fn read(objdump: &str, file: &Path) -> Result<Object, String> {
        let output = Command::new(objdump).arg("-hwtrs").arg(file).env("LC_ALL", "C").output();
        let output = output.map_err(|it| format!("{objdump}, of binutils, is needed: {it}"))?;
        let text = String::from_utf8_lossy(&output.stdout);
        let found: Vec<&str> = text.lines().filter(|line| line.contains(" file format ")).collect();
        if !output.status.success() || found.len() != 1 || !found[0].ends_with(" elf64-x86-64") {
            let error = String::from_utf8_lossy(&output.stderr);
            return Err(format!("{file:?} is not one object for x86-64: {found:?} {error}"));
        }
        let mut object = Object::default();
        let mut heading = "";
        for line in text.lines().filter(|line| !line.is_empty()) {
            if line.ends_with(':') && !line.starts_with(' ') {
                heading = line.trim_end_matches([':', ']']);
            } else if !line.starts_with("Idx ") && !line.starts_with("OFFSET ") {
                let added = object.add(heading, line);
                added.ok_or_else(|| format!("{objdump} says under '{heading}': {line}"))?;
            }
        }
        object.add_jump_tables();
        Ok(object)
    }

    /// Adds what a line says under its heading; none where it is not understood.
    fn add(&mut self, heading: &str, line: &str) -> Option<()> {
        let fields: Vec<&str> = line.split_whitespace().collect();
        if heading == "Sections" {
            let has = |flag: &str| fields.iter().any(|it| it.trim_end_matches(',') == flag);
            let mut section = Section { is_read_only: has("READONLY"), ..Section::default() };
            section.is_code = has("ALLOC") && has("CODE");
            section.is_data = has("ALLOC") && !has("CODE");
            let name = fields.get(1)?.to_string();
            return self.sections.insert(name, section).is_none().then_some(());
        }
        if heading == "SYMBOL TABLE" {
            let (place, symbol) = line.split_once('\t')?;
            let symbol = symbol.rsplit(' ').next()?.to_string();
            let section = place.rsplit(' ').next()?;
            // Names that another object has, and those of files, are in no section.
            let section = if section.starts_with('*') { &symbol } else { section };
            let target = (section.to_string(), number(fields[0])?);
            return self.symbols.insert(symbol, target).is_none().then_some(());
        }
        if let Some(name) = heading.strip_prefix("RELOCATION RECORDS FOR [") {
            let reference = self.reference(self.sections.get(name)?, &fields)?;
            self.sections.get_mut(name)?.references.push(reference);
        } else if let Some(name) = heading.strip_prefix("Contents of section ") {
            // Up to sixteen bytes in groups of four, behind their place and before their letters.
            let digits = line.trim_start().split_once(' ')?.1.get(..35)?.replace(' ', "");
            let bytes = (0..digits.len()).step_by(2).map(|at| number(digits.get(at..at + 2)?));
            let bytes: Option<Vec<u8>> = bytes.map(|byte| byte?.try_into().ok()).collect();
            self.sections.get_mut(name)?.bytes.extend(bytes?);
        }
        Some(())
    }

    /// The place of a relocation in a section, and what it leads to.
    fn reference(&self, section: &Section, fields: &[&str]) -> Option<(i64, Target)> {
        let [at, kind, value] = *fields else { return None };
        // Code counts from the end of the four bytes that are filled in.
        let behind = match kind.strip_prefix("R_X86_64_")? {
            "PC32" if !section.is_code => 0,
            "PC32" | "PLT32" | "GOTPCREL" | "GOTPCRELX" | "REX_GOTPCRELX" => 4,
            _ => return None,
        };
        let end = value.rfind("+0x").or(value.rfind("-0x")).unwrap_or(value.len());
        let (section, offset) = self.symbols.get(&value[..end])?;
        let addend = value[end..].replace("0x", "");
        let addend = if addend.is_empty() { 0 } else { number(&addend)? };
        Some((number(at)?, (section.clone(), offset + addend + behind)))
    }

    /// Leaves out these functions and what nothing else leads to, code and data; of a section of
    /// constants of one width, each constant for itself.
    pub fn leave_out(&mut self, functions: &[&str]) {
        let left = functions.iter().map(|it| (format!(".text.{it}"), 0));
        let left: BTreeSet<Target> = left.filter(|it| self.sections.contains_key(&it.0)).collect();
        let within = self.reached(left.iter().cloned().collect(), &BTreeSet::new());
        let outside = self.sections.keys().map(|name| (name.clone(), 0));
        let kept = self.reached(outside.filter(|it| !within.contains(it)).collect(), &left);
        for (name, part) in within.difference(&kept) {
            match width(name) {
                None => drop(self.sections.remove(name)),
                Some(width) => {
                    let bytes = self.sections.get_mut(name).map(|it| &mut it.bytes);
                    let start = usize::try_from(part * width).unwrap_or(usize::MAX);
                    let end = start.saturating_add(width as usize);
                    if let Some(constant) = bytes.and_then(|it| it.get_mut(start..end)) {
                        constant.fill(0);
                    }
                }
            }
        }
    }

    /// What references lead to from these places on, and the places, but for what stands behind a
    /// place that is a stop.
    fn reached(&self, mut places: Vec<Target>, stops: &BTreeSet<Target>) -> BTreeSet<Target> {
        let mut reached = BTreeSet::new();
        while let Some(place) = places.pop() {
            if let Some(section) = self.sections.get(&place.0) {
                let parts = section.references.iter().map(|(_, (name, offset))| {
                    (name.clone(), width(name).map_or(0, |width| offset / width))
                });
                let parts = parts.filter(|it| !stops.contains(it) && !reached.contains(it));
                places.extend(parts);
                reached.insert(place);
            }
        }
        reached
    }

    /// Where data leads to code is a jump table; of several in one section, each begins where code
    /// refers to. An entry tells how far its target is from the start of the table.
    fn add_jump_tables(&mut self) {
        let (code, data): (Vec<_>, Vec<_>) = self.sections.iter_mut().partition(|it| it.1.is_code);
        let starts = code.iter().flat_map(|it| &it.1.references).map(|it| it.1.clone());
        let starts: BTreeSet<Target> = starts.collect();
        for (name, section) in data {
            for (at, (function, offset)) in &section.references {
                let start = starts.range((name.clone(), 0)..=(name.clone(), *at)).next_back();
                let start = start.map_or(0, |start| start.1);
                if code.iter().any(|it| it.0 == function) {
                    let entry = (function.clone(), offset - (at - start));
                    section.tables.entry(start).or_default().push(entry);
                }
            }
        }
    }
}

/// How many bytes each constant of a section has, if it is one of constants of one width.
fn width(section: &str) -> Option<i64> {
    section.strip_prefix(".rodata.cst")?.parse().ok()
}

fn number(digits: &str) -> Option<i64> {
    i64::from_str_radix(digits, 16).ok()
}
