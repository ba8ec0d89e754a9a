//! An object file (ELF, 64 bits, little end first): its functions, what it lacks
//! and what of its memory can be written.

use std::collections::BTreeSet;

#[derive(Default)]
pub struct Object {
    pub functions: BTreeSet<String>,
    pub exported: BTreeSet<String>,
    /// What others must bring.
    pub missing: BTreeSet<String>,
    pub written: Vec<String>,
}

const SYMBOLS: u64 = 2;
const WRITE: u64 = 1;
const FUNCTION: u64 = 2;
const COMMON: u64 = 0xfff2;
const SYMBOL_BYTES: usize = 24;

pub fn read(bytes: &[u8]) -> Result<Object, String> {
    let file = File { bytes };
    file.object()
        .ok_or_else(|| "no object file that can be read here".to_string())
}

struct File<'a> {
    bytes: &'a [u8],
}

/// Where a section's record stands.
struct Section(usize);

impl File<'_> {
    fn number(&self, at: usize, count: usize) -> Option<u64> {
        let part = self.bytes.get(at..at + count)?.iter().rev();
        Some(part.fold(0, |all, &byte| all << 8 | u64::from(byte)))
    }

    /// Up to the next zero.
    fn text(&self, at: usize) -> Option<String> {
        let rest = self.bytes.get(at..)?;
        let end = rest.iter().position(|&byte| byte == 0)?;
        Some(String::from_utf8_lossy(&rest[..end]).into_owned())
    }

    fn section(&self, index: usize) -> Option<Section> {
        let (first, size) = (self.number(40, 8)?, self.number(58, 2)?);
        Some(Section(first as usize + index * size as usize))
    }

    /// Where what it holds stands.
    fn start(&self, section: &Section) -> Option<usize> {
        Some(self.number(section.0 + 24, 8)? as usize)
    }

    fn length(&self, section: &Section) -> Option<usize> {
        Some(self.number(section.0 + 32, 8)? as usize)
    }

    fn object(&self) -> Option<Object> {
        if !self.bytes.starts_with(b"\x7fELF\x02\x01") {
            return None;
        }
        let count = self.number(60, 2)? as usize;
        let sections: Option<Vec<Section>> = (0..count).map(|at| self.section(at)).collect();
        let sections = sections?;
        let mut object = Object {
            written: self.written(&sections)?,
            ..Object::default()
        };
        let is_symbols = |section: &&Section| self.number(section.0 + 4, 4) == Some(SYMBOLS);
        let symbols = sections.iter().rfind(is_symbols)?;
        let texts = self.section(self.number(symbols.0 + 40, 4)? as usize)?;
        let (first, texts) = (self.start(symbols)?, self.start(&texts)?);
        let places = first..first + self.length(symbols)?;
        // the first symbol is none
        for at in places.step_by(SYMBOL_BYTES).skip(1) {
            self.symbol(at, texts, &mut object)?;
        }
        Some(object)
    }

    /// The names of the sections that hold something and can be written.
    fn written(&self, sections: &[Section]) -> Option<Vec<String>> {
        let names = self.section(self.number(62, 2)? as usize)?;
        let names = self.start(&names)?;
        let mut all = Vec::new();
        for section in sections {
            let flags = self.number(section.0 + 8, 8)?;
            if flags & WRITE != 0 && self.length(section)? > 0 {
                all.push(self.text(names + self.number(section.0, 4)? as usize)?);
            }
        }
        Some(all)
    }

    fn symbol(&self, at: usize, texts: usize, object: &mut Object) -> Option<()> {
        let name = self.text(texts + self.number(at, 4)? as usize)?;
        let (info, home) = (self.number(at + 4, 1)?, self.number(at + 6, 2)?);
        if home == COMMON {
            object.written.push(name.clone());
        }
        if home == 0 {
            object.missing.insert(name.clone());
        } else if info >> 4 != 0 {
            object.exported.insert(name.clone());
        }
        if info & 15 == FUNCTION && home != 0 {
            object.functions.insert(name);
        }
        Some(())
    }
}
