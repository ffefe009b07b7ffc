//! A sheet's reader (document 01, "The sheet"). Every byte it steps over belongs to some well-formed sheet that begins
//! so, and it stops at the first byte that does not: the place of a refusal is where it stands.

use crate::shapes::{is_text_byte, Currency};

pub const SHEET_MOST: usize = 8192;
pub const NAME_MOST: usize = 35;
pub const TEXT_MOST: usize = 140;
pub const DEPTH_MOST: u8 = 12;
pub const ELEMENTS_MOST: usize = 256;

/// An element by its places in the sheet. Its text is empty where it holds elements; the outer one has depth 1.
#[derive(Clone, Copy)]
struct Element {
    name_from: u16,
    text_from: u16,
    name_long: u8,
    text_long: u8,
    parent: u8,
    depth: u8,
    currency: Option<Currency>,
}

const NO_ELEMENT: Element =
    Element { name_from: 0, text_from: 0, name_long: 0, text_long: 0, parent: 0, depth: 0, currency: None };

/// A well-formed sheet with its elements, each behind the one that holds it.
pub struct Sheet<'a> {
    bytes: &'a [u8],
    elements: [Element; ELEMENTS_MOST],
    count: usize,
}

impl<'a> Sheet<'a> {
    /// The sheet, or the place where it is refused.
    pub fn read(bytes: &'a [u8]) -> Result<Sheet<'a>, usize> {
        if bytes.len() > SHEET_MOST {
            return Err(SHEET_MOST);
        }
        let mut reader = Reader { place: 0, sheet: Sheet { bytes, elements: [NO_ELEMENT; ELEMENTS_MOST], count: 0 } };
        reader.take(b'<')?;
        reader.element(0, 1)?;
        if reader.place == bytes.len() {
            Ok(reader.sheet)
        } else {
            Err(reader.place)
        }
    }

    /// How many elements there are; they are numbered from 0, the outer one.
    pub fn count(&self) -> usize {
        self.count
    }

    pub fn depth(&self, element: usize) -> usize {
        usize::from(self.elements[element].depth)
    }

    pub fn parent(&self, element: usize) -> usize {
        usize::from(self.elements[element].parent)
    }

    pub fn name(&self, element: usize) -> &'a [u8] {
        let element = &self.elements[element];
        part(self.bytes, element.name_from, element.name_long)
    }

    /// What it holds where that is text.
    pub fn text(&self, element: usize) -> Option<&'a [u8]> {
        let element = &self.elements[element];
        match element.text_long {
            0 => None,
            long => Some(part(self.bytes, element.text_from, long)),
        }
    }

    pub fn currency(&self, element: usize) -> Option<Currency> {
        self.elements[element].currency
    }
}

fn part(bytes: &[u8], from: u16, long: u8) -> &[u8] {
    &bytes[usize::from(from)..usize::from(from) + usize::from(long)]
}

struct Reader<'a> {
    place: usize,
    sheet: Sheet<'a>,
}

impl<'a> Reader<'a> {
    fn next(&self) -> Option<u8> {
        self.sheet.bytes.get(self.place).copied()
    }

    /// Steps over a byte that must stand here.
    fn take(&mut self, byte: u8) -> Result<(), usize> {
        if self.next() == Some(byte) {
            self.place += 1;
            Ok(())
        } else {
            Err(self.place)
        }
    }

    fn take_all(&mut self, bytes: &[u8]) -> Result<(), usize> {
        bytes.iter().try_for_each(|byte| self.take(*byte))
    }

    /// Steps over bytes of a sort, at most so many.
    fn run(&mut self, most: usize, is_of_sort: impl Fn(u8) -> bool) -> usize {
        let rest = &self.sheet.bytes[self.place..];
        let long = rest.iter().take(most).take_while(|byte| is_of_sort(**byte)).count();
        self.place += long;
        long
    }

    /// A name: 1 to 35 letters or digits, the first a letter.
    fn name(&mut self) -> Result<(u16, u8), usize> {
        let from = self.place;
        match self.next() {
            Some(byte) if byte.is_ascii_alphabetic() => {
                let long = self.run(NAME_MOST, |byte| byte.is_ascii_alphanumeric());
                Ok((from as u16, long as u8))
            }
            _ => Err(from),
        }
    }

    /// The currency behind an opening name, where there is one: ` Ccy="`, three capitals, `"`.
    fn currency(&mut self) -> Result<Option<Currency>, usize> {
        if self.next() != Some(b' ') {
            return Ok(None);
        }
        self.take_all(b" Ccy=\"")?;
        let from = self.place;
        if self.run(3, |byte| byte.is_ascii_uppercase()) < 3 {
            return Err(self.place);
        }
        let bytes = self.sheet.bytes;
        self.take(b'"')?;
        Ok(Some([bytes[from], bytes[from + 1], bytes[from + 2]]))
    }

    /// An element whose `<` has been read, to the end of its closing name.
    fn element(&mut self, parent: u8, depth: u8) -> Result<(), usize> {
        let (name_from, name_long) = self.name()?;
        let currency = self.currency()?;
        self.take(b'>')?;
        let at = self.sheet.count;
        self.sheet.elements[at] = Element { name_from, name_long, parent, depth, currency, ..NO_ELEMENT };
        self.sheet.count += 1;
        let may_hold_elements = depth < DEPTH_MOST && currency.is_none() && self.sheet.count < ELEMENTS_MOST;
        if may_hold_elements && self.next() == Some(b'<') {
            self.place += 1;
            self.children(at as u8, depth + 1)?;
        } else {
            self.text(at)?;
        }
        let bytes = self.sheet.bytes;
        self.take_all(part(bytes, name_from, name_long))?;
        self.take(b'>')
    }

    /// One or more elements, the first one's `<` read, to the `</` of the element that holds them.
    fn children(&mut self, parent: u8, depth: u8) -> Result<(), usize> {
        self.element(parent, depth)?;
        loop {
            self.take(b'<')?;
            if self.next() == Some(b'/') {
                self.place += 1;
                return Ok(());
            }
            if self.sheet.count == ELEMENTS_MOST {
                return Err(self.place);
            }
            self.element(parent, depth)?;
        }
    }

    /// A text of 1 to 140 bytes, to the `</` behind it.
    fn text(&mut self, element: usize) -> Result<(), usize> {
        let from = self.place;
        let long = self.run(TEXT_MOST, is_text_byte);
        if long == 0 {
            return Err(from);
        }
        self.sheet.elements[element].text_from = from as u16;
        self.sheet.elements[element].text_long = long as u8;
        self.take_all(b"</")
    }
}
