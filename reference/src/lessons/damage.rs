//! Sheets that are not well-formed, or only just: bytes changed, and structures at and beyond their limits.

use super::dice::Dice;
use super::drafts::capitals;
use crate::sheet::{DEPTH_MOST, ELEMENTS_MOST, NAME_MOST, SHEET_MOST, TEXT_MOST};

/// Bytes that mean something in a sheet, and neighbours of the ranges. A script's line holds all but the line feed.
const BYTES: &[u8] = b"<>/&\" =AZaz09@[`{:.-~Cc\x00\x09\x0d\x1f\x7f\x80\xff";

fn byte(dice: &mut Dice) -> u8 {
    match dice.below(3) {
        0 => b'<',
        _ => dice.pick(BYTES),
    }
}

/// Changes, inserts, leaves out or appends a byte, or cuts the sheet off.
pub fn one_byte(dice: &mut Dice, sheet: &mut Vec<u8>) {
    let place = dice.place(sheet.len());
    match dice.below(6) {
        0 => sheet[place] = byte(dice),
        1 => sheet[place] = sheet[place] ^ 32,
        2 => sheet.insert(place, byte(dice)),
        3 => {
            sheet.remove(place);
        }
        4 => sheet.truncate(place),
        _ => sheet.push(byte(dice)),
    }
    for byte in sheet.iter_mut().filter(|byte| **byte == b'\n') {
        *byte = b'.';
    }
}

/// Puts bytes right behind the last body element, where an ignored element may stand.
fn put_in_body(sheet: &mut Vec<u8>, bytes: &[u8]) {
    let closings: Vec<usize> = (1..sheet.len()).filter(|at| sheet[at - 1] == b'<' && sheet[*at] == b'/').collect();
    if closings.len() >= 2 {
        let at = closings[closings.len() - 2] - 1;
        sheet.splice(at..at, bytes.iter().copied());
    }
}

/// Ignored elements one in another, so that the deepest is as deep as allowed or one deeper.
pub fn deep(dice: &mut Dice, sheet: &mut Vec<u8>) {
    let count = usize::from(DEPTH_MOST) - 2 + dice.place(3) - usize::from(dice.chance(30));
    let mut bytes = b"<D>".repeat(count);
    bytes.extend_from_slice(if dice.chance(80) { b"x" } else { b"<" });
    bytes.extend_from_slice(&b"</D>".repeat(count));
    put_in_body(sheet, &bytes);
}

fn elements(sheet: &[u8]) -> usize {
    sheet.windows(2).filter(|pair| pair[0] == b'<' && pair[1] != b'/').count()
}

/// Ignored elements side by side, so that there are 255 to 257 in all; the last may hold a further one.
pub fn many(dice: &mut Dice, sheet: &mut Vec<u8>) {
    let count = (ELEMENTS_MOST - 1 + dice.place(3)).saturating_sub(elements(sheet));
    let mut bytes = b"<E>x</E>".repeat(count.saturating_sub(1));
    bytes.extend_from_slice(if dice.chance(60) { b"<E>x</E>" } else { b"<E><F>x</F></E>" });
    put_in_body(sheet, &bytes);
}

/// An ignored element whose name or text is as long as allowed or one byte longer.
pub fn long(dice: &mut Dice, sheet: &mut Vec<u8>) {
    let name_long = if dice.chance(50) { NAME_MOST - 1 + dice.place(2) } else { 1 };
    let text_long = if dice.chance(50) { TEXT_MOST + dice.place(2) } else { 1 };
    let name = format!("N{}", capitals(dice, name_long));
    let text = capitals(dice, text_long);
    put_in_body(sheet, format!("<{}>{}</{}>", name, text, name).as_bytes());
}

/// Ignored elements that make the sheet 8,191 to 8,194 bytes long.
pub fn wide(dice: &mut Dice, sheet: &mut Vec<u8>) {
    let wanted = SHEET_MOST - 1 + dice.place(4);
    let mut bytes = Vec::new();
    while sheet.len() + bytes.len() + 300 < wanted {
        bytes.extend_from_slice(format!("<W>{}</W>", capitals(dice, 100)).as_bytes());
    }
    let mut rest = wanted - sheet.len() - bytes.len();
    while rest > 0 {
        let text = if rest > 147 { 100 } else { rest.saturating_sub(7).max(1) };
        bytes.extend_from_slice(format!("<W>{}</W>", capitals(dice, text)).as_bytes());
        rest = rest.saturating_sub(text + 7);
    }
    put_in_body(sheet, &bytes);
}

/// An opening name with a currency that is none, or one on an element that holds elements.
pub fn currency(dice: &mut Dice, sheet: &mut Vec<u8>) {
    let texts: [&[u8]; 12] = [
        b"<C Ccy=\"UAH\">x</C>",
        b"<C Ccy=\"UAH\"><D>x</D></C>",
        b"<C Ccy=\"UA\">x</C>",
        b"<C Ccy=\"UAHH\">x</C>",
        b"<C Ccy=\"uah\">x</C>",
        b"<C  Ccy=\"UAH\">x</C>",
        b"<C Ccy='UAH'>x</C>",
        b"<C Ccy=\"UAH\" >x</C>",
        b"<C ccy=\"UAH\">x</C>",
        b"<C Ccy=\"U1H\">x</C>",
        b"<C Ccy=\"UAH\">x</C Ccy=\"UAH\">",
        b"<C >x</C>",
    ];
    let bytes = dice.pick(&texts);
    put_in_body(sheet, bytes);
}

/// Small sheets, well-formed and not, that are no message.
pub fn small(dice: &mut Dice) -> Vec<u8> {
    let texts = [
        "",
        "<",
        "<A",
        "<A>",
        "<A>x",
        "<A></A>",
        "<A>x</B>",
        "<A>x</A>",
        "<A>x</A>x",
        "<A>x</A><A>x</A>",
        "<1>x</1>",
        "<A1>x</A1>",
        "<A><B>x</B>x</A>",
        "<A>x<B>x</B></A>",
        "<A><B>x</B></A>",
        "<A> <B>x</B></A>",
        "<A>&amp;</A>",
        "<A/>",
        "<A>x</AA>",
        "<AA>x</A>",
        "<A>x</A",
        "x",
        " <A>x</A>",
        "<Document>x</Document>",
        "<Document><A>x</A></Document>",
        "<Document><LqdyCdtTrf>x</LqdyCdtTrf></Document>",
        "<Document><FIToFICstmrCdtTrf>x</FIToFICstmrCdtTrf></Document>",
        "<Document><FIToFIPmtStsReq Ccy=\"UAH\">x</FIToFIPmtStsReq></Document>",
        "<Document><FIToFIPmtStsRpt>x</FIToFIPmtStsRpt></Document>",
        "<LqdyCdtTrf>x</LqdyCdtTrf>",
        "<Document Ccy=\"UAH\">x</Document>",
        "<Document><LqdyCdtTrf><MsgHdr>x</MsgHdr></LqdyCdtTrf></Document>",
    ];
    dice.pick(&texts).as_bytes().to_vec()
}
