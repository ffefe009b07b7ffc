//! The shapes a field's text may have (document 01, "Fields"), and the numbers a room keeps of them (docs/LAYOUT.md).

/// An identifier has 1 to 35 bytes.
pub const IDENTIFIER_MOST: usize = 35;

/// A room keeps an identifier in five numbers of seven bytes each.
pub const IDENTIFIER_NUMBERS: usize = 5;
const BYTES_IN_A_NUMBER: usize = IDENTIFIER_MOST / IDENTIFIER_NUMBERS;

/// The highest code of a participant: six digits.
pub const CODE_MOST: u64 = 999_999;

/// The largest amount: eleven digits and two behind the point, in kopecks.
pub const AMOUNT_MOST: u64 = 9_999_999_999_999;

/// Three capitals.
pub type Currency = [u8; 3];

pub const HRYVNIA: Currency = *b"UAH";

/// A UETR as a room keeps it: 32 hexadecimal digits in two numbers.
pub type Uetr = [u64; 2];

/// What stands for the UETR of a message that has none. No UETR is zeros: its version is 4.
pub const NO_UETR: Uetr = [0; 2];

/// An identifier: its bytes, and the numbers that a room keeps.
#[derive(Clone, Copy)]
pub struct Identifier<'a> {
    pub text: &'a [u8],
    pub stored: [u64; IDENTIFIER_NUMBERS],
}

/// Text is made of the bytes 32 to 126 without `<`, `>` and `&`.
pub fn is_text_byte(byte: u8) -> bool {
    (32..=126).contains(&byte) && byte != b'<' && byte != b'>' && byte != b'&'
}

fn is_digit_or_capital(byte: &u8) -> bool {
    byte.is_ascii_digit() || byte.is_ascii_uppercase()
}

/// The number that digits write; none where something else stands among them. At most 19 digits are ever given.
fn digits(text: &[u8]) -> Option<u64> {
    text.iter().try_fold(
        0u64,
        |number, byte| {
            if byte.is_ascii_digit() {
                Some(number * 10 + u64::from(byte - b'0'))
            } else {
                None
            }
        },
    )
}

/// An identifier: 1 to 35 bytes, whatever they are (a sheet holds text bytes alone).
pub fn identifier(text: &[u8]) -> Option<Identifier<'_>> {
    if text.is_empty() || text.len() > IDENTIFIER_MOST {
        return None;
    }
    let mut stored = [0; IDENTIFIER_NUMBERS];
    for (number, bytes) in stored.iter_mut().zip(text.chunks(BYTES_IN_A_NUMBER)) {
        let mut eight = [0u8; 8];
        eight[1..=bytes.len()].copy_from_slice(bytes);
        *number = u64::from_be_bytes(eight);
    }
    Some(Identifier { text, stored })
}

/// Whether numbers of a room are an identifier: seven bytes to a number, 1 to 35 text bytes, zeros behind them.
pub fn is_stored_identifier(numbers: &[u64]) -> bool {
    let mut ended = false;
    for number in numbers {
        let bytes = number.to_be_bytes();
        if bytes[0] != 0 {
            return false;
        }
        for byte in &bytes[1..] {
            if *byte == 0 {
                ended = true;
            } else if ended || !is_text_byte(*byte) {
                return false;
            }
        }
    }
    numbers[0] != 0
}

fn days_in_month(year: u64, month: u64) -> u64 {
    match month {
        2 if year % 4 == 0 => 29, // 2000 is a leap year too, and 2100 is out of range
        2 => 28,
        4 | 6 | 9 | 11 => 30,
        _ => 31,
    }
}

/// A real day of the years 2000 to 2099, written yyyymmdd.
pub fn is_date(date: u64) -> bool {
    let (year, month, day) = (date / 10_000, date / 100 % 100, date % 100);
    (2000..=2099).contains(&year) && (1..=12).contains(&month) && day >= 1 && day <= days_in_month(year, month)
}

/// The day before a real one. Before 2000-01-01 comes a day on which no message can have been created.
pub fn day_before(date: u64) -> u64 {
    let (year, month, day) = (date / 10_000, date / 100 % 100, date % 100);
    if day > 1 {
        date - 1
    } else if month > 1 {
        year * 10_000 + (month - 1) * 100 + days_in_month(year, month - 1)
    } else {
        (year - 1) * 10_000 + 1231
    }
}

/// A real time of those years, written yyyymmddhhmmss; seconds go to 59.
pub fn is_time(time: u64) -> bool {
    is_date(time / 1_000_000) && time / 10_000 % 100 < 24 && time / 100 % 100 < 60 && time % 100 < 60
}

/// A time, YYYY-MM-DDThh:mm:ss, as the number yyyymmddhhmmss.
pub fn time(text: &[u8]) -> Option<u64> {
    if text.len() != 19 || (text[4], text[7], text[10], text[13], text[16]) != (b'-', b'-', b'T', b':', b':') {
        return None;
    }
    let mut time = digits(&text[..4])?;
    for from in [5, 8, 11, 14, 17] {
        time = time * 100 + digits(&text[from..from + 2])?;
    }
    if is_time(time) {
        Some(time)
    } else {
        None
    }
}

/// M: six digits.
pub fn member(text: &[u8]) -> Option<u64> {
    if text.len() == 6 {
        digits(text)
    } else {
        None
    }
}

fn hexadecimal(text: &[u8], before: u64) -> Option<u64> {
    text.iter().try_fold(before, |number, byte| match byte {
        b'0'..=b'9' => Some(number << 4 | u64::from(byte - b'0')),
        b'a'..=b'f' => Some(number << 4 | u64::from(byte - b'a' + 10)),
        _ => None,
    })
}

/// A UETR has the version 4 and one of the variants 8, 9, a and b.
pub fn is_stored_uetr(uetr: &[u64]) -> bool {
    uetr[0] >> 12 & 15 == 4 && uetr[1] >> 62 == 2
}

/// A UETR: a UUID of version 4 in small letters, five groups of 8, 4, 4, 4 and 12 digits.
pub fn uetr(text: &[u8]) -> Option<Uetr> {
    if text.len() != 36 || [8, 13, 18, 23].iter().any(|place| text[*place] != b'-') {
        return None;
    }
    let high = hexadecimal(&text[14..18], hexadecimal(&text[9..13], hexadecimal(&text[..8], 0)?)?)?;
    let low = hexadecimal(&text[24..], hexadecimal(&text[19..23], 0)?)?;
    let uetr = [high, low];
    if is_stored_uetr(&uetr) {
        Some(uetr)
    } else {
        None
    }
}

/// An amount in kopecks: 1 to 11 digits, no needless zero in front, point, two digits, above zero.
pub fn amount(text: &[u8]) -> Option<u64> {
    if text.len() < 4 || text.len() > 14 {
        return None;
    }
    let (whole, rest) = text.split_at(text.len() - 3);
    if rest[0] != b'.' || (whole.len() > 1 && whole[0] == b'0') {
        return None;
    }
    match digits(whole)? * 100 + digits(&rest[1..])? {
        0 => None,
        kopecks => Some(kopecks),
    }
}

/// An IBAN: UA, 8 digits, 19 digits or capitals.
pub fn is_iban(text: &[u8]) -> bool {
    text.len() == 29
        && text.starts_with(b"UA")
        && text[2..10].iter().all(u8::is_ascii_digit)
        && text[10..].iter().all(is_digit_or_capital)
}

/// The remainder of an IBAN under MOD 97-10: its first four characters stand last, a letter counts from A = 10.
pub fn iban_remainder(iban: &[u8]) -> u32 {
    let (front, rest) = iban.split_at(4);
    rest.iter().chain(front).fold(0, |remainder, byte| {
        if byte.is_ascii_digit() {
            (remainder * 10 + u32::from(byte - b'0')) % 97
        } else {
            (remainder * 100 + u32::from(byte - b'A' + 10)) % 97
        }
    })
}

/// An account in a camt.050: one digit, six-digit code, three capitals.
#[derive(Clone, Copy)]
pub struct NamedAccount {
    pub digit: u64,
    pub code: u64,
    pub currency: Currency,
}

pub fn named_account(text: &[u8]) -> Option<NamedAccount> {
    if text.len() != 10 || !text[7..].iter().all(u8::is_ascii_uppercase) {
        return None;
    }
    Some(NamedAccount { digit: digits(&text[..1])?, code: digits(&text[1..7])?, currency: [text[7], text[8], text[9]] })
}

/// Whether an identifier is good and this sender's: its six-digit code, a real yyyymmdd, eight digits or capitals.
pub fn is_good_identifier_of(text: &[u8], sender: u64) -> bool {
    text.len() == 22
        && digits(&text[..6]) == Some(sender)
        && digits(&text[6..14]).map_or(false, is_date)
        && text[14..].iter().all(is_digit_or_capital)
}
