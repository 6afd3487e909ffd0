//! Bytes as a word of a command line: hexadecimal digits, two for a byte. `41x300` stands for 300 times the byte 41, and `+` joins parts, as in
//! `0102+41x300+03`: a long input would not fit a command line otherwise.

/// A run of equal bytes that is longer than this is written short.
const LONG_RUN: usize = 16;

/// The word for these bytes.
pub fn write(bytes: &[u8]) -> String {
    let mut parts = vec![String::new()];
    let mut rest = bytes;
    while let Some(first) = rest.first() {
        let run = rest.iter().take_while(|byte| *byte == first).count();
        let digits = format!("{first:02x}");
        if run > LONG_RUN {
            parts.push(format!("{digits}x{run}"));
            parts.push(String::new());
        } else if let Some(part) = parts.last_mut() {
            part.push_str(&digits.repeat(run));
        }
        rest = &rest[run..];
    }
    parts.retain(|part| !part.is_empty());
    parts.join("+")
}

/// The bytes of a word.
pub fn read(word: &str) -> Result<Vec<u8>, String> {
    let mut bytes = Vec::new();
    for part in word.split('+') {
        match part.split_once('x') {
            None => bytes.extend(digits(part)?),
            Some((byte, count)) => {
                let count = count.parse().map_err(|_| format!("'{count}' is no count of bytes"))?;
                bytes.extend(digits(byte)?.repeat(count));
            }
        }
    }
    Ok(bytes)
}

fn digits(part: &str) -> Result<Vec<u8>, String> {
    let pairs = part.as_bytes().chunks(2);
    pairs.map(|pair| byte(pair).ok_or_else(|| format!("'{part}' is not pairs of hexadecimal digits"))).collect()
}

/// The byte of two hexadecimal digits.
pub fn byte(pair: &[u8]) -> Option<u8> {
    let digit = |at: usize| char::from(*pair.get(at)?).to_digit(16);
    if pair.len() != 2 {
        return None;
    }
    Some((digit(0)? * 16 + digit(1)?) as u8)
}
