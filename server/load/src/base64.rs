//! Base64 of numbers and keys, as feeds of Ripsawbean and etcd's gateway have them.

const LETTERS: &[u8; 64] = b"ABCDEFGHIJKLMNOPQRSTUVWXYZabcdefghijklmnopqrstuvwxyz0123456789+/";

pub fn encode(data: &[u8]) -> String {
    let mut text = String::with_capacity(data.len().div_ceil(3) * 4);
    for part in data.chunks(3) {
        let bits = part.iter().fold(0, |bits, byte| bits << 8 | u32::from(*byte)) << (8 * (3 - part.len()));
        for at in 0..4 {
            let letter = LETTERS[(bits >> (18 - 6 * at)) as usize & 63];
            text.push(if at <= part.len() { char::from(letter) } else { '=' });
        }
    }
    text
}

/// The number of twelve digits that sixteen letters are, or nothing where they are no such number.
pub fn number_in(letters: &[u8]) -> Option<usize> {
    let mut digits = [0; 12];
    for (part, found) in letters.get(..16)?.chunks_exact(4).zip(digits.chunks_exact_mut(3)) {
        let bits = part.iter().try_fold(0, |bits, letter| Some(bits << 6 | value_of(*letter)?))?;
        found.copy_from_slice(&bits.to_be_bytes()[1..]);
    }
    number_of(&digits)
}

pub fn number_of(digits: &[u8]) -> Option<usize> {
    std::str::from_utf8(digits).ok()?.parse().ok()
}

fn value_of(letter: u8) -> Option<u32> {
    LETTERS.iter().position(|one| *one == letter).map(|at| at as u32)
}

#[cfg(test)]
mod tests {
    use super::*;

    /// The test vectors of RFC 4648, section 10.
    #[test]
    fn encodes_as_the_standard_says() {
        let vectors =
            [("", ""), ("f", "Zg=="), ("fo", "Zm8="), ("foo", "Zm9v"), ("foob", "Zm9vYg=="), ("foobar", "Zm9vYmFy")];
        for (plain, encoded) in vectors {
            assert_eq!(encode(plain.as_bytes()), encoded);
        }
    }

    #[test]
    fn reads_numbers_and_nothing_else() {
        assert_eq!(number_in(encode(b"000000000042").as_bytes()), Some(42));
        assert_eq!(number_in(encode(b"abcdefghijkl").as_bytes()), None);
        assert_eq!(number_in(b"MDAw"), None);
    }
}
