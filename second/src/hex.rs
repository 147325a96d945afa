//! Bytes as hex digits and back.

/// Two digits a byte, bytes parted by spaces.
pub fn digits_of(bytes: &[u8]) -> String {
    let pairs: Vec<String> = bytes.iter().map(|byte| format!("{byte:02x}")).collect();
    pairs.join(" ")
}

/// How many bytes there are, and their digits.
pub fn counted(bytes: &[u8]) -> String {
    format!("{} bytes: {}", bytes.len(), digits_of(bytes))
}

/// Spaces may stand anywhere between the digits. None where the text is no whole number of bytes in hex.
pub fn bytes_of(text: &str) -> Option<Vec<u8>> {
    let mut digits = Vec::new();
    for character in text.chars().filter(|character| !character.is_whitespace()) {
        digits.push(character.to_digit(16)? as u8);
    }
    if digits.len() % 2 != 0 {
        return None;
    }
    Some(
        digits
            .chunks(2)
            .map(|pair| 16 * pair[0] + pair[1])
            .collect(),
    )
}

#[cfg(test)]
mod tests {
    use super::*;

    #[test]
    fn bytes_come_back_from_their_digits() {
        let bytes = [0x00, 0x0a, 0xf5, 0xff];
        assert_eq!(digits_of(&bytes), "00 0a f5 ff");
        assert_eq!(bytes_of("00 0a F5ff"), Some(bytes.to_vec()));
        assert_eq!(bytes_of(""), Some(Vec::new()));
        assert_eq!(counted(&bytes), "4 bytes: 00 0a f5 ff");
    }

    #[test]
    fn text_that_is_no_hex_gives_nothing() {
        assert_eq!(bytes_of("0"), None);
        assert_eq!(bytes_of("0g"), None);
    }
}
