//! Bytes in hexadecimal, as document 01 writes them.

/// The bytes of a text such as "11 00 07".
pub fn parse(text: &str) -> Vec<u8> {
    let byte = |word| u8::from_str_radix(word, 16).expect("two hexadecimal digits");
    text.split_whitespace().map(byte).collect()
}

pub fn print(bytes: &[u8]) -> String {
    let words: Vec<String> = bytes.iter().map(|byte| format!("{byte:02X}")).collect();
    words.join(" ")
}
