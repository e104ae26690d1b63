/// The bytes of a message that is written in hex, with blanks between them.
pub fn bytes(message: &str) -> Vec<u8> {
    let byte = |digits| u8::from_str_radix(digits, 16).expect("a message is written in hex");
    message.split_whitespace().map(byte).collect()
}
