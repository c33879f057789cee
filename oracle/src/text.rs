//! The text form of an image, enough of it to read the examples, and the examples themselves.

/// The words of a text, or `None` where it has an error.
pub fn read(text: &str) -> Option<Vec<u32>> {
    let mut words = Vec::new();
    for line in text.lines() {
        let code = line.split('#').next().unwrap_or("");
        for digits in code.split_ascii_whitespace() {
            let plain = digits.len() <= 8 && digits.bytes().all(|byte| byte.is_ascii_hexdigit());
            if !plain {
                return None;
            }
            words.push(u32::from_str_radix(digits, 16).ok()?);
        }
    }
    Some(words)
}

/// An image as hexadecimal words, for printing.
pub fn show(words: &[u32]) -> String {
    let shown: Vec<String> = words.iter().map(|word| format!("{word:08X}")).collect();
    shown.join(" ")
}

/// One image for each line of a text that has words.
pub fn read_lines(text: &str) -> Vec<Vec<u32>> {
    text.lines().filter_map(read).filter(|words| !words.is_empty()).collect()
}

pub fn card() -> Vec<u32> {
    read(include_str!("../../examples/card.hex")).unwrap_or_default()
}

pub fn secret_branch() -> Vec<u32> {
    read(include_str!("../../examples/secret_branch.hex")).unwrap_or_default()
}

pub fn cut_short() -> Vec<u32> {
    read(include_str!("../../examples/cut_short.hex")).unwrap_or_default()
}

/// The card and its changes, refusals 2 to 12.
pub fn card_rows() -> Vec<Vec<u32>> {
    read_lines(include_str!("../../examples/card_rows.txt"))
}

pub fn shut_out() -> Vec<Vec<u32>> {
    read_lines(include_str!("../../examples/shut_out.txt"))
}

/// Every image of the examples.
pub fn all_examples() -> Vec<Vec<u32>> {
    let mut images = vec![card(), secret_branch(), cut_short()];
    images.extend(card_rows());
    images.extend(shut_out());
    images
}
