//! Full case folding of Unicode, by the case mappings of the standard library.

/// Adds the folded characters of a text.
pub fn fold_into(folded: &mut String, text: &str) {
    for character in text.chars() {
        if character.is_ascii() {
            folded.push(character.to_ascii_lowercase());
        } else {
            fold_char(folded, character);
        }
    }
}

/// A character folds as the lower case of its upper case, with these exceptions: `ı` stays, `ẞ` has no upper
/// case of two letters, and Cherokee letters fold to upper case.
fn fold_char(folded: &mut String, character: char) {
    match character {
        'ı' => folded.push(character),
        'ẞ' => folded.push_str("ss"),
        '\u{13a0}'..='\u{13fd}' | '\u{ab70}'..='\u{abbf}' => folded.extend(character.to_uppercase()),
        _ => folded.extend(character.to_uppercase().flat_map(char::to_lowercase)),
    }
}
