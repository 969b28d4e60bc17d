//! What the sinks of JSON share.

use std::fmt::Write;

/// A text as a JSON string.
pub(crate) fn quoted(text: &str) -> String {
    let mut out = String::with_capacity(text.len() + 2);
    out.push('"');
    for letter in text.chars() {
        match letter {
            '"' => out += "\\\"",
            '\\' => out += "\\\\",
            control if (control as u32) < 32 => {
                let _ = write!(out, "\\u{:04x}", control as u32);
            }
            other => out.push(other),
        }
    }
    out.push('"');
    out
}

/// The members whose name no later one has.
pub(crate) fn last_of_each<'m, 'n>(members: &'m [(&'n str, String)]) -> impl Iterator<Item = &'m (&'n str, String)> {
    let alone = |(at, member): &(usize, &(&str, String))| members[at + 1..].iter().all(|later| later.0 != member.0);
    members.iter().enumerate().filter(alone).map(|(_, member)| member)
}

#[cfg(test)]
mod tests {
    use super::quoted;

    #[test]
    fn a_quoted_text_comes_back() {
        let text = "a \"word\" \\ \n \u{1} \u{1f600}";
        assert_eq!(serde_json::from_str::<String>(&quoted(text)).unwrap(), text);
    }
}
