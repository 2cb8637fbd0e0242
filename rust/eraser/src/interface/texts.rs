//! What statuses mean, as texts of the library.
use super::Number;

/// The text of a number that is no status.
const NONE: &str = "no status";

/// What a status means: its documentation up to the first semicolon or full stop.
pub fn text_of(status: &Number) -> String {
    let whole = status.documentation.join(" ");
    let first = whole
        .split(|letter| letter == ';' || letter == '.')
        .next()
        .unwrap_or("");
    let mut letters = first.chars();
    let begin = letters
        .next()
        .map_or(String::new(), |first| first.to_lowercase().to_string());
    begin + letters.as_str()
}

/// The arms of a match in Rust.
pub fn texts_in_rust(statuses: &[Number]) -> String {
    let arm = |it: &Number| format!("    {} => {:?},\n", it.value, text_of(it));
    statuses.iter().map(arm).collect::<String>() + &format!("    _ => {:?},\n", NONE)
}

/// The function in C, for the archive of the kit.
pub fn texts_in_c(statuses: &[Number]) -> String {
    let arm = |it: &Number| format!("    case {}: return {:?};\n", it.value, text_of(it));
    format!(
        "/* Written by rust/erase from the exports of crates/guillotiere_c: don't edit. */\n\
         const char *guillotiere_status_text(__UINT32_TYPE__ status);\n\n\
         const char *guillotiere_status_text(__UINT32_TYPE__ status) {{\n    switch (status) {{\n{}    \
         default: return {:?};\n    }}\n}}\n",
        statuses.iter().map(arm).collect::<String>(),
        NONE
    )
}
