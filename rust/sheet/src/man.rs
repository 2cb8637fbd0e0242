//! The manual page, from the words of the command line.
use clap::{Arg, Command};

// What troff takes for its own.
fn plain(text: &str) -> String {
    let text = text.replace('\\', "\\e").replace('-', "\\-");
    match text.chars().next() {
        Some('.' | '\'') => format!("\\&{}", text),
        _ => text,
    }
}

fn head(one: &Arg) -> String {
    let names = one.get_value_names().unwrap_or_default();
    let values: Vec<String> = names
        .iter()
        .map(|name| format!("\\fI{}\\fR", plain(name)))
        .collect();
    let takes = one.get_action().takes_values();
    match one.get_long() {
        Some(long) if takes => format!("\\fB\\-\\-{}\\fR {}", plain(long), values.join(" ")),
        Some(long) => format!("\\fB\\-\\-{}\\fR", plain(long)),
        None => values.join(" "),
    }
}

fn paragraph(one: &Arg) -> String {
    let mut text = format!(".TP\n{}\n", head(one));
    if let Some(help) = one.get_long_help().or_else(|| one.get_help()) {
        text.push_str(&format!(
            "{}.\n",
            plain(&help.to_string().replace('\n', " "))
        ));
    }
    let values = one.get_possible_values();
    for value in values
        .iter()
        .filter(|value| one.get_action().takes_values() && !value.is_hide_set())
    {
        let help = value
            .get_help()
            .map_or_else(String::new, |help| format!(": {}", help));
        text.push_str(&format!(
            ".br\n\\fB{}\\fR{}\n",
            plain(value.get_name()),
            plain(&help)
        ));
    }
    let defaults: Vec<String> = one
        .get_default_values()
        .iter()
        .map(|value| plain(&value.to_string_lossy()))
        .collect();
    if one.get_action().takes_values() && !defaults.is_empty() {
        text.push_str(&format!(".br\nWithout it: {}.\n", defaults.join(" ")));
    }
    text
}

/// In the language of man(7).
pub fn page(command: &Command, usage: &str, after: &str) -> String {
    let name = plain(command.get_name());
    let about = command
        .get_about()
        .map_or_else(String::new, ToString::to_string);
    let words: String = command
        .get_arguments()
        .filter(|one| one.get_long().is_none())
        .map(paragraph)
        .collect();
    let options: String = command
        .get_arguments()
        .filter(|one| one.get_long().is_some())
        .map(paragraph)
        .collect();
    let (example, after) = after.split_once("\n\n").unwrap_or(("", after));
    let statuses: Vec<String> = after
        .trim_start_matches("Status: ")
        .split("; ")
        .map(|line| format!(".br\n{}\n", plain(line)))
        .collect();
    format!(
        ".TH {} 1\n.SH NAME\n{} \\- {}\n.SH SYNOPSIS\n\\fB{}\\fR\n.SH DESCRIPTION\n{}{}.SH OPTIONS\n{}.SH EXIT STATUS\n{}.SH EXAMPLE\n{}\n",
        name.to_uppercase(),
        name,
        plain(&about.trim_end_matches('.').to_lowercase()),
        plain(usage),
        ".P\n",
        words,
        options,
        statuses.concat(),
        plain(example.trim_start_matches("Example: "))
    )
}
