//! The manual page docs/cakirotu.1 has all that the command line has, and nothing else.

use clap::{Arg, Command, CommandFactory};

use crate::args::Line;
use crate::status::Status;

/// The page without the marks of fonts, and with plain dashes.
fn page() -> String {
    include_str!("../../docs/cakirotu.1").replace("\\-", "-").replace("\\fR", "").replace("\\fP", "")
}

/// What stands under a heading of the page, such as `.SS list`, up to the next one.
fn under<'a>(page: &'a str, heading: &str) -> &'a str {
    let begin =
        page.find(&format!("\n{heading}\n")).unwrap_or_else(|| panic!("{heading}: is not in the page")) + heading.len() + 2;
    let ends = ["\n.SS ", "\n.SH "].map(|next| page[begin..].find(next).unwrap_or(page.len() - begin));
    &page[begin..begin + ends[0].min(ends[1])]
}

/// The words of the lines that a paragraph is headed by, without macros.
fn headed(part: &str) -> Vec<&str> {
    let lines: Vec<&str> = part.lines().collect();
    let heads = lines.windows(2).filter(|pair| pair[0] == ".TP").map(|pair| pair[1]);
    heads.flat_map(|head| words(head).into_iter().skip(1)).collect()
}

fn words(text: &str) -> Vec<&str> {
    text.split(|c: char| c.is_whitespace() || "\",[]|".contains(c)).filter(|word| !word.is_empty()).collect()
}

/// An option as it is written: `-o` and `--output`.
fn written(arg: &Arg) -> Vec<String> {
    let short = arg.get_short().map(|short| format!("-{short}"));
    let long = arg.get_long().map(|long| format!("--{long}"));
    short.into_iter().chain(long).collect()
}

fn built() -> Command {
    let mut line = Line::command();
    line.build();
    line
}

/// What a command has beside `--help`, which stands under OPTIONS.
fn own(command: &Command) -> impl Iterator<Item = &Arg> {
    command.get_arguments().filter(|arg| arg.get_id() != "help")
}

#[test]
fn the_page_has_every_command_and_no_other() {
    let (page, line) = (page(), built());
    let mut headings: Vec<&str> = page.lines().filter_map(|line| line.strip_prefix(".SS ")).collect();
    let mut names: Vec<&str> = line.get_subcommands().map(Command::get_name).collect();
    headings.sort_unstable();
    names.sort_unstable();
    assert_eq!(headings, names);
}

#[test]
fn each_command_has_its_options_and_no_other() {
    let page = page();
    for command in built().get_subcommands() {
        let mut heads = headed(under(&page, &format!(".SS {}", command.get_name())));
        heads.retain(|word| word.starts_with('-'));
        let mut options: Vec<String> = own(command).flat_map(written).collect();
        heads.sort_unstable();
        options.sort_unstable();
        assert_eq!(heads, options, "{}", command.get_name());
    }
}

#[test]
fn each_command_has_its_arguments_with_their_values() {
    let page = page();
    for command in built().get_subcommands().filter(|command| command.get_name() != "help") {
        let said = words(under(&page, &format!(".SS {}", command.get_name())));
        for arg in own(command).filter(|arg| arg.get_action().takes_values()) {
            let names = arg.get_value_names().into_iter().flatten().map(|name| name.to_string());
            let values = arg.get_possible_values().into_iter().map(|value| value.get_name().to_string());
            let wanted: Vec<String> = names.chain(values.filter(|_| arg.is_positional())).collect();
            for word in wanted.iter().flat_map(|name| name.split('|')) {
                assert!(said.contains(&word), "{}: {word} is not in the page", command.get_name());
            }
        }
    }
}

#[test]
fn the_page_has_the_options_of_the_whole() {
    let mut heads: Vec<String> = headed(under(&page(), ".SH OPTIONS")).into_iter().map(str::to_string).collect();
    let mut options: Vec<String> = built().get_arguments().flat_map(written).collect();
    heads.sort_unstable();
    options.sort_unstable();
    assert_eq!(heads, options);
}

#[test]
fn the_page_has_every_exit_status() {
    let statuses = [Status::Listed, Status::Refused, Status::Unread].map(|status| (status as u8).to_string());
    assert_eq!(headed(under(&page(), ".SH EXIT STATUS")), statuses);
}
