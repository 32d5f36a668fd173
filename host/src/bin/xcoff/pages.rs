//! Pages for man and completion for bash, made from the same list of commands and the same help as `xcoff help`.

use crate::syntax::{self, Command, COMMANDS};

/// The page of a command, or of the tool as a whole.
pub fn man(command: Option<&Command>) -> String {
    match command {
        Some(command) => command_page(command),
        None => overview_page(),
    }
}

fn command_page(command: &Command) -> String {
    let mut page = title(&format!("xcoff-{}", command.name), command.summary);
    page.push_str(".SH SYNOPSIS\n");
    let usage = text(command.usage);
    page.push_str(&format!(".B xcoff {}\n{usage}\n", command.name));
    page.push_str(".SH DESCRIPTION\n");
    let blocks: Vec<&str> = command.help.trim_end().split("\n\n").collect();
    for block in &blocks {
        page.push_str(&match block.as_bytes().first() {
            Some(b' ') => format!(".PP\n{}", example(block)),
            Some(b'-') => options(block),
            _ => format!(".PP\n{}\n", text(block)),
        });
    }
    page.push_str(&format!(
        ".SH EXIT STATUS\n{}\n",
        text(syntax::exit_status().trim_end())
    ));
    page.push_str(".SH SEE ALSO\n.BR xcoff (1)\n");
    page
}

fn overview_page() -> String {
    let mut page = title("xcoff", "reads, plans, builds and moves XCOFF modules");
    page.push_str(".SH SYNOPSIS\n.B xcoff\n\\fICOMMAND\\fR \\fIARGUMENT\\fR...\n.SH DESCRIPTION\n");
    for block in syntax::overview().trim_end().split("\n\n").skip(1) {
        page.push_str(&match block.starts_with("  ") {
            true => format!(".PP\n{}", example(block)),
            false => format!(".PP\n{}\n", text(block)),
        });
    }
    page.push_str(".SH SEE ALSO\n");
    let all: Vec<String> = COMMANDS
        .iter()
        .map(|command| format!(".BR xcoff-{} (1)", command.name))
        .collect();
    page.push_str(&format!("{}\n", all.join(",\n")));
    page
}

fn title(name: &str, summary: &str) -> String {
    format!(
        ".TH {} 1 \"\" \"xcoff {}\"\n.SH NAME\n{} \\- {}\n",
        name.to_uppercase(),
        env!("CARGO_PKG_VERSION"),
        text(name),
        text(summary)
    )
}

/// Plain words: no line begins a request, no character is a macro's.
fn text(words: &str) -> String {
    let line = |line: &str| {
        let line = line.replace('\\', "\\e").replace('-', "\\-");
        match line.starts_with(['.', '\'']) {
            true => format!("\\&{line}"),
            false => line,
        }
    };
    words.lines().map(line).collect::<Vec<_>>().join("\n")
}

/// Lines as they stand.
fn example(block: &str) -> String {
    format!(".nf\n{}\n.fi\n", text(block))
}

/// Each option with what it does: two blanks or more stand between them, and before what a line goes on with.
fn options(block: &str) -> String {
    let mut page = String::from(".SH OPTIONS\n");
    for line in block.lines() {
        match line.split_once("  ") {
            Some((option, words)) if option.starts_with('-') => {
                let option = text(option);
                page.push_str(&format!(".TP\n.B {option}\n{}\n", text(words.trim_start())));
            }
            _ => page.push_str(&format!("{}\n", text(line.trim_start()))),
        }
    }
    page
}

/// Commands, their options and the words that these take; everything else is a file's name.
pub fn bash() -> String {
    let names: Vec<&str> = COMMANDS.iter().map(|command| command.name).collect();
    let mut cases = String::new();
    for command in &COMMANDS {
        let options: Vec<&str> = command.options.iter().map(|flag| flag.name).collect();
        cases.push_str(&format!(
            "        {}) options='{} --help' ;;\n",
            command.name,
            options.join(" ")
        ));
    }
    let mut choices = String::new();
    for (name, words) in choices_of() {
        choices.push_str(&format!(
            "        {name}) COMPREPLY=($(compgen -W '{words}' -- \"$word\")); return ;;\n"
        ));
    }
    format!(
        "# Completion of xcoff for bash, made by 'xcoff help --bash'.
_xcoff() {{
    local word=${{COMP_WORDS[COMP_CWORD]}} before=${{COMP_WORDS[COMP_CWORD - 1]}} options=
    COMPREPLY=()
    if [ \"$COMP_CWORD\" -eq 1 ]; then
        COMPREPLY=($(compgen -W '{names} help version' -- \"$word\"))
        return
    fi
    if [ \"${{COMP_WORDS[1]}}\" = help ]; then
        COMPREPLY=($(compgen -W '{names}' -- \"$word\"))
        return
    fi
    case $before in
{choices}    esac
    case ${{COMP_WORDS[1]}} in
{cases}    esac
    case $word in
        -*) COMPREPLY=($(compgen -W \"$options\" -- \"$word\")) ;;
        *) compopt -o default 2>/dev/null ;;
    esac
}}
complete -F _xcoff xcoff
",
        names = names.join(" ")
    )
}

/// Options whose value is one of some words: of `text|data|IMPORT` those in small letters.
fn choices_of() -> Vec<(&'static str, String)> {
    let mut found = Vec::new();
    for flag in COMMANDS.iter().flat_map(|command| command.options) {
        let small = |word: &&str| word.chars().all(|c| c.is_ascii_lowercase());
        let words = flag.values.iter().flat_map(|value| value.split('|'));
        let words: Vec<&str> = words.filter(small).collect();
        if !words.is_empty() && found.iter().all(|(name, _)| *name != flag.name) {
            found.push((flag.name, words.join(" ")));
        }
    }
    found
}
