//! What makes a shell complete the words of this program, made from the table of commands.

use super::table::{Command, COMMANDS};
use super::{Answer, Failure};
use std::fmt::Write;

/// The completions for this shell.
pub fn of(shell: &str) -> Answer {
    match shell {
        "bash" => Ok(bash()),
        _ => Err(Failure::Use(format!("there are no completions for `{shell}`, only for bash"))),
    }
}

fn bash() -> String {
    let names: Vec<&str> = COMMANDS.iter().map(|command| command.name).collect();
    let names = names.join(" ");
    let mut cases = String::new();
    for command in &COMMANDS {
        let options: Vec<&str> = command.options.iter().map(|option| option.name).chain(["--help"]).collect();
        let _ = writeln!(
            cases,
            "        {}) options='{}' files='{}' ;;",
            command.name,
            options.join(" "),
            files(command, &names)
        );
    }
    format!(
        "\
# Completions of havdrims for bash.
_havdrims() {{
    local word=${{COMP_WORDS[COMP_CWORD]}} options files
    COMPREPLY=()
    if [ \"$COMP_CWORD\" -eq 1 ]; then
        mapfile -t COMPREPLY < <(compgen -W '{names} --help --version' -- \"$word\")
        return
    fi
    case ${{COMP_WORDS[1]}} in
{cases}        *) return ;;
    esac
    case $word in
        -*) mapfile -t COMPREPLY < <(compgen -W \"$options\" -- \"$word\") ;;
        *)
            if [ -n \"$files\" ]; then
                mapfile -t COMPREPLY < <(compgen -W \"$files\" -- \"$word\")
            else
                compopt -o filenames 2> /dev/null
                mapfile -t COMPREPLY < <(compgen -f -- \"$word\")
            fi
            ;;
    esac
}}
complete -F _havdrims havdrims
"
    )
}

/// The words that may stand behind a command, where they are no files.
fn files(command: &Command, names: &str) -> String {
    match command.words {
        ["[COMMAND]"] => format!("{names} rules"),
        ["SHELL"] => "bash".to_string(),
        _ => String::new(),
    }
}
