//! `ionex completion bash|zsh|fish`

use super::{Command, COMMANDS};
use crate::args::{Args, Options, COMMON};
use crate::carrier;
use crate::output::Output;
use crate::question::{KINDS, METHODS};
use crate::status::{usage, Status, Stop};

pub const COMMAND: Command = Command {
    name: "completion",
    does: "prints what a shell needs to complete commands and options: bash, zsh or fish",
    help: HELP,
    options: Options {
        flags: &[],
        values: &[],
    },
    run,
};

const HELP: &str = "\
Usage: ionex completion bash|zsh|fish

Prints the rules by which a shell completes the commands of ionex, their options and what these take. `./install` puts them
where the shells look for them. Without it:

  bash   source <(ionex completion bash)
  zsh    ionex completion zsh >_ionex, in a folder of $fpath
  fish   ionex completion fish | source

Exit status: 0 printed, 2 no such shell.
";

fn run(args: &Args, out: &mut Output) -> Result<Status, Stop> {
    let shell = args.files.first().map(|word| word.to_string_lossy());
    let rules = match shell.as_deref() {
        Some("bash") => bash(),
        Some("zsh") => zsh(),
        Some("fish") => fish(),
        Some(other) => return usage(format!("{other}: expected one of bash, zsh, fish")),
        None => return usage("no shell is given: bash, zsh or fish"),
    };
    out.put(rules)?;
    Ok(Status::Done)
}

/// The words that an option takes, where they are known.
fn words_of(option: &str) -> Vec<&'static str> {
    match option {
        "--kind" => KINDS.map(|(name, _)| name).to_vec(),
        "--method" => METHODS.map(|(name, _)| name).to_vec(),
        "--carrier" => carrier::names(),
        _ => Vec::new(),
    }
}

/// The options of a command, with those of all.
fn options(command: &Command) -> Vec<&'static str> {
    let Options { flags, values } = command.options;
    [flags, values, &COMMON, &["--help"]].concat()
}

fn names() -> String {
    let names: Vec<&str> = COMMANDS.iter().map(|command| command.name).collect();
    names.join(" ")
}

/// A word in single quotes.
fn quoted(words: &str) -> String {
    format!("'{}'", words.replace('\'', "'\\''"))
}

const KNOWN: [&str; 3] = ["--kind", "--method", "--carrier"];

fn bash() -> String {
    let arms: String = COMMANDS
        .iter()
        .map(|command| {
            format!(
                "        {}) words='{}' ;;\n",
                command.name,
                options(command).join(" ")
            )
        })
        .collect();
    let values: String = KNOWN
        .iter()
        .map(|option| format!("    {option}) words='{}' ;;\n", words_of(option).join(" ")))
        .collect();
    format!(
        "# bash completion for ionex
_ionex() {{
    local words= current=${{COMP_WORDS[COMP_CWORD]}}
    case ${{COMP_WORDS[COMP_CWORD - 1]}} in
{values}    esac
    if [[ $COMP_CWORD -eq 1 ]]; then
        words='{} --help --version'
    elif [[ $current == -* ]]; then
        case ${{COMP_WORDS[1]}} in
{arms}        esac
    elif [[ ${{COMP_WORDS[1]}} == completion ]]; then
        words='bash zsh fish'
    fi
    mapfile -t COMPREPLY < <(compgen -W \"$words\" -- \"$current\")
}}
complete -o default -F _ionex ionex
",
        names()
    )
}

fn zsh() -> String {
    let described: String = COMMANDS
        .iter()
        .map(|command| {
            format!(
                "    {}\n",
                quoted(&format!("{}:{}", command.name, command.does))
            )
        })
        .collect();
    let option = |command: &Command, option: &'static str| match words_of(option).join(" ") {
        _ if !command.options.values.contains(&option) && !COMMON.contains(&option) => {
            quoted(option)
        }
        words if words.is_empty() && option == "-o" => quoted("-o:file:_files"),
        words if words.is_empty() => quoted(&format!("{option}:value:")),
        words => quoted(&format!("{option}:value:({words})")),
    };
    let arms: String = COMMANDS
        .iter()
        .map(|command| {
            let all = options(command)
                .into_iter()
                .map(|name| option(command, name));
            let all = all.collect::<Vec<_>>().join(" ");
            let rest = match command.name {
                "completion" => "':shell:(bash zsh fish)'",
                _ => "'*:file:_files'",
            };
            format!("{}) _arguments {all} {rest} ;;\n", command.name)
        })
        .collect();
    format!(
        "#compdef ionex
local -a commands=(
{described})
if (( CURRENT == 2 )); then
    _describe command commands
    return
fi
shift words
(( CURRENT-- ))
case $words[1] in
{arms}esac
"
    )
}

fn fish() -> String {
    let mut lines = vec!["# fish completion for ionex".to_string()];
    for command in COMMANDS {
        let (name, does) = (command.name, quoted(command.does));
        lines.push(format!(
            "complete -c ionex -n __fish_use_subcommand -f -a {name} -d {does}"
        ));
        let of = format!("complete -c ionex -n '__fish_seen_subcommand_from {name}'");
        for option in options(command) {
            let written = match option.strip_prefix("--") {
                Some(long) => format!("-l {long}"),
                None => format!("-s {}", option.trim_start_matches('-')),
            };
            let takes = command.options.values.contains(&option) || COMMON.contains(&option);
            let value = match (takes, words_of(option).join(" ")) {
                (false, _) => String::new(),
                (true, words) if words.is_empty() && option == "-o" => " -r".to_string(),
                (true, words) if words.is_empty() => " -x".to_string(),
                (true, words) => format!(" -x -a '{words}'"),
            };
            lines.push(format!("{of} {written}{value}"));
        }
    }
    lines.push(
        "complete -c ionex -n '__fish_seen_subcommand_from completion' -f -a 'bash zsh fish'"
            .to_string(),
    );
    lines.join("\n") + "\n"
}
