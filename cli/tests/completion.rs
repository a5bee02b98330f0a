//! What shells complete.

mod common;

use common::{ionex, Folder};
use ionex_cli::commands::COMMANDS;
use std::process::Command;

/// What bash offers behind these words, the last of which is being written.
fn bash(words: &[&str]) -> Vec<String> {
    let folder = Folder::new();
    let rules = folder.file("rules", ionex(&["completion", "bash"]).done().as_bytes());
    let script = "source \"$1\"; shift; COMP_WORDS=(\"$@\"); COMP_CWORD=$(($# - 1)); _ionex; printf '%s\\n' \"${COMPREPLY[@]}\"";
    let output = Command::new("bash")
        .args(["-c", script, "bash", &rules])
        .args(words)
        .output()
        .expect("bash");
    assert_eq!(String::from_utf8_lossy(&output.stderr), "");
    let offered = String::from_utf8(output.stdout).expect("ASCII");
    let lines = offered.lines().filter(|line| !line.is_empty());
    lines.map(str::to_string).collect()
}

#[test]
fn in_bash() {
    assert_eq!(bash(&["ionex", "ch"]), ["check", "choose"]);
    assert_eq!(bash(&["ionex", "--v"]), ["--version"]);
    assert_eq!(bash(&["ionex", ""]).len(), COMMANDS.len() + 2);
    assert_eq!(
        bash(&["ionex", "ask", "x", "--m"]),
        ["--method", "--max-bytes"]
    );
    assert_eq!(
        bash(&["ionex", "ask", "x", "--kind", ""]),
        ["tec", "rms", "height"]
    );
    assert_eq!(
        bash(&["ionex", "ask", "x", "--method", "n"]),
        ["nearest", "nearest-sun"]
    );
    assert_eq!(
        bash(&["ionex", "delay", "x", "--carrier", "E5"]),
        ["E5a", "E5b"]
    );
    assert_eq!(
        bash(&["ionex", "plot", "x", "--ma"]),
        ["--map", "--max", "--max-bytes"]
    );
    assert_eq!(bash(&["ionex", "completion", "f"]), ["fish"]);
    // Files are the shell's own matter.
    assert_eq!(bash(&["ionex", "check", ""]), [""; 0]);
}

/// Every command and option is in the rules of the two others; a shell that is installed finds no fault in them.
#[test]
fn in_zsh_and_fish() {
    let folder = Folder::new();
    let (zsh, fish) = (
        ionex(&["completion", "zsh"]),
        ionex(&["completion", "fish"]),
    );
    assert!(zsh.done().starts_with("#compdef ionex\n"));
    let biases = "'biases:shows the code biases of satellites and stations that stand in a file'\\''s header'";
    assert!(zsh.text().contains(biases));
    assert!(zsh.text().contains("'--kind:value:(tec rms height)'"));
    let check = "complete -c ionex -n '__fish_seen_subcommand_from check' -l json\n";
    assert!(fish.done().contains(check));
    let kind =
        "complete -c ionex -n '__fish_seen_subcommand_from ask' -l kind -x -a 'tec rms height'\n";
    assert!(fish.text().contains(kind));
    for command in COMMANDS {
        let name = command.name;
        let of_zsh = zsh
            .text()
            .lines()
            .find(|line| line.starts_with(&format!("{name}) ")));
        let of_fish = format!("complete -c ionex -n '__fish_seen_subcommand_from {name}' ");
        for option in command.options.flags.iter().chain(command.options.values) {
            assert!(
                of_zsh.is_some_and(|line| line.contains(&format!("'{option}"))),
                "{name} {option}"
            );
            let dashes = option.trim_start_matches('-');
            let written = [format!("-l {dashes}"), format!("-s {dashes}")];
            let mut lines = fish
                .text()
                .lines()
                .filter_map(|line| line.strip_prefix(&of_fish));
            assert!(
                lines.any(|line| written.iter().any(|word| line.starts_with(word))),
                "{name} {option}"
            );
        }
    }
    for (shell, rules) in [("zsh", &zsh), ("fish", &fish)] {
        let file = folder.file(shell, &rules.out);
        if let Ok(output) = Command::new(shell).args(["-n", &file]).output() {
            assert!(
                output.status.success(),
                "{shell}: {}",
                String::from_utf8_lossy(&output.stderr)
            );
        }
    }
}
