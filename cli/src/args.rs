//! What is written behind a command's name: files, and options by their names.

use crate::files;
use crate::status::{usage, Stop};
use std::ffi::{OsStr, OsString};
use std::os::unix::ffi::OsStrExt;

/// The options that a command knows.
pub struct Options {
    /// Options that stand alone, as `--json`.
    pub flags: &'static [&'static str],
    /// Options with a value, as `--at 47.25,8.50`.
    pub values: &'static [&'static str],
}

/// Options with a value that every command knows.
pub const COMMON: [&str; 1] = ["--max-bytes"];

/// What was given.
#[derive(Debug, Default)]
pub struct Args {
    pub files: Vec<OsString>,
    flags: Vec<&'static str>,
    values: Vec<(&'static str, OsString)>,
}

impl Args {
    pub fn parse(words: Vec<OsString>, options: &Options) -> Result<Args, Stop> {
        let mut args = Args::default();
        let mut words = words.into_iter();
        while let Some(word) = words.next() {
            if word == "--" {
                args.files.extend(words);
                break;
            }
            if word == "-" || !word.as_bytes().starts_with(b"-") {
                args.files.push(word);
                continue;
            }
            let (name, value) = split(&word);
            args.option(&name, value, options, &mut words)?;
        }
        Ok(args)
    }

    fn option(
        &mut self,
        name: &str,
        value: Option<OsString>,
        options: &Options,
        words: &mut impl Iterator<Item = OsString>,
    ) -> Result<(), Stop> {
        if let Some(flag) = known(options.flags, name) {
            if value.is_some() {
                return usage(format!("{flag} takes no value"));
            }
            self.flags.push(flag);
            return Ok(());
        }
        let Some(option) = known(options.values, name).or_else(|| known(&COMMON, name)) else {
            return usage(format!("unknown option {name}"));
        };
        if self.value(option).is_some() {
            return usage(format!("{option} is given twice"));
        }
        match value.or_else(|| words.next()) {
            Some(value) => self.values.push((option, value)),
            None => return usage(format!("{option} needs a value")),
        }
        Ok(())
    }

    pub fn has(&self, flag: &str) -> bool {
        self.flags.contains(&flag)
    }

    pub fn value(&self, option: &str) -> Option<&OsStr> {
        let found = self.values.iter().find(|(name, _)| *name == option);
        found.map(|(_, value)| value.as_os_str())
    }

    /// A value as text, for all but names of files.
    pub fn word(&self, option: &str) -> Option<String> {
        self.value(option)
            .map(|value| value.to_string_lossy().into_owned())
    }

    /// All bytes of a file, where they are not more than --max-bytes.
    pub fn read(&self, file: &OsStr) -> Result<Vec<u8>, Stop> {
        let most = self.number("--max-bytes", 1)?;
        files::read(file, most.unwrap_or(files::MOST_BYTES))
    }

    /// The one file that a command is about.
    pub fn one_file(&self) -> Result<&OsStr, Stop> {
        match self.files.as_slice() {
            [file] => Ok(file),
            [] => usage("no FILE is given"),
            _ => usage("more than one FILE is given"),
        }
    }

    /// The files of a command that is about many.
    pub fn many_files(&self) -> Result<&[OsString], Stop> {
        if self.files.is_empty() {
            return usage("no FILE is given");
        }
        if self.files.iter().filter(|file| *file == "-").count() > 1 {
            return usage("standard input can be read once only");
        }
        Ok(&self.files)
    }

    /// The value of an option that is one of several words, or the first of them.
    pub fn choice<T: Copy>(&self, option: &str, choices: &[(&str, T)]) -> Result<T, Stop> {
        let Some(word) = self.word(option) else {
            return Ok(choices[0].1);
        };
        match choices.iter().find(|(name, _)| *name == word) {
            Some((_, choice)) => Ok(*choice),
            None => {
                let names: Vec<&str> = choices.iter().map(|(name, _)| *name).collect();
                usage(format!(
                    "{option} {word}: expected one of {}",
                    names.join(", ")
                ))
            }
        }
    }

    /// The value of an option that is a number, counted from `first`.
    pub fn number(&self, option: &str, first: u64) -> Result<Option<u64>, Stop> {
        let word = self.word(option);
        word.map(|word| whole(option, &word, first)).transpose()
    }
}

/// A word that is a whole number from `first` on.
pub fn whole(name: &str, word: &str, first: u64) -> Result<u64, Stop> {
    match word.parse() {
        Ok(number) if number >= first && !word.starts_with('+') => Ok(number),
        _ => usage(format!(
            "{name} {word}: expected a whole number from {first} on"
        )),
    }
}

/// `--name=value` and `-oVALUE` are one word each. A value may be the name of a file, so its bytes are kept.
fn split(word: &OsStr) -> (String, Option<OsString>) {
    let bytes = word.as_bytes();
    let part = |bytes: &[u8]| OsStr::from_bytes(bytes).to_owned();
    let name = |bytes: &[u8]| String::from_utf8_lossy(bytes).into_owned();
    if !bytes.starts_with(b"--") && bytes.len() > 2 {
        return (name(&bytes[..2]), Some(part(&bytes[2..])));
    }
    match bytes.iter().position(|&byte| byte == b'=') {
        Some(end) => (name(&bytes[..end]), Some(part(&bytes[end + 1..]))),
        None => (name(bytes), None),
    }
}

fn known(options: &'static [&'static str], name: &str) -> Option<&'static str> {
    options.iter().copied().find(|&option| option == name)
}

#[cfg(test)]
mod tests {
    use super::*;

    const OPTIONS: Options = Options {
        flags: &["--json"],
        values: &["--at", "-o"],
    };

    fn parse(words: &str) -> Result<Args, Stop> {
        Args::parse(
            words.split_whitespace().map(OsString::from).collect(),
            &OPTIONS,
        )
    }

    #[test]
    fn options_stand_anywhere() {
        let args = parse("a --at -1.5,2 - --json -oOUT -- --at").unwrap();
        assert_eq!(args.files, ["a", "-", "--at"]);
        assert_eq!(args.word("--at").unwrap(), "-1.5,2");
        assert_eq!(args.word("-o").unwrap(), "OUT");
        assert!(args.has("--json"));
        assert_eq!(
            parse("--at=-1,2 -o x").unwrap().word("--at").unwrap(),
            "-1,2"
        );
    }

    #[test]
    fn words_that_are_not_understood() {
        for words in [
            "--jsn",
            "--json=1",
            "--at",
            "-o a -o b",
            "-x",
            "--at 1 --at=2",
        ] {
            assert!(parse(words).is_err(), "{words}");
        }
    }
}
