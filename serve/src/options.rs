//! The words behind the program's name.

use crate::log::Form;
use std::ffi::OsString;
use std::path::PathBuf;
use std::time::Duration;

pub const USAGE: &str = "\
ionex-serve: the day's ionosphere maps over HTTP, for rovers and for people

Usage: ionex-serve --source NAME=PATH... [OPTIONS]
       ionex-serve FILE... [OPTIONS]

PATH is a file or a folder of IONEX files (.inx, .10i, packed as .gz or .Z too). A source may have several; the source that is
named first is preferred. FILE alone is of the source `maps`. What has changed is read beside the maps in use, and takes their
place only when it is accepted.

  --listen ADDRESS:PORT   where to listen, 127.0.0.1:8270 by default; port 0 takes a free one. There is no encryption and no
                          password: put a web server that has them in front of it where others than this machine ask
  --host NAME             a name by which it may be asked, beside addresses and localhost
  --every SECONDS         how often the files are looked at, 0.1 to 86400, 2 by default; SIGHUP looks at once
  --state FOLDER          keeps the texts in force there, and begins with them when it is started again
  --log plain|json        the form of the log, on standard error
  --help, --version
";

#[derive(Debug, PartialEq, Eq)]
pub struct Options {
    /// By preference, each with its paths.
    pub sources: Vec<(String, Vec<PathBuf>)>,
    pub listen: String,
    pub hosts: Vec<String>,
    pub every: Duration,
    pub state: Option<PathBuf>,
    pub log: Form,
}

#[derive(Debug, PartialEq, Eq)]
pub enum Given {
    Run(Options),
    Help,
    Version,
}

pub fn parse(words: impl IntoIterator<Item = OsString>) -> Result<Given, String> {
    let mut options = Options {
        sources: Vec::new(),
        listen: "127.0.0.1:8270".to_string(),
        hosts: Vec::new(),
        every: Duration::from_secs(2),
        state: None,
        log: Form::Plain,
    };
    let mut given = words.into_iter();
    while let Some(word) = given.next() {
        match word.to_str() {
            Some("--help" | "-h") => return Ok(Given::Help),
            Some("--version" | "-V") => return Ok(Given::Version),
            Some(option) if option.starts_with("--") => {
                let value = given.next().ok_or(format!("{option} needs a value"))?;
                options.take(option, value)?;
            }
            _ => options.add("maps", PathBuf::from(word)),
        }
    }
    if options.sources.is_empty() {
        return Err("no source is given; see ionex-serve --help".to_string());
    }
    Ok(Given::Run(options))
}

impl Options {
    fn take(&mut self, option: &str, value: OsString) -> Result<(), String> {
        if option == "--state" {
            self.state = Some(PathBuf::from(value));
            return Ok(());
        }
        let text = value.to_str().map(str::to_string);
        let text = text.ok_or(format!("{option} needs a value of text"))?;
        match option {
            "--source" => self.source(&text)?,
            "--listen" => self.listen = text,
            "--host" => self.hosts.push(text),
            "--every" => self.every = seconds(&text)?,
            "--log" => self.log = form(&text)?,
            _ => return Err(format!("unknown option {option}; see ionex-serve --help")),
        }
        Ok(())
    }

    fn source(&mut self, text: &str) -> Result<(), String> {
        let expected = "expected NAME=PATH, the name of letters, digits, - and _";
        let (name, path) = text
            .split_once('=')
            .ok_or(format!("--source {text}: {expected}"))?;
        let right = |byte: u8| byte.is_ascii_alphanumeric() || byte == b'-' || byte == b'_';
        if !(1..=32).contains(&name.len()) || !name.bytes().all(right) || path.is_empty() {
            return Err(format!("--source {text}: {expected}"));
        }
        self.add(name, PathBuf::from(path));
        Ok(())
    }

    fn add(&mut self, name: &str, path: PathBuf) {
        match self.sources.iter_mut().find(|(known, _)| known == name) {
            Some((_, paths)) => paths.push(path),
            None => self.sources.push((name.to_string(), vec![path])),
        }
    }
}

fn seconds(text: &str) -> Result<Duration, String> {
    let number: Option<f64> = text.parse().ok();
    let within = number.filter(|seconds| (0.1..=86_400.0).contains(seconds));
    let fault = || format!("--every {text}: expected 0.1 to 86400 seconds");
    within.map(Duration::from_secs_f64).ok_or_else(fault)
}

fn form(text: &str) -> Result<Form, String> {
    match text {
        "plain" => Ok(Form::Plain),
        "json" => Ok(Form::Json),
        _ => Err(format!("--log {text}: expected plain or json")),
    }
}

#[cfg(test)]
mod tests {
    use super::*;

    fn of(line: &str) -> Result<Given, String> {
        parse(line.split_whitespace().map(OsString::from))
    }

    #[test]
    fn sources_keep_their_order() {
        let line = "--source igs=/b --source cod=/c --source igs=/a file.inx --every 0.5 --log json --host a.example";
        let Ok(Given::Run(options)) = of(line) else {
            panic!("{:?}", of(line));
        };
        let path = |text: &str| PathBuf::from(text);
        let sources = [
            ("igs".to_string(), vec![path("/b"), path("/a")]),
            ("cod".to_string(), vec![path("/c")]),
            ("maps".to_string(), vec![path("file.inx")]),
        ];
        assert_eq!(options.sources, sources);
        assert_eq!(
            (options.every, options.log),
            (Duration::from_millis(500), Form::Json)
        );
    }

    #[test]
    fn wrong_words_are_told() {
        for (line, words) in [
            ("", "no source"),
            ("--source cod", "expected NAME=PATH"),
            ("--source a/b=c", "expected NAME=PATH"),
            ("--source cod=", "expected NAME=PATH"),
            ("a.inx --every 0", "expected 0.1 to 86400"),
            ("a.inx --every nan", "expected 0.1 to 86400"),
            ("a.inx --log xml", "plain or json"),
            ("a.inx --listen", "needs a value"),
            ("a.inx --mode x", "unknown option --mode"),
        ] {
            let told = of(line).expect_err(line);
            assert!(told.contains(words), "{line}: {told}");
        }
    }
}
