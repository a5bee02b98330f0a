//! What the tests over sockets share: the program in a folder of its own, texts to give it, and the second program as judge.
#![allow(dead_code)]

use ionex::Epoch;
use second::{Answer, Buffers, Question, Reading};
use serde_json::Value;
use std::fs::{self, File};
use std::io::{BufRead, BufReader, Read, Write};
use std::net::TcpStream;
use std::path::{Path, PathBuf};
use std::process::{Child, Command, ExitStatus, Stdio};
use std::time::{Duration, Instant, SystemTime};

/// No step of a test takes near so long; behind it the test fails.
pub const PATIENCE: Duration = Duration::from_secs(30);

/// An empty folder of this name.
pub fn folder(name: &str) -> PathBuf {
    let folder = PathBuf::from(env!("CARGO_TARGET_TMPDIR")).join(name);
    let _ = fs::remove_dir_all(&folder);
    fs::create_dir_all(&folder).expect("a folder");
    folder
}

/// The program, killed when it is dropped.
pub struct Service {
    pub child: Child,
    pub address: String,
    pub log: PathBuf,
}

impl Service {
    /// Started with these words beside a free port, looking five times a second, its log in a file of the folder.
    pub fn start(folder: &Path, words: &[&str]) -> Service {
        let log = folder.join("log.txt");
        let errors = File::options().create(true).append(true).open(&log);
        let mut command = Service::command(words);
        command.stderr(Stdio::from(errors.expect("a log")));
        Service::spawn(command, log)
    }

    pub fn command(words: &[&str]) -> Command {
        let mut command = Command::new(env!("CARGO_BIN_EXE_ionex-serve"));
        command.args(["--listen", "127.0.0.1:0", "--every", "0.2"]);
        command.args(words).stdout(Stdio::piped());
        command
    }

    pub fn spawn(mut command: Command, log: PathBuf) -> Service {
        let mut child = command.spawn().expect("the program");
        let mut line = String::new();
        let out = child.stdout.take().expect("its output");
        BufReader::new(out).read_line(&mut line).expect("a line");
        let address = line.trim().strip_prefix("listening on http://");
        let address = address.expect(&line).trim_end_matches('/').to_string();
        Service {
            child,
            address,
            log,
        }
    }

    pub fn connect(&self) -> TcpStream {
        let stream = TcpStream::connect(&self.address).expect("a connection");
        stream.set_read_timeout(Some(PATIENCE)).expect("a limit");
        stream
    }

    /// Everything that comes back on a connection to which these bytes are sent.
    pub fn raw(&self, bytes: &[u8]) -> String {
        let mut stream = self.connect();
        let _ = stream.write_all(bytes);
        let mut out = Vec::new();
        let _ = stream.read_to_end(&mut out);
        String::from_utf8_lossy(&out).into_owned()
    }

    pub fn get(&self, target: &str) -> (u16, String) {
        let head = format!("GET {target} HTTP/1.1\r\nHost: localhost\r\nConnection: close\r\n\r\n");
        parts(&self.raw(head.as_bytes()))
    }

    pub fn json(&self, target: &str) -> Value {
        let (_, body) = self.get(target);
        serde_json::from_str(&body).unwrap_or(Value::Null)
    }

    pub fn post(&self, body: &str) -> (u16, String) {
        parts(&self.raw(posted("Connection: close\r\n", body).as_bytes()))
    }

    /// What health says when it says so.
    pub fn until(&self, what: &str, found: impl Fn(&Value) -> bool) -> Value {
        let until = Instant::now() + PATIENCE;
        loop {
            let health = self.json("/v1/health");
            if found(&health) {
                return health;
            }
            assert!(Instant::now() < until, "{what}: {health}\n{}", self.told());
            std::thread::sleep(Duration::from_millis(30));
        }
    }

    /// Waits for a generation at the present second.
    pub fn generation(&self, generation: u64) -> Value {
        let what = format!("generation {generation}");
        self.until(&what, |health| health["generation"] == generation)
    }

    /// Waits until a refusal of these words stands.
    pub fn refusal(&self, words: &str) -> Value {
        let found = |health: &Value| health["refused"].to_string().contains(words);
        self.until(words, found)
    }

    /// The log so far.
    pub fn told(&self) -> String {
        fs::read_to_string(&self.log).unwrap_or_default()
    }

    /// Waits until the log has these words.
    pub fn until_told(&self, words: &str) {
        let until = Instant::now() + PATIENCE;
        while !self.told().contains(words) {
            assert!(Instant::now() < until, "{words}: {}", self.told());
            std::thread::sleep(Duration::from_millis(30));
        }
    }

    pub fn signal(&self, name: &str) {
        let id = self.child.id().to_string();
        let sent = Command::new("kill").args([name, &id]).status();
        assert!(sent.expect("kill").success());
    }

    /// Waits for its end.
    pub fn ended(&mut self) -> ExitStatus {
        let until = Instant::now() + PATIENCE;
        loop {
            if let Some(status) = self.child.try_wait().expect("a status") {
                return status;
            }
            assert!(Instant::now() < until, "it does not end");
            std::thread::sleep(Duration::from_millis(20));
        }
    }

    /// Kilobytes of memory that it has had at once.
    pub fn most_memory(&self) -> u64 {
        let path = format!("/proc/{}/status", self.child.id());
        let status = fs::read_to_string(path).expect("a status");
        let line = status.lines().find(|line| line.starts_with("VmHWM"));
        let word = line.and_then(|line| line.split_whitespace().nth(1));
        word.and_then(|word| word.parse().ok()).expect("a number")
    }
}

impl Drop for Service {
    fn drop(&mut self) {
        let _ = self.child.kill();
        let _ = self.child.wait();
    }
}

/// A request with a body, and with these header lines among its own.
pub fn posted(lines: &str, body: &str) -> String {
    let length = body.len();
    format!(
        "POST /v1/ask HTTP/1.1\r\nHost: localhost\r\n{lines}Content-Type: application/json\r\n\
         Content-Length: {length}\r\n\r\n{body}"
    )
}

/// As many questions as one request may have, all of one place, answered with delays.
pub fn most_questions(time: &str) -> String {
    let zeros = "0,".repeat(99_999) + "0";
    format!(r#"{{"lat":[{zeros}],"lon":[{zeros}],"time":"{time}","carrier":"L1"}}"#)
}

/// Status and body of a reply.
pub fn parts(reply: &str) -> (u16, String) {
    let status = reply.get(9..12).and_then(|word| word.parse().ok());
    let body = reply.split_once("\r\n\r\n").map_or("", |(_, body)| body);
    (status.unwrap_or(0), body.to_string())
}

/// A file put in its place as a whole.
pub fn replace(file: &Path, content: impl AsRef<[u8]>) {
    let new = file.with_extension("new");
    fs::write(&new, content).expect("written");
    fs::rename(new, file).expect("renamed");
}

/// Midnight of today.
pub fn today() -> Epoch {
    let since = SystemTime::now().duration_since(SystemTime::UNIX_EPOCH);
    let unix = since.expect("a clock").as_secs() as i64;
    Epoch::from_unix(unix / 86_400 * 86_400).expect("a time")
}

/// A text of maps two hours apart, from one midnight to another, given in days from today. The value of a node is `base` tenths
/// of a TECU, a tenth more for each column and each row, two for each map: so that a text made of two is neither of them.
pub struct Text {
    pub first: i64,
    pub last: i64,
    pub base: i64,
    pub rows: i64,
    pub columns: i64,
}

impl Text {
    /// From yesterday to the day after tomorrow, so that a test may run over midnight.
    pub fn of(base: i64) -> Text {
        Text {
            first: -1,
            last: 2,
            base,
            rows: 3,
            columns: 4,
        }
    }

    pub fn days(base: i64, first: i64, last: i64) -> Text {
        Text {
            first,
            last,
            ..Text::of(base)
        }
    }

    fn epoch(&self, map: i64) -> String {
        let time = today()
            .moved(86_400 * self.first + 7200 * map)
            .expect("a time");
        let date = time.date();
        format!(
            "{:6}{:6}{:6}{:6}     0     0",
            date.year, date.month, date.day, date.hour
        )
    }

    fn header(&self, maps: i64) -> String {
        let (south, east) = (10 * (1 - self.rows), 10 * (self.columns - 1));
        record(
            "     1.1            IONOSPHERE MAPS     GNS",
            "IONEX VERSION / TYPE",
        ) + &record(
            "program             agency              1-jan-00 00:00",
            "PGM / RUN BY / DATE",
        ) + &record(&self.epoch(0), "EPOCH OF FIRST MAP")
            + &record(&self.epoch(maps - 1), "EPOCH OF LAST MAP")
            + &record("  7200", "INTERVAL")
            + &record(&format!("{maps:6}"), "# OF MAPS IN FILE")
            + &record("  COSZ", "MAPPING FUNCTION")
            + &record("    20.0", "ELEVATION CUTOFF")
            + &record("carrier phase", "OBSERVABLES USED")
            + &record("  6371.0", "BASE RADIUS")
            + &record("     2", "MAP DIMENSION")
            + &record("   400.0 400.0   0.0", "HGT1 / HGT2 / DHGT")
            + &record(&format!("     0.0{south:4}.0 -10.0"), "LAT1 / LAT2 / DLAT")
            + &record(&format!("     0.0{east:4}.0  10.0"), "LON1 / LON2 / DLON")
            + &record("", "END OF HEADER")
    }

    pub fn write(&self) -> String {
        let maps = 12 * (self.last - self.first) + 1;
        let mut out = self.header(maps);
        for map in 0..maps {
            out += &record(&format!("{:6}", map + 1), "START OF TEC MAP");
            out += &record(&self.epoch(map), "EPOCH OF CURRENT MAP");
            for row in 0..self.rows {
                out += &self.row(map, row);
            }
            out += &record(&format!("{:6}", map + 1), "END OF TEC MAP");
        }
        out + &record("", "END OF FILE")
    }

    fn row(&self, map: i64, row: i64) -> String {
        let (lat, east) = (-10 * row, 10 * (self.columns - 1));
        let head = format!("  {lat:4}.0   0.0{east:4}.0  10.0 400.0");
        let values: Vec<String> = (0..self.columns)
            .map(|column| format!("{:5}", self.base + 2 * map + row + column))
            .collect();
        let lines: String = values.chunks(16).map(|line| line.concat() + "\n").collect();
        record(&head, "LAT/LON1/LON2/DLON/H") + &lines
    }
}

fn record(words: &str, label: &str) -> String {
    format!("{words:<60}{label}\n")
}

/// A text as the second program reads it, to judge answers by.
pub struct Judge {
    header: second::Header,
    texts: second::Texts,
    areas: Buffers,
}

impl Judge {
    pub fn of(text: &str) -> Judge {
        let needs = second::needs(text.as_bytes()).expect("accepted");
        let mut areas = Buffers {
            tec: vec![0; needs[0]],
            rms: vec![0; needs[1]],
            height: vec![0; needs[2]],
            exponents: vec![0; needs[3]],
            epochs: vec![0; needs[4]],
            marks: vec![0; needs[5]],
        };
        let reading = second::read(text.as_bytes(), &mut areas.lent());
        let Reading::Accepted { header, texts } = reading else {
            panic!("refused by the second program");
        };
        Judge {
            header,
            texts,
            areas,
        }
    }

    /// Thousandths of a TECU between the maps, at hundredths of a degree.
    pub fn tec(&self, latitude: i64, longitude: i64, second: u64) -> Option<i64> {
        let question = Question {
            kind: 0,
            method: 1,
            layer: 0,
            latitude,
            longitude,
            second,
        };
        match second::ask(&self.header, &self.texts, &self.areas.view(), &question) {
            Ok(Answer::ThousandthsOfTecu(thousandths)) => Some(thousandths),
            _ => None,
        }
    }
}
