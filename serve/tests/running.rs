//! The program as it runs all day: started, signalled, killed and started again; its log, its state, and what systemd hears.

mod common;

use common::{folder, most_questions, posted, replace, today, Judge, Service, Text, PATIENCE};
use ionex_serve::api;
use ionex_serve::http::{head, Request};
use ionex_serve::log::{Form, Log};
use ionex_serve::service;
use serde_json::{json, Value};
use std::fs::{self, File};
use std::io::{Read, Write};
use std::os::unix::net::UnixDatagram;
use std::path::Path;
use std::process::{Command, Stdio};
use std::time::{Duration, Instant};

/// What the service answers at the present second, and what the second program says to the text.
fn is_of(service: &Service, text: &str) {
    let second = today().unix() + 4321;
    let told = service.json(&format!("/v1/ask?lat=-7.77&lon=12.34&time={second}"));
    let expected = Judge::of(text).tec(-777, 1234, today().seconds() + 4321);
    assert!(expected.is_some());
    assert_eq!(told["thousandths"].as_i64(), expected, "{told}");
}

fn source(file: &Path) -> String {
    format!("cod={}", file.display())
}

#[test]
fn before_the_first_maps() {
    let folder = folder("before");
    let file = folder.join("day.inx");
    let service = Service::start(&folder, &["--source", &source(&file)]);
    let health = service.refusal("no such file");
    assert_eq!(health["status"], json!("empty"));
    assert_eq!(
        health["words"],
        json!("no file was accepted yet; the service goes on looking")
    );
    for target in [
        "/v1/health",
        "/v1/maps",
        "/v1/ask?lat=5&lon=5&time=0",
        "/v1/map?time=0",
    ] {
        let (status, body) = service.get(target);
        assert_eq!(status, 503, "{target}");
        assert!(
            body.contains("no file was accepted yet"),
            "{target}: {body}"
        );
        assert!(!body.contains("stay"), "{target}: {body}");
        // Names only: no path leaves the process.
        assert!(!body.contains('/'), "{target}: {body}");
    }
    replace(&file, "x");
    service.refusal("\"number\":3");
    replace(&file, Text::of(10).write());
    assert_eq!(service.generation(1)["refused"], json!([]));
}

/// Waits until so many texts are kept.
fn kept(state: &Path, count: usize) {
    let until = Instant::now() + PATIENCE;
    let is_whole = |entry: &fs::DirEntry| entry.file_name().to_string_lossy().contains('~');
    let files = || {
        let entries = fs::read_dir(state).expect("a folder");
        entries.flatten().filter(is_whole).count()
    };
    while files() != count {
        assert!(Instant::now() < until, "{} are kept", files());
    }
}

#[test]
fn killed_and_started_again() {
    let folder = folder("killed");
    let (file, state) = (folder.join("day.inx"), folder.join("state"));
    let text = Text::of(70).write();
    replace(&file, &text);
    let words = [
        "--source",
        &source(&file),
        "--state",
        &state.display().to_string(),
    ];
    let service = Service::start(&folder, &words);
    let before = service.generation(1);
    kept(&state, 1);
    service.signal("-9");
    drop(service);
    // The same text again is the one that was kept.
    let service = Service::start(&folder, &words);
    service.until("both looks", |_| {
        service.told().matches(" accepted ").count() == 2
    });
    let health = service.json("/v1/health");
    assert_eq!(
        (&health["generation"], &health["newest"]),
        (&json!(1), &json!(1))
    );
    assert_ne!(health["start"], before["start"]);
}

/// The source is broken when the program is started again, and a text beside the kept one is no text.
#[test]
fn started_again_with_a_broken_source() {
    let folder = folder("broken");
    let (file, state) = (folder.join("day.inx"), folder.join("state"));
    let (text, newer) = (Text::of(70).write(), Text::of(80).write());
    replace(&file, &text);
    let words = [
        "--source",
        &source(&file),
        "--state",
        &state.display().to_string(),
    ];
    let service = Service::start(&folder, &words);
    service.generation(1);
    kept(&state, 1);
    service.signal("-9");
    drop(service);
    replace(&file, &text[..text.len() / 2]);
    fs::write(state.join("cod~1~damaged.inx"), "x").expect("written");
    let service = Service::start(&folder, &words);
    assert_eq!(service.refusal("\"line\":")["generation"], json!(1));
    is_of(&service, &text);
    service.until_told(" not restored source=cod file=damaged.inx number=3 ");
    // A newer text takes the place of the kept one, on the disk too.
    replace(&file, &newer);
    service.generation(2);
    kept(&state, 1);
    drop(service);
    fs::remove_file(&file).expect("removed");
    let service = Service::start(&folder, &words);
    service.generation(1);
    is_of(&service, &newer);
}

#[test]
fn a_log_that_cannot_be_written_stops_nothing() {
    let folder = folder("log");
    let file = folder.join("day.inx");
    for (at, errors) in ["full", "closed"].into_iter().enumerate() {
        replace(&file, Text::of(10).write());
        let mut command = Service::command(&["--source", &source(&file)]);
        match errors {
            "full" => command.stderr(Stdio::from(File::create("/dev/full").expect("a device"))),
            _ => command.stderr(Stdio::piped()),
        };
        let mut service = Service::spawn(command, folder.join("none"));
        drop(service.child.stderr.take());
        service.generation(1);
        for count in 2..5 {
            replace(&file, "x");
            service.refusal("\"number\":3");
            let text = Text::of(10 * (at as i64) + count).write();
            replace(&file, &text);
            service.generation(count as u64);
            is_of(&service, &text);
        }
    }
}

/// Nobody reads the log: what a pipe holds is full after some hundred lines, and the looking goes on.
#[test]
fn a_log_that_nobody_reads_stops_nothing() {
    let folder = folder("unread");
    for name in 0..900 {
        fs::write(folder.join(format!("damaged-{name}.inx")), "x").expect("written");
    }
    let file = folder.join("day.inx");
    let mut command = Service::command(&["--source", &source(&folder)]);
    command.stderr(Stdio::piped());
    let service = Service::spawn(command, folder.join("none"));
    let words = "ionex_offers_total{source=\"cod\",result=\"refused\"} 900\n";
    service.until(words, |_| service.get("/metrics").1.contains(words));
    replace(&file, Text::of(10).write());
    service.generation(1);
}

#[test]
fn the_log_in_both_forms() {
    for form in ["plain", "json"] {
        let folder = folder(&format!("log-{form}"));
        let file = folder.join("day of maps.inx");
        replace(&file, Text::of(10).write());
        let service = Service::start(&folder, &["--source", &source(&file), "--log", form]);
        service.generation(1);
        replace(&file, "x");
        service.refusal("\"number\":3");
        service.until_told("IONEX VERSION");
        std::thread::sleep(Duration::from_millis(800));
        let told = service.told();
        let events: Vec<&str> = told.lines().collect();
        // What does not change is told once.
        assert_eq!(events.len(), 3, "{told}");
        let expected = match form {
            "plain" => [
                " accepted source=cod file=\"day of maps.inx\" ",
                " in force source=cod ",
                " refused source=cod file=\"day of maps.inx\" number=3 line=1 ",
            ],
            _ => [
                r#","event":"accepted","source":"cod","file":"day of maps.inx","#,
                r#","event":"in force","#,
                r#","event":"refused","source":"cod","file":"day of maps.inx","number":"3","line":"1","#,
            ],
        };
        for (event, words) in events.iter().zip(expected) {
            assert!(event.contains(words), "{event}");
            assert!(
                form == "plain" || serde_json::from_str::<Value>(event).is_ok(),
                "{event}"
            );
        }
    }
}

/// More files that cannot be read than health tells of: each is told once in the log.
#[test]
fn a_folder_of_faults_is_told_once() {
    let folder = folder("faults");
    for name in 0..40 {
        std::os::unix::fs::symlink("nowhere", folder.join(format!("{name}.inx"))).expect("a link");
    }
    let service = Service::start(&folder, &["--source", &source(&folder)]);
    service.refusal("no such file");
    std::thread::sleep(Duration::from_millis(1000));
    assert_eq!(service.told().matches(" unread source=cod ").count(), 40);
    assert_eq!(service.told().matches(" lost source=cod ").count(), 1);
    assert_eq!(
        service.json("/v1/health")["refused"]
            .as_array()
            .map(Vec::len),
        Some(16)
    );
}

/// The request that is under way when the end is asked for has its whole answer; one that is silent does not hold it up.
#[test]
fn the_end_waits_for_answers_under_way() {
    let folder = folder("end");
    let file = folder.join("day.inx");
    replace(&file, Text::of(10).write());
    let mut service = Service::start(&folder, &["--source", &source(&file)]);
    service.generation(1);
    let silent = service.connect();
    let request = posted("", &most_questions(&today().to_string()));
    let mut asking = service.connect();
    let (early, late) = request.split_at(request.len() / 2);
    asking.write_all(early.as_bytes()).expect("sent");
    service.signal("-TERM");
    std::thread::sleep(Duration::from_millis(500));
    assert!(
        service.child.try_wait().expect("a status").is_none(),
        "it ended before the answer"
    );
    asking.write_all(late.as_bytes()).expect("sent");
    let mut reply = String::new();
    // Slowly: more than the sockets hold is still to be written.
    let mut first = [0; 12];
    asking.read_exact(&mut first).expect("an answer");
    assert_eq!(&first, b"HTTP/1.1 200");
    std::thread::sleep(Duration::from_millis(300));
    asking.read_to_string(&mut reply).expect("the rest");
    assert!(reply.contains("\r\nConnection: close\r\n"));
    let (_, body) = reply.split_once("\r\n\r\n").expect("a body");
    let told: Value = serde_json::from_str(body).expect("whole");
    assert_eq!(told["delay_metres"].as_array().map(Vec::len), Some(100_000));
    assert_eq!(service.ended().code(), Some(0));
    assert!(service.told().ends_with(" ended\n"), "{}", service.told());
    drop(silent);
}

#[test]
fn a_signal_looks_at_once() {
    let folder = folder("signal");
    let file = folder.join("day.inx");
    replace(&file, Text::of(10).write());
    let mut command = Service::command(&["--source", &source(&file)]);
    command.args(["--every", "3600"]).stderr(Stdio::null());
    let service = Service::spawn(command, folder.join("none"));
    // Younger than it must be at the first look: it is looked at again soon.
    service.generation(1);
    replace(&file, Text::of(20).write());
    std::thread::sleep(Duration::from_millis(300));
    service.signal("-HUP");
    service.generation(2);
}

#[test]
fn what_systemd_hears() {
    let folder = folder("notify");
    let (file, socket) = (folder.join("day.inx"), folder.join("socket"));
    replace(&file, Text::of(10).write());
    let hears = UnixDatagram::bind(&socket).expect("a socket");
    hears.set_read_timeout(Some(PATIENCE)).expect("a limit");
    let mut command = Service::command(&["--source", &source(&file)]);
    command
        .env("NOTIFY_SOCKET", &socket)
        .env("WATCHDOG_USEC", "1000000")
        .stderr(Stdio::null());
    let mut service = Service::spawn(command, folder.join("none"));
    let mut heard = String::new();
    let mut hear = |words: &str, times: usize| {
        while heard.matches(words).count() < times {
            let mut more = [0; 200];
            let count = hears.recv(&mut more).expect(words);
            heard += &String::from_utf8_lossy(&more[..count]);
        }
    };
    hear("READY=1\n", 1);
    hear("STATUS=generation 1 of cod, ", 1);
    hear("WATCHDOG=1\n", 5);
    service.signal("-TERM");
    hear("STOPPING=1\n", 1);
    assert_eq!(service.ended().code(), Some(0));
}

#[test]
fn packed_files() {
    let folder = folder("packed");
    let text = Text::of(10).write();
    let plain = folder.join("day.inx");
    let pack = |name: &str, program: &str, text: &str| {
        fs::write(&plain, text).expect("written");
        let packed = Command::new(program)
            .arg("-c")
            .arg(&plain)
            .output()
            .expect(program);
        fs::remove_file(&plain).expect("removed");
        replace(&folder.join(name), packed.stdout);
    };
    pack("day.inx.gz", "gzip", &text);
    let service = Service::start(&folder, &["--source", &source(&folder)]);
    assert_eq!(service.generation(1)["name"], json!("day.inx.gz"));
    is_of(&service, &text);
    // A packed file that is cut, one that unpacks to more than is read, one that is no packed file.
    let whole = fs::read(folder.join("day.inx.gz")).expect("read");
    replace(&folder.join("day.inx.gz"), &whole[..whole.len() / 2]);
    service.refusal("unexpected end of file");
    pack("day.inx.gz", "gzip", &" ".repeat((64 << 20) + 1));
    service.refusal("more than the 67108864 bytes");
    replace(&folder.join("day.inx.gz"), &text);
    service.refusal("not in gzip format");
    let newer = Text::of(20).write();
    if Command::new("compress").arg("-V").output().is_ok() {
        pack("next.inx.Z", "compress", &newer);
        service.generation(2);
        is_of(&service, &newer);
    } else {
        println!("compress is not there: .Z is not tried");
    }
}

#[test]
fn two_that_listen_at_one_place() {
    let folder = folder("listen");
    let service = Service::start(&folder, &["none.inx"]);
    let second = Command::new(env!("CARGO_BIN_EXE_ionex-serve"))
        .args(["none.inx", "--listen", &service.address])
        .output()
        .expect("the program");
    assert_eq!(second.status.code(), Some(2));
    let words = String::from_utf8_lossy(&second.stderr);
    assert!(
        words.starts_with(&format!("ionex-serve: {}: ", service.address)),
        "{words}"
    );
}

/// Health without a socket: the files were not looked at for too long, though the maps cover now.
#[test]
fn health_tells_that_the_looking_has_stopped() {
    let answer = |age: u64| {
        let log = Log::start(Form::Plain).expect("a log");
        let service = service::Service::new(
            vec!["cod".to_string()],
            Vec::new(),
            Duration::from_secs(2),
            log,
        );
        let text = Text::of(10).write();
        service
            .station
            .offer("cod", "day.inx", text.as_bytes())
            .expect("accepted");
        let service = service.without_look_for(Duration::from_secs(age));
        let head = head::parse(b"GET /v1/health HTTP/1.1\r\nHost: localhost\r\n\r\n");
        let head = head.expect("a head").expect("whole");
        let told = api::answer(
            &service,
            &Request {
                head: &head,
                body: &[],
            },
        );
        (
            told.status,
            String::from_utf8_lossy(&told.body).into_owned(),
        )
    };
    let (status, body) = answer(1);
    assert!(
        status == 200 && body.contains(r#""status":"current""#),
        "{body}"
    );
    let (status, body) = answer(100);
    assert!(
        status == 503 && body.contains("the files were last looked at 100 seconds ago"),
        "{body}"
    );
}
