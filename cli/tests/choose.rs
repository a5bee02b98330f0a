//! `ionex choose`: files judged and ranked for a time, and the best put in the place of the one in use.

mod common;

use common::{example, ionex, Folder};

const TIME: &str = "2000-01-01T00:30:00";

/// Two maps two hours apart, of six nodes each.
fn plain() -> String {
    String::from_utf8(example("accepted-canonical.inx")).expect("text")
}

/// The same, with INTERVAL 0, which says that the spacing varies and not that it is fine.
fn varying() -> String {
    plain().replace("  7200  ", "     0  ")
}

/// The same maps one hour apart.
fn hourly() -> String {
    let text = plain().replace("     2     0     0", "     1     0     0");
    text.replace("  7200  ", "  3600  ")
}

/// One node of twelve without a value.
fn lacking() -> String {
    plain().replace("    4    5    6\n", "    4    5 9999\n")
}

#[test]
fn the_ranking_and_its_reasons() {
    let folder = Folder::new();
    let cod = folder.file("codg0010.00i", varying().as_bytes());
    let esa = folder.file("esag0010.00i", lacking().as_bytes());
    let igs = folder.file("igsg0010.00i", plain().as_bytes());
    let jpl = folder.file("jplg0010.00i", hourly().as_bytes());
    let ran = ionex(&["choose", &esa, &cod, &igs, &jpl, "--for", TIME]);
    let span = |hour: u8| {
        format!("covers 2000-01-01 00:30:00 (2000-01-01 00:00:00 to 2000-01-01 0{hour}:00:00)")
    };
    // Of two that are alike the one that is given first.
    let expected = format!(
        "1 {jpl}: chosen: {}, jpl, maps 3600 s apart, 0 of 12 nodes without a value\n\
         2 {cod}: {}, cod, maps 7200 s apart, 0 of 12 nodes without a value\n\
         3 {igs}: {}, igs, maps 7200 s apart, 0 of 12 nodes without a value\n\
         4 {esa}: {}, esa, maps 7200 s apart, 1 of 12 nodes without a value\n",
        span(1),
        span(2),
        span(2),
        span(2)
    );
    assert_eq!(ran.done(), expected);
    // What is preferred comes before what is finer, and what covers the time before both.
    let ran = ionex(&[
        "choose",
        &folder.path(""),
        "--for",
        TIME,
        "--prefer",
        "IGS,esa",
        "--json",
    ]);
    let ranked: Vec<&str> = ran.done().lines().collect();
    assert!(ranked[0].contains(r#"igsg0010.00i","status":"chosen","rank":1,"centre":"igs","preferred":true,"covers":true,"#), "{}", ranked[0]);
    assert!(
        ranked[1].contains(r#"esag0010.00i","status":"accepted","rank":2,"#),
        "{}",
        ranked[1]
    );
    assert!(
        ranked[2].contains(r#"jplg0010.00i","#)
            && ranked[2].ends_with(r#""spacing":3600,"nodes":12,"lacking":0}"#),
        "{}",
        ranked[2]
    );
    let ran = ionex(&[
        "choose",
        &folder.path(""),
        "--for",
        "2000-01-01T01:30:00",
        "--prefer",
        "jpl",
    ]);
    let ranked: Vec<&str> = ran.done().lines().collect();
    assert!(
        ranked[0].starts_with("1 ") && ranked[0].contains("codg0010.00i: chosen: covers"),
        "{}",
        ranked[0]
    );
    assert!(
        ranked[3].contains("jplg0010.00i: does not cover 2000-01-01 01:30:00"),
        "{}",
        ranked[3]
    );
    assert!(ranked[3].contains(", jpl, preferred 1, "), "{}", ranked[3]);
}

#[test]
fn the_file_in_use_is_replaced_by_an_accepted_one_only() {
    let folder = Folder::new();
    let cut: String = plain().split_inclusive('\n').take(20).collect();
    let cod = folder.file("codg0010.00i", cut.as_bytes());
    let igs = folder.file("igsg0010.00i", plain().as_bytes());
    let in_use = folder.file("in-use", b"what was in use");
    let ran = ionex(&[
        "choose", &cod, &igs, "--for", TIME, "--prefer", "cod,igs", "-o", &in_use,
    ]);
    assert_eq!((ran.status, ran.err.as_str()), (1, ""));
    let lines: Vec<&str> = ran.text().lines().collect();
    assert!(
        lines[0].starts_with(&format!("1 {igs}: chosen: covers ")),
        "{}",
        lines[0]
    );
    assert!(
        lines[1].starts_with(&format!("{cod}:21:0: refused 10: ")),
        "{}",
        lines[1]
    );
    assert_eq!(std::fs::read(&in_use).expect("a file"), plain().as_bytes());
    // None is accepted; none covers the time; none can be read.
    let missing = folder.path("none.inx");
    for (words, out) in [
        (vec![cod.as_str()], "refused "),
        (vec![missing.as_str()], "no such file"),
    ] {
        let mut all = vec!["choose", "--for", TIME, "-o", &in_use];
        all.extend(words);
        let ran = ionex(&all);
        ran.failed(
            3,
            "ionex: no file is accepted and covers 2000-01-01 00:30:00\n",
        );
        assert!(ran.text().contains(out), "{}", ran.text());
    }
    let ran = ionex(&["choose", &igs, "--for", "2000-01-02", "-o", &in_use]);
    ran.failed(
        3,
        "ionex: no file is accepted and covers 2000-01-02 00:00:00\n",
    );
    assert_eq!(std::fs::read(&in_use).expect("a file"), plain().as_bytes());
    assert_eq!(folder.names(), ["codg0010.00i", "igsg0010.00i", "in-use"]);
}

#[test]
fn words_that_are_not_understood() {
    for (words, said) in [
        (&["choose", "a.inx"][..], "--for TIME is missing"),
        (&["choose", "--for", TIME], "no FILE is given"),
    ] {
        let ran = ionex(words);
        ran.failed(
            2,
            &format!("ionex: choose: {said}; see ionex choose --help\n"),
        );
    }
    assert_eq!(ionex(&["choose", "a.inx", "--for", "noon"]).status, 2);
    let ran = ionex(&[
        "choose",
        "tests/examples/accepted-canonical.inx",
        "--for",
        TIME,
        "-o",
        "/no/folder/x",
    ]);
    assert_eq!(ran.status, 2);
}
