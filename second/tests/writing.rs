//! Writing: canonical text, and 31 "exactly when no accepted text has this map
//! set as its meaning".

mod common;
use common::*;
use second::{read, write, Count, Reading, Refusal, System};

fn written(set: &Set) -> Result<Vec<u8>, u8> {
    let mut out = vec![b'#'; 10_000];
    let (header, texts, own) = set;
    match write(header, texts, &own.view(), &mut out) {
        Ok(length) => {
            assert!(out[length..].iter().all(|&b| b == b'#'));
            out.truncate(length);
            Ok(out)
        }
        Err(refusal) => {
            assert!(out.iter().all(|&b| b == b'#'));
            Err(refusal.number())
        }
    }
}

/// The changed set is refused with 31.
fn refused(change: impl Fn(&mut Set)) {
    let mut set = set();
    change(&mut set);
    assert_eq!(written(&set), Err(31));
}

/// The changed set is written, and its text read again gives the same set.
fn stays(change: impl Fn(&mut Set)) {
    let mut set = set();
    change(&mut set);
    let text = written(&set).unwrap();
    let lengths = set.2.lengths();
    let mut own = untouched(lengths);
    let Reading::Accepted { header, texts } = read(&text, &mut own.lent()) else {
        panic!("not accepted");
    };
    assert_eq!((header, texts), (set.0, set.1));
    assert_eq!(own.tec[..12], set.2.tec[..12]);
    assert_eq!(own.exponents[..12], set.2.exponents[..12]);
    assert_eq!(own.epochs[..2], set.2.epochs[..2]);
    assert_eq!(own.marks[..2], set.2.marks[..2]);
}

#[test]
fn the_base_text_is_canonical() {
    // It was written by hand in the canonical form.
    let text = join(&base());
    assert_eq!(written(&set()), Ok(text.clone()));
    let (header, texts, own) = set();
    for short in [0, 1, text.len() - 1] {
        let mut out = vec![b'#'; short];
        let need = text.len() as u64;
        assert_eq!(
            write(&header, &texts, &own.view(), &mut out),
            Err(Refusal::Output { need })
        );
        assert!(out.iter().all(|&b| b == b'#'));
    }
    let mut out = vec![b'#'; text.len()];
    assert_eq!(
        write(&header, &texts, &own.view(), &mut out),
        Ok(text.len())
    );
}

#[test]
fn freedoms_vanish() {
    let mut lines = base();
    lines[0] = rec(
        "000001.1            IxyzSPHERE          GNSS 5",
        "IONEX VERSION / TYPE",
    );
    lines[11] = rec("  0400.00400.0  -0.0", "HGT1 / HGT2 / DHGT");
    lines[17] = rec("    10.0  -0.00020.0  10.0 -12.3", "LAT/LON1/LON2/DLON/H");
    lines[18] = "00001   0200003     ".to_string();
    lines.insert(35, rec("", "COMMENT"));
    lines.insert(
        30,
        rec(
            "  2000     1     1     2     0     0",
            "EPOCH OF CURRENT MAP",
        ),
    );
    lines.insert(19, String::new());
    lines.insert(12, rec("", "COMMENT"));
    lines[1..15].reverse();
    let found = accepted(&lines, [12; 6]);
    assert_eq!(written(&found), Ok(join(&base())));
}

#[test]
fn exponents_and_starred_records() {
    let mut found = set();
    found.0.stations = Count {
        stands: true,
        count: 0,
    };
    found.0.systems[6] = System {
        stands: true,
        stations: 1,
        satellites: 2,
    };
    found.0.systems[0] = System {
        stands: true,
        stations: 80,
        satellites: 24,
    };
    found.2.exponents = vec![-1, -3, -3, -3, -1, -1, -3, -1, -1, -1, -1, -1];
    let mut lines = base();
    lines.insert(32, rec("    -1", "EXPONENT"));
    lines.insert(19, rec("    -3", "EXPONENT"));
    lines.insert(9, rec("     S     1     2", "SYS / #STA / #SAT"));
    lines.insert(9, rec("     G    80    24", "SYS / #STA / #SAT"));
    lines.insert(9, rec("     0", "# OF STATIONS"));
    assert_eq!(written(&found), Ok(join(&lines)));
}

#[test]
fn header_fields() {
    refused(|s| s.0.version = 9);
    refused(|s| s.0.file_type = b'i');
    refused(|s| s.0.code = 9);
    refused(|s| s.0.code = -1);
    stays(|s| s.0.code = 8);
    refused(|s| s.0.interval = 21_601);
    refused(|s| s.0.interval = -1);
    refused(|s| s.0.interval = 7199);
    stays(|s| s.0.interval = 0);
    refused(|s| s.0.maps = 0);
    refused(|s| s.0.maps = 1);
    refused(|s| s.0.maps = 3);
    refused(|s| s.0.maps = 301);
    refused(|s| s.0.maps = i64::MAX);
    refused(|s| s.0.cutoff = 901);
    refused(|s| s.0.cutoff = -1);
    stays(|s| s.0.cutoff = 900);
    refused(|s| s.0.radius = 9_999);
    refused(|s| s.0.radius = 1_000_000);
    stays(|s| s.0.radius = 999_999);
    refused(|s| s.0.dimension = 3);
    refused(|s| s.0.dimension = 1);
    refused(|s| s.0.heights.step = 1);
    refused(|s| s.0.heights.first = i64::MIN);
    refused(|s| s.0.latitudes.step = 100);
    refused(|s| s.0.latitudes.step = 0);
    refused(|s| s.0.latitudes.last = -100);
    refused(|s| s.0.longitudes.first = -5);
    refused(|s| s.0.longitudes.step = 5);
    refused(|s| s.0.longitudes.step = i64::MAX);
}

#[test]
fn fillers_and_counts() {
    refused(|s| s.0.stations.count = 1);
    refused(|s| s.0.satellites.count = -1);
    refused(|s| s.0.systems[3].stations = 1);
    refused(|s| s.0.systems[3].satellites = 1);
    stays(|s| {
        s.0.satellites = Count {
            stands: true,
            count: 999_999,
        }
    });
    refused(|s| {
        s.0.satellites = Count {
            stands: true,
            count: 1_000_000,
        }
    });
    refused(|s| {
        s.0.satellites = Count {
            stands: true,
            count: -1,
        }
    });
    let system = |stations, satellites| System {
        stands: true,
        stations,
        satellites,
    };
    stays(|s| s.0.systems[5] = system(0, 999_999));
    refused(|s| s.0.systems[5] = system(-1, 0));
    refused(|s| s.0.systems[5] = system(0, 1_000_000));
}

/// 02, Ask 1: "canonical text writes them after PGM / RUN BY / DATE".
#[test]
fn descriptions_stand_behind_the_program() {
    let bodies = ["b", "", "  a", "", "b"];
    let mut canonical = base();
    let mut free = base();
    for (k, body) in bodies.into_iter().enumerate() {
        canonical.insert(2 + k, rec(body, "DESCRIPTION"));
        free.insert(3 + 2 * k, rec(body, "DESCRIPTION"));
    }
    assert_ne!(canonical, free);
    for lines in [&canonical, &free] {
        let found = accepted(lines, [12, 12, 0, 12, 2, 2]);
        assert_eq!(written(&found), Ok(join(&canonical)));
    }
}

#[test]
fn descriptions() {
    for count in [1, 19, 20] {
        stays(|s| s.0.descriptions = count);
        stays(|s| {
            s.0.descriptions = count;
            s.1.descriptions[count as usize - 1][59] = b'~';
        });
        refused(|s| {
            s.0.descriptions = count;
            s.1.descriptions[count as usize - 1][59] = 127;
        });
    }
    for count in [-1, 21, 276, i64::MIN, i64::MAX] {
        refused(|s| s.0.descriptions = count);
    }
    // "in file order, blank-padded": behind the last there is nothing.
    refused(|s| s.1.descriptions[0][0] = b'x');
    refused(|s| {
        s.0.descriptions = 3;
        s.1.descriptions[3][0] = b'x';
    });
    refused(|s| {
        s.0.descriptions = 19;
        s.1.descriptions[19][59] = b'x';
    });
    refused(|s| s.1.descriptions[19][59] = 0);
}

#[test]
fn texts() {
    stays(|s| s.1.program = [b'~'; 20]);
    stays(|s| s.1.observables = [b' '; 60]);
    refused(|s| s.1.program[19] = 31);
    refused(|s| s.1.agency[0] = 127);
    refused(|s| s.1.date[5] = 0);
    refused(|s| s.1.mapping[3] = 200);
    refused(|s| s.1.observables[59] = b'\n');
}

#[test]
fn epochs() {
    refused(|s| s.0.first_epoch += 1);
    refused(|s| s.0.last_epoch += 1);
    refused(|s| s.2.epochs[0] += 1);
    refused(|s| s.2.epochs[1] -= 1);
    // Both outside the years, though they agree.
    refused(|s| {
        s.2.epochs = vec![9_467_107_200 - 7200, 9_467_107_200];
        s.0.first_epoch = s.2.epochs[0];
        s.0.last_epoch = s.2.epochs[1];
    });
    stays(|s| {
        s.2.epochs = vec![9_467_107_199 - 7200, 9_467_107_199];
        s.0.first_epoch = s.2.epochs[0];
        s.0.last_epoch = s.2.epochs[1];
    });
    let gap = |s: &mut Set, gap: u64| {
        s.0.interval = 0;
        s.2.epochs[1] = s.2.epochs[0] + gap;
        s.0.last_epoch = s.2.epochs[1];
    };
    stays(|s| gap(s, 21_600));
    stays(|s| gap(s, 1));
    refused(|s| gap(s, 21_601));
    refused(|s| gap(s, 0));
}

#[test]
fn values_exponents_marks() {
    stays(|s| s.2.tec[3] = -9999);
    stays(|s| s.2.tec[3] = 99_999);
    stays(|s| s.2.tec[3] = 9999);
    refused(|s| s.2.tec[3] = -10_000);
    refused(|s| s.2.tec[3] = 100_000);
    refused(|s| s.2.tec[3] = i32::MIN);
    refused(|s| s.2.rms[11] = i32::MAX);
    // The absent RMS map 1 must hold 9999 and exponent -1.
    refused(|s| s.2.rms[0] = 5);
    refused(|s| s.2.exponents[4] = -2);
    stays(|s| s.2.exponents[6] = 0);
    refused(|s| s.2.exponents[6] = 1);
    refused(|s| s.2.exponents[0] = -4);
    // No height map at all: its values are ignored, its exponents not.
    refused(|s| s.2.exponents[11] = 0);
    stays(|s| s.2.height = vec![5; 20]);
    refused(|s| s.2.marks[0] = 4);
    refused(|s| s.2.marks[0] = 255);
    refused(|s| s.2.marks[0] = 2);
    stays(|s| s.2.marks[0] = 1);
    stays(|s| s.2.marks[1] = 0);
}

#[test]
fn lengths() {
    refused(|s| s.2.tec.truncate(11));
    refused(|s| s.2.rms.truncate(11));
    refused(|s| s.2.exponents.truncate(11));
    refused(|s| s.2.epochs.truncate(1));
    refused(|s| s.2.marks.truncate(1));
    // The rest of a longer area is ignored.
    stays(|s| {
        s.2.tec.push(i32::MIN);
        s.2.rms.push(i32::MIN);
        s.2.exponents.push(7);
        s.2.epochs.push(u64::MAX);
        s.2.marks.push(255);
    });
}

#[test]
fn three_dimensions() {
    let mut lines = base();
    lines[10] = rec("     3", "MAP DIMENSION");
    lines[11] = rec("   400.0 450.5  50.5", "HGT1 / HGT2 / DHGT");
    for (start, end) in [(30, 34), (24, 28), (17, 21)] {
        let layer: Vec<String> = lines[start..end]
            .iter()
            .map(|l| l.replace(" 400.0", " 450.5").replace("    ", " -10"))
            .map(|l| {
                if l.contains("LAT/") {
                    l.replace(" -10", "    ")
                } else {
                    l
                }
            })
            .collect();
        for (k, line) in layer.iter().enumerate() {
            lines.insert(end + k, line.clone());
        }
    }
    let found = accepted(&lines, [24, 24, 0, 24, 2, 2]);
    assert_eq!(found.2.tec[5..8], [6, -101, -102]);
    assert_eq!(written(&found), Ok(join(&lines)));
    // H is looked at.
    let mut wrong = lines.clone();
    wrong[21] = wrong[21].replace("450.5", "450.4");
    assert_eq!(outcome_of(&wrong), "refused 8 line 22 column 27");
}

/// "The writer writes the version it is given" (02, Ask 7), with the codes of that version.
#[test]
fn both_versions() {
    for (version, code, text) in [
        (10, 10, "1.0"),
        (10, 9, "1.0"),
        (10, 4, "1.0"),
        (11, 8, "1.1"),
    ] {
        stays(|set| (set.0.version, set.0.code) = (version, code));
        let mut set = set();
        (set.0.version, set.0.code) = (version, code);
        let written = written(&set).unwrap();
        assert_eq!(&written[..8], format!("     {text}").as_bytes());
    }
    for wrong in [(11, 9), (11, 10), (10, 11), (10, -1), (9, 0), (12, 0)] {
        refused(|set| (set.0.version, set.0.code) = wrong);
    }
}
