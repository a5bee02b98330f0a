//! `ionex plot`: what stands in a picture, and that both forms show the same.

mod common;
#[path = "common/image.rs"]
mod image;

use common::{example, global, ionex, ionex_given, Folder};
use image::Image;
use std::fs;

const CANONICAL: &str = "tests/examples/accepted-canonical.inx";

/// The words of an SVG, in their order.
fn words(svg: &str) -> Vec<&str> {
    svg.lines()
        .filter_map(|line| {
            line.strip_prefix("<text ")?
                .split_once('>')?
                .1
                .strip_suffix("</text>")
        })
        .collect()
}

/// Rows 10.0 and 0.0, columns 0.0 to 20.0: cells from 15.0 to -5.0 and from -5.0 to 25.0, so 900 by 600 pixels from the
/// corner at 90, 124 on. The values are 0.1 to 0.6 TECU, and a step of 0.05 makes a scale with ends at just these.
#[test]
fn cells_by_hand() {
    let folder = Folder::new();
    let (svg, png) = (folder.path("map.svg"), folder.path("map.png"));
    for out in [&svg, &png] {
        assert_eq!(ionex(&["plot", CANONICAL, "-o", out]).done(), "");
    }
    let svg = fs::read_to_string(&svg).expect("an SVG");
    let (dark, light) = ("#440154", "#fde725");
    for (x, y, colour) in [(90, 124, dark), (690, 424, light)] {
        let cell =
            format!("<rect x=\"{x}\" y=\"{y}\" width=\"300\" height=\"300\" fill=\"{colour}\"");
        assert!(svg.contains(&cell), "{cell}");
    }
    let image = Image::read(&fs::read(&png).expect("a PNG"));
    assert_eq!(
        (image.width, image.height),
        (90 + 900 + 190, 124 + 600 + 84)
    );
    assert_eq!(image.at(200, 200), [0x44, 0x01, 0x54]);
    assert_eq!(image.at(900, 700), [0xfd, 0xe7, 0x25]);
    // The scale, its largest value above.
    assert_eq!(image.at(1030, 125), [0xfd, 0xe7, 0x25]);
    assert_eq!(image.at(1030, 722), [0x44, 0x01, 0x54]);
    let found = words(&svg);
    assert_eq!(
        found[..3],
        [
            "Electron content (TEC), 2000-01-01 00:00:00 UT",
            "map 1 of 2, 400.0 km",
            "tests/examples/accepted-canonical.inx, program, agency, 1-jan-00 00:00",
        ]
    );
    for label in [
        "5°W", "0°", "5°E", "14°N", "4°S", "0.10", "0.35", "0.60", "TECU",
    ] {
        assert!(found.contains(&label), "{label} in {found:?}");
    }
    assert!(!svg.contains("url(#bare)"), "every node has a value");
}

/// Nodes without a value are striped, and the legend counts them.
#[test]
fn nodes_without_a_value() {
    let folder = Folder::new();
    let (svg, png) = (folder.path("rms.svg"), folder.path("rms.PNG"));
    for out in [&svg, &png] {
        ionex(&["plot", CANONICAL, "--map", "2", "--kind", "rms", "-o", out]).done();
    }
    let svg = fs::read_to_string(&svg).expect("an SVG");
    assert!(
        svg.contains("<rect x=\"690\" y=\"424\" width=\"300\" height=\"300\" fill=\"url(#bare)\"")
    );
    let found = words(&svg);
    assert_eq!(found[0], "RMS error of TEC, 2000-01-01 02:00:00 UT");
    assert_eq!(found.last(), Some(&"no value: 1 of 6 nodes (16.7 %)"));
    let image = Image::read(&fs::read(&png).expect("a PNG"));
    let mut shades: Vec<[u8; 3]> = (700..980).map(|x| image.at(x, 600)).collect();
    shades.sort();
    shades.dedup();
    // The two greys of the stripes, and the line of 20 degrees east.
    assert_eq!(shades, [[90; 3], [150; 3], [225; 3]]);
}

/// The PNG carries words too: ink stands where the title does, and none above it.
#[test]
fn words_in_pixels() {
    let folder = Folder::new();
    let png = folder.path("map.png");
    ionex(&["plot", CANONICAL, "-o", &png]).done();
    let image = Image::read(&fs::read(&png).expect("a PNG"));
    let ink = |from: (usize, usize), to: (usize, usize)| {
        let dots = (from.1..to.1).flat_map(|y| (from.0..to.0).map(move |x| (x, y)));
        dots.filter(|&(x, y)| image.at(x, y) == [0, 0, 0]).count()
    };
    assert_eq!(ink((0, 0), (1180, 20)), 0);
    // An E is five dots high and wide at least: a left stroke of 7 dots, each 3 pixels wide and high.
    assert_eq!(ink((90, 23), (93, 44)), 3 * 21);
    // 46 letters of 18 pixels, of which a few dozen are ink.
    assert!(ink((90, 20), (90 + 46 * 18, 50)) > 46 * 50);
    assert!(ink((20, 124), (80, 724)) > 500, "latitudes");
    assert!(ink((60, 735), (1000, 752)) > 500, "longitudes");
    assert!(ink((1060, 110), (1170, 730)) > 500, "the scale");
}

/// A day of the whole Earth, at a time between two maps.
#[test]
fn a_global_day() {
    let folder = Folder::new();
    let day = folder.file("day.inx", &global::text(true));
    let (svg, png) = (folder.path("day.svg"), folder.path("day.png"));
    for out in [&svg, &png] {
        ionex(&[
            "plot",
            &day,
            "--time",
            "2010-12-04 06:30:00",
            "--method",
            "sun",
            "-o",
            out,
        ])
        .done();
    }
    let svg = fs::read_to_string(&svg).expect("an SVG");
    let found = words(&svg);
    assert_eq!(
        found[..2],
        [
            "Electron content (TEC), 2010-12-04 06:30:00 UT",
            "method sun, 450.0 km"
        ]
    );
    for label in [
        "180°", "150°W", "0°", "150°E", "60°N", "60°S", "TECU", "0", "10", "60",
    ] {
        assert!(found.contains(&label), "{label} in {found:?}");
    }
    let image = Image::read(&fs::read(&png).expect("a PNG"));
    assert_eq!((image.width, image.height), (1240, 124 + 473 + 84 + 24));
    assert_eq!(
        found.last(),
        Some(&"two crests that follow the Sun; the values are made up")
    );
    // The crest lies where it is two in the afternoon, 112.5 degrees east; the far side is dark.
    let [crest, night] = [90 + 780, 90 + 300].map(|x| image.at(x, 124 + 236 - 33));
    assert!(
        crest[0] > 150 && crest[1] > 200 && night[1] < 60,
        "{crest:?} {night:?}"
    );
}

/// The file's own words stand below the map, each on its line, and a blank line leaves its room.
#[test]
fn descriptions_below_the_map() {
    let folder = Folder::new();
    let (svg, png) = (folder.path("map.svg"), folder.path("map.png"));
    let draw = |name: &str| {
        let file = format!("tests/examples/{name}.inx");
        for out in [&svg, &png] {
            assert_eq!(ionex(&["plot", &file, "-o", out]).done(), "");
        }
        let image = Image::read(&fs::read(&png).expect("a PNG"));
        (fs::read_to_string(&svg).expect("an SVG"), image)
    };
    // None: all ends below the longitudes.
    let (svg, image) = draw("accepted-canonical");
    assert!(!svg.contains("monospace"));
    assert_eq!(image.height, 124 + 600 + 84);

    let (svg, image) = draw("accepted-2d-freedoms");
    assert!(svg.contains(">a description</text>"));
    let end = 124 + 600 + 84;
    assert_eq!(image.height, end + 24);

    // The same map as the first, and twenty lines.
    let (svg, image) = draw("accepted-descriptions");
    assert_eq!((image.width, image.height), (1180, end + 20 * 24));
    let found = words(&svg);
    let first = found
        .iter()
        .position(|words| *words == "the model of these maps")
        .expect("the first");
    assert_eq!(
        found[first + 1..first + 4],
        ["  two blanks first", "the same line", "the same line"]
    );
    assert_eq!(found[first..].len(), 17, "three lines are blank");
    assert_eq!(found.last(), Some(&"nineteen"));
    let ink = |line: usize, from: usize, to: usize| {
        let rows = end + 24 * line - 2..end + 24 * (line + 1) - 2;
        let dots = rows.flat_map(|y| (from..to).map(move |x| (x, y)));
        dots.filter(|&(x, y)| image.at(x, y) == [0, 0, 0]).count()
    };
    for line in 0..20 {
        let blank = [1, 10, 19].contains(&line);
        assert_eq!(ink(line, 0, 1180) == 0, blank, "line {}", line + 1);
    }
    // Twelve pixels to a column: two blanks first, and a letter in column 60 alone.
    assert_eq!(ink(2, 90, 90 + 24), 0);
    assert!(ink(2, 90 + 24, 90 + 36) > 0);
    assert_eq!(ink(8, 0, 90 + 59 * 12), 0);
    assert!(ink(8, 90 + 59 * 12, 90 + 60 * 12) > 0);
}

#[test]
fn refused() {
    let folder = Folder::new();
    let out = folder.file("map.svg", b"old");
    let cases: &[(&[&str], &str)] = &[
        (&["--map", "3"], "21: there is no map 3, the last is 2"),
        (&["--layer", "1"], "21: there is no layer 1, the last is 0"),
        (&["--kind", "rms"], "22: there is no RMS map 1"),
        (
            &["--time", "2000-01-01T02:00:01"],
            "20: the time lies before the first or after the last map: 2000-01-01 02:00:01 is not within 2000-01-01 \
             00:00:00 to 2000-01-01 02:00:00",
        ),
    ];
    for (more, told) in cases {
        let ran = ionex(&[&["plot", CANONICAL, "-o", &out], *more].concat());
        ran.failed(1, &format!("ionex: refused {told}\n"));
    }
    let ran = ionex(&["plot", "tests/examples/refused-02.inx", "-o", &out]);
    assert_eq!(ran.status, 1);
    assert!(ran
        .err
        .starts_with("tests/examples/refused-02.inx:19:6: refused 2: "));
    assert_eq!(fs::read(&out).expect("OUT"), b"old");
    let lost = folder.path("lost/map.png");
    ionex(&["plot", CANONICAL, "-o", &lost])
        .failed(2, &format!("ionex: {lost}: not written: no such folder\n"));
    assert_eq!(folder.names(), ["map.svg"]);
}

/// A name with letters that XML keeps for itself, one layer of several, and every value the same.
#[test]
fn names_layers_and_equal_values() {
    let folder = Folder::new();
    let file = folder.file("a&b<c>.inx", &example("001-table-4.inx"));
    let (svg, png) = (folder.path("map.svg"), folder.path("map.png"));
    for out in [&svg, &png] {
        ionex(&["plot", &file, "--layer", "2", "-o", out]).done();
    }
    let svg = fs::read_to_string(&svg).expect("an SVG");
    let found = words(&svg);
    assert_eq!(found[1], "map 1 of 5, layer 2, 300.0 km");
    assert!(found[2].contains("/a&amp;b&lt;c&gt;.inx, "), "{}", found[2]);
    // 1000 under exponent -2, in the middle of the scale.
    for tick in ["9.0", "10.0", "11.0"] {
        assert!(found.contains(&tick), "{tick} in {found:?}");
    }
    Image::read(&fs::read(&png).expect("a PNG"));
    let ran = ionex_given(&example("accepted-3d.inx"), &["plot", "-", "-o", &png]);
    assert_eq!(ran.done(), "");
}

/// An attribute of an element.
fn attribute<'a>(element: &'a str, name: &str) -> Option<&'a str> {
    let (_, rest) = element.split_once(&format!(" {name}=\""))?;
    rest.split_once('"').map(|(value, _)| value)
}

/// The colour of the cell that covers a pixel.
fn colour(svg: &str, x: i32, y: i32) -> &str {
    let covers = |element: &&str| {
        let sides = ["x", "y", "width", "height"].map(|name| attribute(element, name));
        let [Some(left), Some(top), Some(width), Some(height)] =
            sides.map(|side| side.and_then(|side| side.parse::<i32>().ok()))
        else {
            return false;
        };
        (left..left + width).contains(&x) && (top..top + height).contains(&y)
    };
    let mut cells = svg.lines().filter(|line| line.contains("crispEdges"));
    let cell = cells
        .find(covers)
        .unwrap_or_else(|| panic!("nothing at {x}, {y}"));
    attribute(cell, "fill").expect("a colour")
}

/// Coasts lie where they are: Ireland's most northern point, 55.2 N 6.7 W, on maps that begin at 180 W and at 2.5 W.
#[test]
fn coasts() {
    let folder = Folder::new();
    let day = folder.file("day.inx", &global::text(false));
    let table = "tests/examples/001-table-3.inx".to_string();
    // 360 degrees on 960 pixels, 177.5 on 473: 173.3 degrees are 462 pixels, and 143.95 from below 384. 360 on 960, 175 on
    // 466: 355.8 degrees are 949 pixels, and 142.7 are 380.
    for (file, x, y) in [
        (day, 90 + 462, 124 + 473 - 384),
        (table, 90 + 949, 124 + 466 - 380),
    ] {
        let svg = ionex(&["plot", &file, "--coasts", "-o", "-"]);
        let point = format!("L{x}.5 {y}.5");
        assert!(svg.done().contains(&point), "{point}");
        let png = folder.path("map.png");
        assert_eq!(ionex(&["plot", &file, "--coasts", "-o", &png]).done(), "");
        let image = Image::read(&fs::read(&png).expect("a PNG"));
        assert_eq!(image.at(x, y), [255; 3]);
        // None is drawn where it was not asked for.
        let plain = ionex(&["plot", &file, "-o", "-"]);
        assert!(!plain.done().contains(" stroke=\"#ffffff\"") && !plain.done().contains(&point));
    }
}

/// The scale goes from 0 to a value that was asked for, and what is larger has its last colour.
#[test]
fn a_fixed_scale() {
    let folder = Folder::new();
    let day = folder.file("day.inx", &global::text(false));
    let ran = ionex(&["plot", &day, "--map", "1", "--max", "25", "-o", "-"]);
    let found = words(ran.done());
    for tick in ["0", "5", "10", "15", "20", "25"] {
        assert!(found.contains(&tick), "{tick} in {found:?}");
    }
    assert!(!found.contains(&"30"));
    // At 0 h the crest is at 150 W, where it is two in the afternoon, 15 N, and has more than 60 TECU.
    assert_eq!(colour(ran.text(), 90 + 80, 124 + 196), "#fde725");
    let ran = ionex(&["plot", &day, "--max", "0", "-o", "-"]);
    ran.failed(
        2,
        "ionex: plot: --max 0: expected a whole number from 1 on; see ionex plot --help\n",
    );
}

/// All maps in one picture, each shown for its time; the first where nothing moves.
#[test]
fn animation() {
    let folder = Folder::new();
    let day = folder.file("day.inx", &global::text(false));
    let ran = ionex(&["plot", &day, "--animate", "-o", "-"]);
    let svg = ran.done();
    let titles: Vec<&str> = words(svg)
        .into_iter()
        .filter(|words| words.starts_with("Electron content"))
        .collect();
    assert_eq!(titles.len(), 25);
    assert_eq!(titles[7], "Electron content (TEC), 2010-12-04 07:00:00 UT");
    assert!(words(svg).contains(&"25 maps, 450.0 km"));
    assert_eq!(svg.matches("<g display=\"inline\">").count(), 1);
    assert_eq!(svg.matches("<g display=\"none\">").count(), 24);
    let animated: Vec<&str> = svg
        .lines()
        .filter(|line| line.contains("<animate "))
        .collect();
    let times = |number: usize| attribute(animated[number], "keyTimes").expect("times");
    assert_eq!(animated.len(), 25);
    assert_eq!(
        [times(0), times(1), times(24)],
        ["0;0.04000", "0;0.04000;0.08000", "0;0.96000"]
    );
    assert!(animated[3].contains("dur=\"15.0s\" repeatCount=\"indefinite\""));
}

/// An animation is of all maps, and an SVG.
#[test]
fn no_animation() {
    let cases: &[(&[&str], &str)] = &[
        (
            &["-o", "a.svg", "--map", "1"],
            "--animate draws all maps, and takes no --map and no --time",
        ),
        (
            &["-o", "a.svg", "--time", "2010-12-04"],
            "--animate draws all maps, and takes no --map and no --time",
        ),
        (&["-o", "a.png"], "--animate makes an SVG"),
    ];
    for (more, told) in cases {
        let ran = ionex(&[&["plot", CANONICAL, "--animate"], *more].concat());
        ran.failed(2, &format!("ionex: plot: {told}; see ionex plot --help\n"));
    }
}

/// On standard output an SVG comes out, the same as in a file.
#[test]
fn standard_output() {
    let folder = Folder::new();
    let svg = folder.path("map.svg");
    assert_eq!(ionex(&["plot", CANONICAL, "-o", &svg]).done(), "");
    let ran = ionex(&["plot", CANONICAL, "-o", "-"]);
    assert_eq!(ran.done(), fs::read_to_string(&svg).expect("an SVG"));
}

/// One row: its cells are as high as a step.
#[test]
fn single_rows() {
    let mut lines = common::lines();
    lines[12] = global::record("    10.0  10.0 -10.0", "LAT1 / LAT2 / DLAT");
    // The second row of each map goes.
    for line in [33, 32, 27, 26, 20, 19] {
        lines.remove(line);
    }
    let ran = ionex_given(&global::joined(&lines), &["plot", "-", "-o", "-"]);
    let svg = ran.done();
    // 30 degrees by 10, from 15 N to 5 N, with a line for every second degree.
    let found = words(svg);
    let north: Vec<&str> = found
        .into_iter()
        .filter(|words| words.ends_with("°N"))
        .collect();
    assert_eq!(north, ["6°N", "8°N", "10°N", "12°N", "14°N"]);
    assert_eq!(colour(svg, 90, 124), "#440154");
    assert_eq!(colour(svg, 90, 124 + 319), "#440154");
    assert_eq!(colour(svg, 1049, 300), "#fde725");
}

/// Words below the title end before the picture does, with three dots.
#[test]
fn words_that_are_cut() {
    let folder = Folder::new();
    let file = folder.file(
        &format!("{}.inx", "x".repeat(120)),
        &example("accepted-canonical.inx"),
    );
    let ran = ionex(&["plot", &file, "-o", "-"]);
    let found = words(ran.done());
    assert!(found[2].ends_with("..."), "{}", found[2]);
    // 1180 pixels wide is the picture, and from 90 to 20 before its end are 89 letters of 12.
    assert!((80..=89).contains(&found[2].len()), "{}", found[2].len());
}
