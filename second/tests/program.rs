//! The program `canon`.

mod common;
use common::*;
use second::program::canon;

#[test]
fn one_line_answers() {
    assert_eq!(canon(b""), b"refused 10 line 1 column 0\n");
    assert_eq!(canon(&[b'x'; 32_769]), b"text too big\n");
    assert_eq!(canon(&[b'x'; 32_768]), b"refused 1 line 1 column 81\n");
    assert_eq!(
        canon(&join(&with(19, "    1    2    x"))),
        b"refused 6 line 19 column 11\n"
    );
}

#[test]
fn canonical_text_is_a_fixed_point() {
    let text = join(&base());
    assert_eq!(canon(&text), text);
}

#[test]
fn exactly_32768_bytes_are_read() {
    let mut text = join(&base());
    let canonical = text.clone();
    text.resize(32_768, b'\n');
    assert_eq!(canon(&text), canonical);
    text.push(b'\n');
    assert_eq!(canon(&text), b"text too big\n");
}

#[test]
fn too_large_for_the_areas() {
    // 1 map of 9 rows and 445 columns: 4005 values; 444 columns make 3996.
    let text = |columns: usize| {
        let mut lines = base()[..17].to_vec();
        lines[3] = rec("  2000     1     1     0     0     0", "EPOCH OF LAST MAP");
        lines[5] = rec("     1", "# OF MAPS IN FILE");
        lines[12] = rec("    40.0 -40.0 -10.0", "LAT1 / LAT2 / DLAT");
        let last = format!("{}.{}", (columns - 1) / 10, (columns - 1) % 10);
        lines[13] = rec(&format!("     0.0{last:>6}   0.1"), "LON1 / LON2 / DLON");
        for row in (-4..=4).rev() {
            let latitude = format!("{}.0", row * 10);
            lines.push(rec(
                &format!("  {latitude:>6}   0.0{last:>6}   0.1 400.0"),
                "LAT/LON1/LON2/DLON/H",
            ));
            for line in vec!["    5".to_string(); columns].chunks(16) {
                lines.push(line.concat());
            }
        }
        lines.push(rec("     1", "END OF TEC MAP"));
        lines.push(rec("", "END OF FILE"));
        join(&lines)
    };
    assert_eq!(canon(&text(445)), b"refused 11 area 1 needs 4005\n");
    assert_eq!(canon(&text(444)), text(444));
}
