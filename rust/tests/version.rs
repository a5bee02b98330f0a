//! One version for the library, the crate and the header file.

#[test]
fn the_crate_has_the_version_of_the_library() {
    let (major, minor, patch) = ionex::version();
    assert_eq!(
        format!("{major}.{minor}.{patch}"),
        env!("CARGO_PKG_VERSION")
    );
}
