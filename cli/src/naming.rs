//! How files of maps are named.

/// The name without what says that it is packed.
pub fn unpacked(name: &str) -> &str {
    let plain = name.strip_suffix(".gz").or(name.strip_suffix(".Z"));
    plain.unwrap_or(name)
}

/// `CODG3380.10I`, `COD0OPSFIN_20103380000_01D_01H_GIM.INX`, `day.inx`, packed or not; nothing that is hidden.
pub fn is_ionex(name: &str) -> bool {
    if name.starts_with('.') {
        return false;
    }
    let Some((_, ending)) = unpacked(name).rsplit_once('.') else {
        return false;
    };
    match ending.as_bytes() {
        [tens, units, letter] => {
            let year = tens.is_ascii_digit() && units.is_ascii_digit();
            ending.eq_ignore_ascii_case("inx") || (year && letter.eq_ignore_ascii_case(&b'i'))
        }
        _ => false,
    }
}

/// The centre that a name begins with, in small letters: `cod` of both names above.
pub fn centre(name: &str) -> String {
    let letters = name.chars().take_while(char::is_ascii_alphanumeric);
    letters.take(3).collect::<String>().to_ascii_lowercase()
}

#[cfg(test)]
mod tests {
    use super::*;

    #[test]
    fn names_of_files_of_maps() {
        for name in [
            "codg3380.10i",
            "CODG3380.10I.Z",
            "a.inx",
            "COD0OPSFIN_20103380000_01D_01H_GIM.INX.gz",
        ] {
            assert!(is_ionex(name), "{name}");
        }
        for name in [
            ".a.inx",
            "a.inx.part",
            "README",
            "a.1xi",
            "a.inx.bz2",
            "brdc3380.10n",
        ] {
            assert!(!is_ionex(name), "{name}");
        }
    }

    #[test]
    fn centres() {
        assert_eq!(centre("CODG3380.10I.Z"), "cod");
        assert_eq!(centre("IGS0OPSRAP_20103380000_01D_02H_GIM.INX"), "igs");
        assert_eq!(centre("a.inx"), "a");
    }
}
