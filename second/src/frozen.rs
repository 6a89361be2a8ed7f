//! The committed lines as they landed, a file for each landing and, where it
//! has lines of full size, lines about values or inputs of `judge`, one for
//! these. A later landing appends its own and leaves the earlier ones alone,
//! whatever limits it moves. The book of `lister` is kept likewise.

/// The lines of `crates/desk/stdin`.
const BLOCKS: &[&[u8]] = &[
    include_bytes!("../loads/blocks/01-base.txt"),
    include_bytes!("../loads/blocks/02-ask-06.txt"),
    include_bytes!("../loads/blocks/03-ask-08.txt"),
    include_bytes!("../loads/blocks/04-ask-03.txt"),
    include_bytes!("../loads/blocks/05-ask-04.txt"),
    include_bytes!("../loads/blocks/06-ask-11.txt"),
    include_bytes!("../loads/blocks/07-ask-12.txt"),
    include_bytes!("../loads/blocks/09-ask-05.txt"),
    include_bytes!("../loads/blocks/10-ask-07.txt"),
    include_bytes!("../loads/blocks/11-ask-09.txt"),
    include_bytes!("../loads/blocks/12-ask-13.txt"),
    include_bytes!("../loads/blocks/13-kinds.txt"),
];

/// The lines of full size: 16,384 elements and more, up to 64 copies, tables
/// of 16,384.
const LARGE: &[&[u8]] = &[
    include_bytes!("../loads/large/01-base.txt"),
    include_bytes!("../loads/large/02-ask-06.txt"),
    include_bytes!("../loads/large/03-ask-08.txt"),
    include_bytes!("../loads/large/05-ask-04.txt"),
    include_bytes!("../loads/large/06-ask-11.txt"),
    include_bytes!("../loads/large/10-ask-07.txt"),
    include_bytes!("../loads/large/12-ask-13.txt"),
];

/// The lines about values, which only the client answers.
const VALUES: &[&[u8]] = &[include_bytes!("../loads/values/08-ask-01.txt")];

/// The inputs of `judge`, each spelt on a line.
const JUDGE: &[&[u8]] = &[include_bytes!("../loads/judge/09-ask-05.txt")];

/// The book of `crates/lister/stdin`.
const BOOK: &[u8] = include_bytes!("../loads/book/11-ask-09.book");

pub fn blocks() -> Vec<u8> {
    BLOCKS.concat()
}

pub fn large() -> Vec<u8> {
    LARGE.concat()
}

pub fn values() -> Vec<u8> {
    VALUES.concat()
}

pub fn judge_inputs() -> Vec<u8> {
    JUDGE.concat()
}

pub fn book() -> Vec<u8> {
    BOOK.to_vec()
}

#[cfg(test)]
mod tests {
    use super::*;
    use crate::book::listed;
    use crate::judge::answer_each;
    use crate::lines::{answers, reached};
    use crate::loads::random::seed_of;
    use crate::verdict::MOST_ENTRIES;
    use crate::words::{NUMBERS, VALUE_NUMBERS};
    use std::fs;

    /// The checks of the files: one that is changed later is noticed here.
    const CHECKS: &[u64] = &[
        0xad71_fdc8_ebfc_3c99,
        0x3f92_b786_492e_cde8,
        0x34eb_bf2b_0c8b_dadd,
        0x095b_87f6_f306_1e0a,
        0x50b8_c06c_a5fb_c750,
        0x9f29_6235_3480_a824,
        0xd8f4_b337_a3c3_10c9,
        0x03fa_d2d2_c916_7032,
        0x01d1_caef_4ade_f105,
        0x6f26_f574_6e6a_dfb1,
        0xdd2b_8895_fb85_9de1,
        0x94a7_fbdd_bc77_3166,
    ];
    const LARGE_CHECKS: &[u64] = &[
        0xa6f5_5d97_af13_b392,
        0xe96a_db53_c368_7374,
        0x0ff1_3733_25d6_4632,
        0x5b14_d33b_47c5_2648,
        0x299b_0b55_97ab_889d,
        0x939c_00f5_3fc5_1a14,
        0x86c7_6635_12ff_d668,
    ];
    const JUDGE_CHECKS: &[u64] = &[0x8cbc_3dca_17c8_f36c];
    const VALUES_CHECKS: &[u64] = &[0x57eb_6585_6908_3b30];
    const BOOK_CHECK: u64 = 0xdd95_5875_cbc8_04bf;

    #[test]
    fn files_are_as_they_landed() {
        let checks = |files: &[&[u8]]| Vec::from_iter(files.iter().map(|file| seed_of(file)));
        assert_eq!(checks(BLOCKS), CHECKS);
        assert_eq!(checks(LARGE), LARGE_CHECKS);
        assert_eq!(checks(VALUES), VALUES_CHECKS);
        assert_eq!(checks(JUDGE), JUDGE_CHECKS);
        assert_eq!(seed_of(BOOK), BOOK_CHECK);
    }

    /// The files of a folder one after the other, by name.
    fn folder(name: &str) -> Vec<u8> {
        let folder = format!("{}/loads/{name}", env!("CARGO_MANIFEST_DIR"));
        let entries = fs::read_dir(folder).unwrap();
        let mut paths: Vec<_> = entries.map(|entry| entry.unwrap().path()).collect();
        paths.sort();
        paths
            .iter()
            .flat_map(|path| fs::read(path).unwrap())
            .collect()
    }

    #[test]
    fn every_file_is_listed_and_ends_its_last_line() {
        assert!(folder("blocks") == blocks());
        assert!(folder("large") == large());
        assert!(folder("values") == values());
        assert!(folder("judge") == judge_inputs());
        assert!(folder("book") == book());
        let mut files = BLOCKS.iter().chain(LARGE).chain(VALUES).chain(JUDGE);
        assert!(files.all(|file| file.ends_with(b"\n")));
    }

    /// The lines that begin with a word.
    fn of_word<'a>(all: &'a [u8], word: &str) -> Vec<&'a [u8]> {
        let beginning = format!("{word} ");
        let lines = all.split(|byte| *byte == b'\n');
        let own = |line: &&[u8]| line.starts_with(beginning.as_bytes());
        lines.filter(own).collect()
    }

    /// The lines reach every number of these words and no other.
    fn reach_every_number(lines: &[u8], words: &[(&str, &[u64])]) {
        for (word, numbers) in words {
            let own = of_word(lines, word).join(&b'\n');
            let reached = reached(&own, MOST_ENTRIES);
            assert_eq!(Vec::from_iter(reached.into_keys()), *numbers, "{word}");
        }
    }

    #[test]
    fn blocks_and_values_reach_every_number() {
        reach_every_number(&blocks(), NUMBERS);
        reach_every_number(&values(), VALUE_NUMBERS);
    }

    #[test]
    fn blocks_have_no_line_about_values_and_values_are_none_for_desk() {
        for (word, _) in VALUE_NUMBERS {
            assert!(of_word(&blocks(), word).is_empty(), "{word}");
        }
        assert!(answers(&values(), MOST_ENTRIES).all(|said| said == "?\n"));
    }

    #[test]
    fn what_judge_says() {
        let said = String::from_utf8(answer_each(&judge_inputs())).unwrap();
        let wanted = [
            "accepted 128 256 704",
            "refused 2 0 0 0",
            "refused 4 0 0 0",
            "refused 5 0 0 0",
            "refused 7 8 1 0",
            "refused 8 0 8 384",
            "refused 11 28672 0 0",
            "refused 17 0 1 0",
            "refused 18 22 0 0",
        ];
        for text in wanted {
            assert!(said.lines().any(|said| said == text), "{text}");
        }
        assert!(!said.lines().any(|said| said == "?"));
    }

    #[test]
    fn what_lister_says() {
        let said = listed(BOOK).collect::<Vec<_>>().concat();
        let said = String::from_utf8(said).unwrap();
        let numbers = [
            0, 0, 0, 19, 1, 1, 1, 20, 20, 20, 20, 0, 1, 19, 0, 0, 19, 0, 0, 0, 0, 1, 19, 0, 0, 19,
            0, 11,
        ];
        let lines = numbers.iter().enumerate();
        let wanted: String = lines
            .map(|(at, number)| format!("{at} {number}\n"))
            .collect();
        assert_eq!(said, wanted);
    }

    #[test]
    fn what_the_large_lines_say() {
        let lines = large();
        let plain = |text: String| text.split(" |").next().unwrap_or("").to_string();
        let said: Vec<String> = answers(&lines, MOST_ENTRIES).map(plain).collect();
        let wanted = [
            "0 16384 16384 16384",
            "7 16383 7 0",
            "0 256 16384 16384",
            "8 8191 8192 8191",
            "0 16383 16383 16383",
            "7 1 7 0",
            "7 16256 7 0",
            "0 4096 16384 16384",
            "17 0 2 0",
            "0 1024 16384 16384",
            "7 16321 7 0",
            "8 0 16384 0",
            "7 65535 7 0",
            "7 65024 7 0",
            "11 28672 0 0",
            "0 65536 16384 16384",
            "0 65536 1 16384",
            "0 32767 0 0",
            "8 0 32764 8191",
            "5 0 0 0",
            "7 12799 7 0",
            "8 8 15879 3968",
            "11 16385 0 0",
            "0 16384 0 0",
            "11 16384 0 0",
            "0 32256 0 0",
            "11 32256 0 0",
            "0 504 0 0",
            "23 16383 0 0",
            "0 0 0 0",
            "9 0 0 0",
            "21 2 0 0",
            "21 0 128 0",
            "21 0 16383 0",
        ];
        for text in wanted {
            assert!(said.iter().any(|said| said == text), "{text}");
        }
        let feeds = lines.iter().filter(|byte| **byte == b'\n');
        assert_eq!(said.len(), feeds.count());
        assert!(!said.iter().any(|text| text == "?\n"));
    }
}
