//! Every call on either side of its limits, and the crate's numbers and texts beside the header's.

use kobbeskuim::*;
use std::path::Path;

fn ran(ended: Result<(), Refused>, done: usize, qc: bool) -> Ran {
    Ran { ended, done, qc }
}

fn fields([family, size, form, turns, destination, first, second, index]: [u32; 8]) -> Fields {
    let (family, size, form) = (Family(family), Size(size), Form(form));
    Fields { family, size, form, turns, destination, first, second, index }
}

#[test]
fn edges_of_a_run() {
    let mut file = vec![7; 8192];
    for (l, size) in [(0, 0), (127, 508), (192, 768), (2176, 8192)] {
        assert_eq!(run(l, &mut file[..size], true, &[]), ran(Err(Refused::BAD_LENGTH), 0, true));
    }
    // 384 is no power of two, and that comes before a wrong size and a program too long.
    for (size, words) in [(1536, 1), (512, 1), (1536, 4097)] {
        let refused = Err(Refused::NOT_POWER_OF_TWO);
        assert_eq!(run(384, &mut file[..size], true, &vec![0; words]), ran(refused, 0, true));
    }
    for size in [0, 511, 513] {
        assert_eq!(run(128, &mut file[..size], false, &[0]), ran(Err(Refused::BAD_SIZE), 0, false));
    }
    assert_eq!(run(128, &mut file[..512], false, &[0; 4097]), ran(Err(Refused::TOO_LONG), 0, false));
    assert!(file.iter().all(|&b| b == 7));
    for l in LENGTHS {
        assert_eq!(run(l, &mut file[..file_size(l)], true, &[]), ran(Ok(()), 0, true));
    }
    assert_eq!(run(128, &mut file[..512], false, &[0x4500_D800; 4096]), ran(Ok(()), 4096, false));
    let outside = [0x4500_D800, 0];
    assert_eq!(run(128, &mut file[..512], true, &outside), ran(Err(Refused::OUTSIDE), 1, true));
    assert_eq!(run(128, &mut file[..512], false, &[0x2F00_F000]), ran(Err(Refused::RESERVED), 0, false));
}

#[test]
fn lanes() -> Result<(), Refused> {
    // SQCADD Z0.B, Z0.B, Z1.B, 90: (0, 0) and (-128, -128) give (127, -128); CADD gives (-128, -128).
    for (word, real) in [(0x4501_D820, 127), (0x4500_D820, 0x80)] {
        let mut file = vec![0; 512];
        register_mut(128, &mut file, 1)?.fill(0x80);
        assert_eq!(run(128, &mut file, false, &[word]), ran(Ok(()), 1, false));
        assert_eq!(file[..2], [real, 0x80]);
    }
    // SQRDMLAH H0, H1, V2.H[0]: -32768 x -32768 on 0 clamps and sets QC; the rest of Z0 becomes 0.
    let mut file = vec![0; 1024];
    register_mut(256, &mut file, 0)?[2..].fill(0xFF);
    register_mut(256, &mut file, 1)?[1] = 0x80;
    register_mut(256, &mut file, 2)?[1] = 0x80;
    let word = encode(&fields([6, 1, 0, 0, 0, 1, 2, 0]))?;
    assert_eq!(run(256, &mut file, false, &[word]), ran(Ok(()), 1, true));
    assert_eq!(file[..2], [0xFF, 0x7F]);
    assert!(file[2..32].iter().all(|&b| b == 0));
    Ok(())
}

#[test]
fn registers() {
    let mut file: Vec<u8> = (0..1024).map(|at| (at / 32) as u8).collect();
    for n in 0..REGISTERS {
        let mut held = [n as u8; 32];
        assert_eq!(register(256, &file, n), Ok(&held[..]));
        assert_eq!(register_mut(256, &mut file, n), Ok(&mut held[..]));
    }
    let refusals = [
        (256, 32, Refused::NO_REGISTER),
        (128, 0, Refused::BAD_SIZE),
        (100, 32, Refused::BAD_LENGTH),
        (384, 40, Refused::NOT_POWER_OF_TWO),
    ];
    for (l, n, refused) in refusals {
        assert_eq!(register(l, &file, n), Err(refused));
        assert_eq!(register_mut(l, &mut file, n), Err(refused));
    }
    assert_eq!(register(128, &[], 0), Err(Refused::BAD_SIZE));
}

#[test]
fn words_decoded() {
    assert_eq!(decode(0x4541_DCA3), Ok(fields([1, 1, 0, 3, 3, 0, 5, 0])));
    assert_eq!(decode(0x44BA_7420), Ok(fields([5, 1, 0, 1, 0, 1, 2, 3])));
    assert_eq!(decode(0x44C2_3820), Ok(fields([4, 3, 0, 2, 0, 1, 2, 0])));
    assert_eq!(decode(0x2F72_F820), Ok(fields([7, 1, 1, 0, 0, 1, 2, 7])));
    assert_eq!(decode(0xC1AF_A41E), Ok(fields([8, 2, 2, 0, 30, 0, 15, 0])));
    assert_eq!(decode(0xC1EF_AC1C), Ok(fields([8, 3, 4, 0, 28, 0, 15, 0])));
    assert_eq!((fields([8, 2, 2, 0, 30, 0, 15, 0]).form, Form::FOUR), (Form::TWO, Form(4)));
    assert_eq!(decode(0x2F00_F000), Err(Refused::RESERVED));
    assert_eq!(decode(0x2F00_F400), Err(Refused::OUTSIDE));
    assert_eq!(decode(0xC120_A420), Err(Refused::OUTSIDE));
    assert_eq!(decode(0xC120_AC04), Ok(fields([8, 0, 4, 0, 4, 0, 0, 0])));
    assert_eq!(decode(0xC120_AC02), Err(Refused::OUTSIDE));
}

/// Neither has a word or a line.
#[test]
fn operations_refused() {
    let refusals = [
        ([5, 0, 0, 0, 0, 0, 0, 0], Refused::NO_SIZE),
        ([0, 0, 0, 2, 0, 0, 0, 0], Refused::NO_ROTATION),
        ([3, 1, 0, 0, 0, 0, 8, 0], Refused::REGISTER_LIMIT),
        ([6, 2, 0, 0, 0, 0, 0, 4], Refused::INDEX_LIMIT),
        ([8, 0, 2, 0, 0, 0, 16, 0], Refused::REGISTER_LIMIT),
        ([8, 0, 2, 0, 32, 0, 0, 0], Refused::REGISTER_LIMIT),
        ([8, 0, 4, 0, 1, 0, 16, 0], Refused::REGISTER_LIMIT),
        ([8, 0, 2, 0, 1, 0, 15, 0], Refused::GROUP_START),
        ([8, 0, 4, 0, 2, 0, 15, 0], Refused::GROUP_START),
        // fields past what there is
        ([9, 1, 0, 0, 0, 0, 0, 0], Refused::NO_OPERATION),
        ([8, 1, 0, 0, 0, 0, 0, 0], Refused::NO_OPERATION),
        ([8, 1, 1, 0, 0, 0, 0, 0], Refused::NO_OPERATION),
        ([8, 1, 3, 0, 0, 0, 0, 0], Refused::NO_OPERATION),
        ([8, 1, 5, 0, 0, 0, 0, 0], Refused::NO_OPERATION),
        ([6, 1, 4, 0, 0, 0, 0, 0], Refused::NO_OPERATION),
        ([3, 4, 0, 0, 0, 0, 0, 0], Refused::NO_OPERATION),
        ([3, 1, 3, 0, 0, 0, 0, 0], Refused::NO_OPERATION),
        ([3, 1, 0, 4, 0, 0, 0, 0], Refused::NO_OPERATION),
        ([3, 1, 0, 0, 1 << 31, 0, 0, 0], Refused::REGISTER_LIMIT),
        ([3, 1, 0, 0, 0, 1 << 31, 0, 0], Refused::REGISTER_LIMIT),
        ([3, 1, 0, 0, 0, 0, 1 << 31, 0], Refused::REGISTER_LIMIT),
        ([3, 1, 0, 0, 0, 0, 0, 1 << 31], Refused::INDEX_LIMIT),
        // fields that the family does not use
        ([0, 0, 1, 1, 0, 0, 0, 0], Refused::NO_OPERATION),
        ([0, 0, 0, 1, 0, 1, 0, 0], Refused::NO_OPERATION),
        ([2, 0, 0, 0, 0, 0, 0, 1], Refused::NO_OPERATION),
        ([6, 1, 0, 1, 0, 0, 0, 0], Refused::NO_OPERATION),
        ([8, 1, 2, 1, 0, 0, 0, 0], Refused::NO_OPERATION),
        ([8, 1, 2, 0, 0, 1, 0, 0], Refused::NO_OPERATION),
        ([8, 1, 2, 0, 0, 0, 0, 1], Refused::NO_OPERATION),
    ];
    for (numbers, refused) in refusals {
        assert_eq!(encode(&fields(numbers)), Err(refused), "{numbers:?}");
        assert_eq!(line(&fields(numbers)), Err(refused), "{numbers:?}");
    }
}

/// Every upper half of the bases' words, with lower halves from a plain sequence. Their line gives the fields too.
#[test]
fn fields_of_a_word_give_that_word() {
    let (mut low, mut operations) = (1u32, 0);
    for high in [0x2F00, 0x4400, 0x4500, 0x6F00, 0x7F00, 0xC100].into_iter().flat_map(|top| top..top + 0x100) {
        for _ in 0..0x400 {
            low = low.wrapping_mul(69069).wrapping_add(1);
            let word = high << 16 | low >> 16;
            if let Ok(fields) = decode(word) {
                assert_eq!(encode(&fields), Ok(word));
                assert_eq!(read_line(line(&fields).unwrap()), Ok(fields));
                operations += 1;
            }
        }
    }
    assert!(operations > 10_000, "only {operations} operations were tried");
}

#[test]
fn lines() {
    let lines = [
        ([0, 0, 0, 1, 0, 0, 1, 0], "CADD Z0.B, Z0.B, Z1.B, #90"),
        ([1, 1, 0, 3, 31, 0, 5, 0], "SQCADD Z31.H, Z31.H, Z5.H, #270"),
        ([2, 3, 0, 0, 9, 10, 11, 0], "CMLA Z9.D, Z10.D, Z11.D, #0"),
        ([3, 1, 0, 2, 0, 1, 7, 3], "CMLA Z0.H, Z1.H, Z7.H[3], #180"),
        ([4, 0, 0, 3, 0, 1, 31, 0], "SQRDCMLAH Z0.B, Z1.B, Z31.B, #270"),
        ([5, 2, 0, 3, 31, 30, 15, 1], "SQRDCMLAH Z31.S, Z30.S, Z15.S[1], #270"),
        ([6, 2, 2, 0, 0, 1, 31, 3], "SQRDMLAH V0.4S, V1.4S, V31.S[3]"),
        ([6, 2, 1, 0, 0, 1, 2, 0], "SQRDMLAH V0.2S, V1.2S, V2.S[0]"),
        ([7, 1, 2, 0, 0, 1, 2, 7], "SQRDMLSH V0.8H, V1.8H, V2.H[7]"),
        ([7, 1, 0, 0, 0, 1, 2, 7], "SQRDMLSH H0, H1, V2.H[7]"),
        ([8, 1, 2, 0, 0, 0, 2, 0], "SQDMULH { Z0.H-Z1.H }, { Z0.H-Z1.H }, Z2.H"),
        ([8, 0, 4, 0, 8, 0, 9, 0], "SQDMULH { Z8.B-Z11.B }, { Z8.B-Z11.B }, Z9.B"),
        ([8, 3, 4, 0, 28, 0, 15, 0], "SQDMULH { Z28.D-Z31.D }, { Z28.D-Z31.D }, Z15.D"),
    ];
    for (numbers, text) in lines {
        assert_eq!(line(&fields(numbers)).as_deref(), Ok(text));
        assert_eq!(read_line(text), Ok(fields(numbers)));
        // A beginning is cut off, and nothing follows a line.
        for reach in 0..text.len() {
            assert_eq!(read_line(&text[..reach]), Err(NotALine { reach }));
        }
        for more in ["\n", "\0", " ", "\u{ff}"] {
            assert_eq!(read_line(format!("{text}{more}")), Err(NotALine { reach: text.len() }));
        }
    }
    assert_eq!(lines.map(|(_, text)| text.len()).into_iter().max(), Some(LINE_MAX));
}

#[test]
fn texts_refused() {
    let texts = [
        ("", 0),
        ("sqcadd Z0.B, Z0.B, Z1.B, #90", 0),
        ("CADD  Z0.B, Z0.B, Z1.B, #90", 5),
        ("CADD Z00.B, Z0.B, Z1.B, #90", 7),
        ("CADD Z32.B, Z0.B, Z1.B, #90", 7),
        ("CADD Z3.B, Z4.B, Z1.B, #90", 12),
        ("CADD Z3.B,Z3.B, Z1.B, #90", 10),
        ("CADD Z0.B, Z0.B, Z1.B, #0", 24),
        ("CADD Z0.B, Z0.H, Z1.B, #90", 14),
        ("CMLA Z0.B, Z1.B, Z2.B[0], #0", 21),
        ("CMLA Z0.H, Z1.H, Z8.H[0], #0", 21),
        ("CMLA Z0.S, Z1.S, Z15.S[2], #0", 23),
        ("SQRDMLAH V0.2H, V1.2H, V2.H[0]", 13),
        ("SQRDMLAH B0, B1, V2.B[0]", 9),
        ("SQDMULH { Z0.H, Z1.H }, { Z0.H, Z1.H }, Z2.H", 14),
        ("SQDMULH { Z2.H-Z5.H }, { Z2.H-Z5.H }, Z2.H", 16),
        ("SQDMULH { Z0.H-Z1.H }, { Z0.H-Z3.H }, Z2.H", 31),
        ("SQDMULH { Z0.H-Z1.H }, { Z0.H-Z1.H }, Z16.H", 40),
    ];
    for (text, reach) in texts {
        assert_eq!(read_line(text), Err(NotALine { reach }), "{text}");
    }
    assert_eq!(read_line([0x80; 100_000]), Err(NotALine { reach: 0 }));
}

#[test]
fn listing() {
    let bytes = [0x00, 0xD8, 0x01, 0x45, 0x00, 0xF0, 0x00, 0x2F, 0, 0, 0, 0, 9];
    assert_eq!(list(&bytes), "4501D800 SQCADD\n2F00F000 RESERVED\n00000000 OUTSIDE\nTAIL 1\nTOTAL 3\n");
    assert_eq!(list(&[]), "TOTAL 0\n");
    let limit = list(&vec![0; 4 * (LIST_WORDS_MAX + 1)]);
    assert_eq!(limit.lines().count(), LIST_WORDS_MAX + 1);
    assert!(limit.ends_with("00000000 OUTSIDE\nLIMIT\n"));
}

fn numbers(numbers: &[u32]) -> Vec<u8> {
    numbers.iter().flat_map(|number| number.to_le_bytes()).collect()
}

/// A file at 128 bits of zeros, but for Z0, which holds this pair throughout, and Z1, which holds (-128, -128).
fn file(pair: [u8; 2]) -> Vec<u8> {
    let mut file = [pair; 256].concat();
    file[16..32].fill(0x80);
    file[32..].fill(0);
    file
}

/// The trace of cases at 128 bits, which start with (0, 0) in Z0: words, QC before and after, the file after.
fn trace(cases: &[(&[u32], [u32; 2], Vec<u8>)]) -> Vec<u8> {
    let (mut contents, mut bodies) = (numbers(&[cases.len() as u32]), vec![]);
    for (words, [before, after], left) in cases {
        let start = 4 + 12 * cases.len() + bodies.len();
        contents.extend(numbers(&[128, words.len() as u32, start as u32]));
        bodies.extend([numbers(&[*before]), file([0, 0]), numbers(words), numbers(&[*after]), left.clone()].concat());
    }
    [contents, bodies].concat()
}

/// SQCADD Z0.B, Z0.B, Z1.B, 90, which leaves (127, -128) in Z0.
const SQCADD: u32 = 0x4501_D820;

#[test]
fn verdicts() {
    let (right, mut last) = (file([127, 0x80]), file([127, 0x80]));
    last[511] = 1;
    let mut wrong = last.clone();
    wrong[17] = 0;
    let cases: [(&[u32], _, _, _); 10] = [
        (&[SQCADD], [0, 0], &right, Verdict::Agrees),
        (&[SQCADD], [1, 1], &right, Verdict::Agrees),
        (&[], [1, 1], &file([0, 0]), Verdict::Agrees),
        (&[SQCADD], [0, 0], &last, Verdict::FileDiffers(511)),
        (&[SQCADD], [0, 1], &wrong, Verdict::FileDiffers(17)),
        (&[SQCADD], [0, 1], &right, Verdict::FlagDiffers),
        (&[SQCADD, 0, SQCADD], [0, 1], &wrong, Verdict::Outside(1)),
        (&[SQCADD, SQCADD, 0x2F00_F000], [0, 0], &right, Verdict::Reserved(2)),
        (&[0], [2, 0], &wrong, Verdict::BadFlag),
        (&[SQCADD], [0, 256], &right, Verdict::BadFlag),
    ];
    let trace = trace(&cases.map(|(words, flags, left, _)| (words, flags, left.clone())));
    for (n, (.., verdict)) in cases.iter().enumerate() {
        assert_eq!(replay(&trace, n), Ok(*verdict), "case {n}");
    }
    for n in [10, 1 << 32, usize::MAX] {
        assert_eq!(replay(&trace, n), Err(Refused::NO_CASE));
    }
}

/// Each also where there is no case of that number.
#[test]
fn traces_refused() {
    let good = trace(&[(&[SQCADD], [0, 0], file([127, 0x80])), (&[], [0, 0], file([0, 0]))]);
    let refused = |trace: &[u8]| [0, usize::MAX].map(|n| replay(trace, n));
    for size in [0, 3, 4, 27] {
        assert_eq!(refused(&good[..size]), [Err(Refused::BAD_CONTENTS); 2], "{size} bytes");
    }
    for trace in [&good[..28], &good[..good.len() - 1], &[&good[..], &[0]].concat()] {
        assert_eq!(refused(trace), [Err(Refused::BAD_TOTAL); 2], "{} bytes", trace.len());
    }
    let start = good.len() as u32 - 1032;
    let cases = [(0, 0), (0, 1), (0, 3), (0, 1025)];
    for (at, number) in cases.into_iter().chain([(16, 384), (20, 4097), (12, 27), (24, start - 1), (24, start + 1)]) {
        let mut trace = good.clone();
        trace[at..at + 4].copy_from_slice(&numbers(&[number]));
        assert_eq!(refused(&trace), [Err(Refused::BAD_CONTENTS); 2], "{number} at {at}");
        trace.resize(TRACE_MAX + 1, 0); // 15 comes ahead of 16
        assert_eq!(refused(&trace), [Err(Refused::BAD_CONTENTS); 2], "{number} at {at}, in a long trace");
    }
}

#[test]
fn longest_trace() {
    let words = [0x4500_D800; WORDS_MAX];
    let four = |last| {
        let programs = [&words[..], &words[..], &words[..], &words[..last]];
        trace(&programs.map(|words| (words, [1, 1], file([0, 0]))))
    };
    let mut full = four(3051);
    assert_eq!(full.len(), TRACE_MAX);
    for n in 0..4 {
        assert_eq!(replay(&full, n), Ok(Verdict::Agrees));
    }
    assert_eq!(replay(&full, 4), Err(Refused::NO_CASE));
    assert_eq!(replay(&four(3052), 0), Err(Refused::BAD_TOTAL));
    full.push(0);
    assert_eq!(replay(&full, 0), Err(Refused::BAD_TOTAL));
}

/// Hands in a trace in pieces of this size, each with an empty one before it. What is told, with the place behind the
/// byte that brought it; up to the first refusal.
fn told(stream: &mut Stream, trace: &[u8], size: usize) -> Vec<(usize, Told)> {
    let (mut told, mut place) = (vec![], 0);
    for mut rest in trace.chunks(size) {
        assert_eq!(stream.feed(&[]), Fed { taken: 0, told: Told::Nothing });
        while !rest.is_empty() {
            let fed = stream.feed(rest);
            place += fed.taken;
            rest = &rest[fed.taken..];
            match fed.told {
                Told::Nothing => assert!(rest.is_empty(), "not all was taken, and nothing told"),
                _ => told.push((place, fed.told)),
            }
            if let Told::Over(_) = fed.told {
                return told;
            }
        }
    }
    told
}

/// Every later call takes nothing and gives the same answer.
fn stays(mut stream: Stream, end: Result<(), Refused>) {
    for piece in [&[][..], &[1], &[0; 100_000]] {
        assert_eq!(stream.feed(piece), Fed { taken: 0, told: Told::Over(end) });
        assert_eq!(stream.end(), end);
    }
}

/// Two cases at 128 bits, of one word and of none: bodies of 1,036 and 1,032 bytes from byte 28 on.
fn two() -> Vec<u8> {
    trace(&[(&[SQCADD], [0, 1], file([127, 0x80])), (&[], [0, 0], file([0, 0]))])
}

#[test]
fn streams() {
    let trace = two();
    let wanted = [(1064, Told::Case(Verdict::FlagDiffers)), (2096, Told::Case(Verdict::Agrees))];
    for size in (1..30).chain([1035, 1036, 1064, 1065, trace.len()]) {
        let mut stream = Stream::new();
        assert_eq!(told(&mut stream, &trace, size), wanted, "in pieces of {size}");
        let (mut other, refused) = (stream.clone(), Refused::BAD_TOTAL);
        assert_eq!(stream.end(), Ok(()));
        stays(stream, Ok(()));
        assert_eq!(other.feed(&[0; 2]), Fed { taken: 1, told: Told::Over(Err(refused)) });
        stays(other, Err(refused));
    }
}

/// Verdicts stand where the line breaks.
#[test]
fn streams_cut_short() {
    let trace = two();
    for size in [0, 1, 4, 27, 28, 29, 1063, 1064, 1065, 2095] {
        let mut stream = Stream::default();
        assert_eq!(told(&mut stream, &trace[..size], 7).len(), usize::from(size >= 1064), "{size} bytes");
        let refused = if size < 28 { Refused::BAD_CONTENTS } else { Refused::BAD_TOTAL };
        assert_eq!(stream.end(), Err(refused), "{size} bytes");
        stays(stream, Err(refused));
    }
}

#[test]
fn streams_refused() {
    let wrong = [(0, 0), (0, 1025), (4, 384), (8, 4097), (12, 27), (16, 0), (20, u32::MAX), (24, 1063), (24, 1065)];
    for (at, number) in wrong {
        let mut trace = two();
        trace[at..at + 4].copy_from_slice(&numbers(&[number]));
        for size in [1, 3, 2096] {
            let (mut stream, refused) = (Stream::new(), Err(Refused::BAD_CONTENTS));
            assert_eq!(told(&mut stream, &trace, size), [(at + 4, Told::Over(refused))], "{number} at {at}");
            stays(stream, refused);
        }
    }
}

/// 1,024 cases, and more than [`TRACE_MAX`] bytes.
#[test]
fn longest_stream() {
    let trace = trace(&vec![(&[][..], [1, 1], file([0, 0])); CASES_MAX]);
    let wanted: Vec<_> = (1..=CASES_MAX).map(|n| (12_292 + 1032 * n, Told::Case(Verdict::Agrees))).collect();
    for size in [1000, trace.len()] {
        let mut stream = Stream::new();
        assert_eq!(told(&mut stream, &trace, size), wanted);
        assert_eq!(stream.end(), Ok(()));
    }
    assert_eq!(replay(&trace, 0), Err(Refused::BAD_TOTAL));
}

/// The header: in the tree, or in the prefix that the crate is installed into.
fn header() -> String {
    let read =
        |folder| std::fs::read_to_string(Path::new(env!("CARGO_MANIFEST_DIR")).join(folder).join("kobbeskuim.h"));
    let found = read("../../include").or_else(|_| read("../../../include"));
    found.expect("kobbeskuim.h is to be in ../../include or ../../../include of the crate")
}

#[test]
fn as_in_the_header() {
    let header = header();
    let defined = |name: String| {
        let line = header.lines().find_map(|line| line.strip_prefix(&format!("#define KOB_{name} ")));
        line.and_then(|rest| rest.split(' ').next()).unwrap_or_else(|| panic!("the header has no KOB_{name}"))
    };
    let limits = [
        ("LENGTH_MIN", LENGTHS[0]),
        ("LENGTH_MAX", LENGTHS[4]),
        ("REGISTERS", REGISTERS),
        ("FILE_SIZE_MAX", file_size(LENGTHS[4])),
        ("WORDS_MAX", WORDS_MAX),
        ("LIST_WORDS_MAX", LIST_WORDS_MAX),
        ("TRACE_MAX", TRACE_MAX),
        ("CASES_MAX", CASES_MAX),
        ("LINE_MAX", LINE_MAX),
        ("STREAM_SIZE", STREAM_SIZE),
        ("FIELDS", size_of::<Fields>() / 4),
    ];
    let numbers = (limits.iter().map(|(name, limit)| (name.to_string(), *limit as u32)))
        .chain(Family::ALL.iter().map(|family| (format!("{family:?}"), family.0)))
        .chain(Size::ALL.iter().map(|size| (format!("SIZE_{size:?}"), size.0)))
        .chain(Form::ALL.iter().map(|form| (format!("{form:?}"), form.0)))
        .chain(Refused::ALL.iter().map(|refused| (format!("{refused:?}"), refused.0)));
    for (name, number) in numbers {
        assert_eq!(defined(name.clone()), number.to_string(), "KOB_{name}");
    }
    // The kinds of verdict, each of which is tried above; the others are Refused's.
    for (name, kind) in [("AGREES", "1"), ("FILE_DIFFERS", "2"), ("FLAG_DIFFERS", "3"), ("BAD_FLAG", "17")] {
        assert_eq!(defined(name.into()), kind, "KOB_{name}");
    }
    for refused in Refused::ALL {
        let text = format!("case KOB_{refused:?}: return \"{refused}\";");
        assert!(header.contains(&text), "the header has no {text}");
    }
    let text = format!("case KOB_BAD_FLAG: return \"{}\";", Verdict::BadFlag);
    assert!(header.contains(&text), "the header has no {text}");
    let texts = header.matches("case KOB_").count();
    assert_eq!(texts, Refused::ALL.len() + 2, "the header's texts, that of done and of a verdict among them");
    assert_eq!(defined("VERSION".into()), format!("\"{}\"", env!("CARGO_PKG_VERSION")));
    let parts = ["MAJOR", "MINOR", "PATCH"].map(|part| defined(format!("VERSION_{part}")));
    assert_eq!(parts.join("."), env!("CARGO_PKG_VERSION"));
}
