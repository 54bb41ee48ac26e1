//! Opens functions, and asks them, one key at a time and many at once.
mod common;

use cmph::{build, library_version, Algorithm, DumpError, Function, Keys, KeysError, Plan, NONE};
use common::{generated, known_plans, of_hex, plans, two_by_brz};
use std::{env, fs, thread};

const BATCH: usize = 1000;

fn dump_of(keys: &Keys, plan: &Plan) -> Vec<u8> {
    build(keys.bytes(), keys.ends(), plan).expect("a function")
}

/// Panics if two keys have one number, a key has none, or one by one the numbers are others than in a batch.
fn assert_numbers(function: &Function<'_>, keys: &Keys) -> Vec<u32> {
    let mut numbers = vec![77; keys.len() + 1];
    function
        .answers(keys.bytes(), keys.ends(), &mut numbers)
        .unwrap();
    assert_eq!(numbers.pop(), Some(77), "a number too many");
    for (key, number) in keys.iter().zip(&numbers) {
        assert_eq!(function.answer(key), Some(*number));
    }
    let mut sorted = numbers.clone();
    sorted.sort_unstable();
    sorted.dedup();
    assert_eq!(sorted.len(), keys.len(), "two keys have one number");
    assert!(sorted.last() < Some(&function.span()));
    numbers
}

#[test]
fn the_library_has_the_version_of_the_crate() {
    let (major, minor, patch) = library_version();
    assert_eq!(
        format!("{major}.{minor}.{patch}"),
        env!("CARGO_PKG_VERSION")
    );
}

#[test]
fn keys_have_numbers_of_their_own() {
    let keys = generated(BATCH);
    for plan in plans() {
        let dump = dump_of(&keys, &plan);
        let function = Function::open(&dump).unwrap();
        assert_eq!(function.algorithm(), plan.algorithm);
        assert_eq!(function.keys() as usize, BATCH);
        let numbers = assert_numbers(&function, &keys);
        match plan.algorithm {
            Algorithm::Chm => assert!(numbers.iter().copied().eq(0..BATCH as u32)),
            Algorithm::Bdz => assert_eq!(function.span() as usize, BATCH),
            _ => assert!(function.span() as usize >= BATCH),
        }
    }
}

#[test]
fn a_key_of_another_list_has_any_number_or_none() {
    for plan in plans() {
        let dump = dump_of(&generated(BATCH), &plan);
        let function = Function::open(&dump).unwrap();
        let others: Keys = (0..BATCH).map(|i| format!("other {i}")).collect();
        let mut numbers = vec![0; BATCH];
        function
            .answers(others.bytes(), others.ends(), &mut numbers)
            .unwrap();
        for (key, number) in others.iter().zip(numbers) {
            let answer = function.answer(key);
            assert!(answer < Some(function.span()));
            assert_eq!(answer.unwrap_or(NONE), number);
        }
    }
}

#[test]
fn no_keys_get_no_numbers() {
    let dump = dump_of(&generated(3), &Plan::chm());
    let function = Function::open(&dump).unwrap();
    assert_eq!(function.answers(b"", &[], &mut []), Ok(()));
    assert_eq!(function.answers(b"unused", &[], &mut []), Ok(()));
}

#[test]
fn each_prefix_is_truncated_and_a_byte_more_is_trailing() {
    let mut dumps: Vec<_> = plans()
        .iter()
        .map(|plan| dump_of(&generated(5), plan))
        .collect();
    dumps.push(two_by_brz());
    for mut dump in dumps {
        for len in 0..dump.len() {
            let fault = Function::open(&dump[..len]).unwrap_err();
            assert_eq!(fault, DumpError::Truncated { at: len as u64 });
        }
        dump.push(0);
        assert_eq!(Function::open(&dump).unwrap_err(), DumpError::Trailing);
    }
}

#[test]
fn changed_bytes_are_refused_or_have_numbers_below_the_span() {
    let keys = generated(5);
    let mut dumps: Vec<_> = plans().iter().map(|plan| dump_of(&keys, plan)).collect();
    dumps.push(two_by_brz());
    for dump in dumps {
        for at in 0..dump.len() {
            for change in [1, 2, 0x10, 0x80, 0xff] {
                let mut changed = dump.clone();
                changed[at] ^= change;
                let Ok(function) = Function::open(&changed) else {
                    continue;
                };
                for key in keys.iter() {
                    assert!(function.answer(key) < Some(function.span()));
                }
            }
        }
    }
}

#[test]
fn the_first_fault_is_named() {
    let keys = generated(5);
    let dump = dump_of(&keys, &Plan::bdz());
    for (at, byte, fault, text) in [
        (0, b'c', DumpError::BadMagic, "bad magic"),
        (8, 9, DumpError::BadAlgorithm, "bad algorithm"),
        (9, 1, DumpError::BadField { at: 9 }, "bad field at 9"),
        (10, 2, DumpError::BadField { at: 10 }, "bad field at 10"),
        (15, 255, DumpError::BadField { at: 12 }, "bad field at 12"),
        (19, 255, DumpError::BadField { at: 16 }, "bad field at 16"),
    ] {
        let mut changed = dump.clone();
        changed[at] = byte;
        let found = Function::open(&changed).unwrap_err();
        assert_eq!(found, fault);
        assert_eq!(found.to_string(), text);
    }
}

/// The faults of cells and ranks, on the functions of docs/use/formats.md.
#[test]
fn faults_past_the_header_are_named() {
    let bdz = "434d5048444d5032 02 00 0700 01000000 b0c41200 00000000";
    let bdz_ph = "434d5048444d5032 03 00 0000 02000000 b0c41200 00000000";
    let chm = "434d5048444d5032 01 00 0000 03000000 40420f00 01000000";
    let brz = "434d5048444d5032 04 00 8000 02000000 b0c41200 00000000";
    for (header, body, fault) in [
        (bdz, "f3ffff 00000000", DumpError::BadPadding { at: 26 }),
        (bdz, "f0ff03 00000000", DumpError::BadCount { at: 24 }),
        (bdz, "f3ff03 01000000", DumpError::BadRank { at: 27 }),
        (bdz_ph, "f300", DumpError::BadCell { at: 24 }),
        (chm, "03", DumpError::BadCell { at: 24 }),
        (chm, "40", DumpError::BadPadding { at: 24 }),
        (brz, "0004 00000000 c3ff03", DumpError::BadField { at: 24 }),
        (brz, "0100 00000000 c3ff03", DumpError::BadCount { at: 24 }),
        (
            brz,
            "0200 00000000 c3ffff",
            DumpError::BadPadding { at: 32 },
        ),
        (brz, "0200 00000000 f3ff03", DumpError::BadCount { at: 30 }),
    ] {
        let dump = of_hex(&format!("{header} {body}"));
        assert_eq!(Function::open(&dump).unwrap_err(), fault, "{body}");
    }
}

/// The functions of docs/use/formats.md in version 1, with their keys.
#[test]
fn files_of_version_1_are_opened() {
    let (chm, bdz) = (&["a", "b"][..], &[""][..]);
    let (bdz_ph, brz) = (&["", "a"][..], &["", "a"][..]);
    for (keys, body) in [
        (chm, "01 00 0000 02000000 10e41f00 01000000 02"),
        (bdz, "02 07 0000 01000000 b0c41200 00000000 f3ff03 00000000"),
        (bdz_ph, "03 00 0000 02000000 b0c41200 00000000 0000"),
        (
            brz,
            "04 80 0000 02000000 b0c41200 00000000 02 00000000 c3ff03",
        ),
    ] {
        let dump = of_hex(&format!("434d5048444d5031 {body}"));
        let function = Function::open(&dump).unwrap();
        assert_numbers(&function, &keys.iter().collect());
    }
}

#[test]
fn wrong_ends_put_no_number() {
    for plan in plans() {
        let dump = dump_of(&generated(BATCH), &plan);
        let function = Function::open(&dump).unwrap();
        let long = vec![b'k'; 65_536];
        for (keys, ends, room, fault) in [
            (&b"abc"[..], &[1, 2, 1][..], 3, KeysError::BadEnd { key: 2 }),
            (b"abc", &[1, 4], 2, KeysError::BadEnd { key: 1 }),
            (b"abc", &[u64::MAX], 1, KeysError::BadEnd { key: 0 }),
            (b"", &[0, 1], 2, KeysError::BadEnd { key: 1 }),
            (&long, &[0, 65_536], 2, KeysError::BadEnd { key: 1 }),
            (b"abc", &[1, 2, 3], 2, KeysError::NoRoom { needed: 3 }),
            (b"", &[0], 0, KeysError::NoRoom { needed: 1 }),
        ] {
            let mut numbers = vec![77; room];
            assert_eq!(function.answers(keys, ends, &mut numbers), Err(fault));
            assert!(numbers.iter().all(|number| *number == 77));
        }
        assert!(function
            .answers(&long[1..], &[0, 65_535], &mut [77; 2])
            .is_ok());
    }
}

#[test]
fn a_function_by_brz_has_its_index_in_memory_of_its_own_or_of_the_callers() {
    let dump = two_by_brz();
    let keys: Keys = ["", "a"].into_iter().collect();
    let own = Function::open(&dump).unwrap();
    assert_eq!(own.algorithm(), Algorithm::Brz);
    assert_eq!((own.keys(), own.span()), (2, 2));
    let moved = Box::new(own);
    let numbers = assert_numbers(&moved, &keys);

    let fault = Function::open_in(&dump, &mut []).unwrap_err();
    assert_eq!(fault, DumpError::NoRoom { needed: 1 });
    let mut index = [7; 2];
    let lent = Function::open_in(&dump, &mut index).unwrap();
    assert_eq!(assert_numbers(&lent, &keys), numbers);
}

#[test]
fn bytes_are_at_any_addresses() {
    let keys = generated(BATCH);
    for plan in plans() {
        let dump = dump_of(&keys, &plan);
        let numbers = assert_numbers(&Function::open(&dump).unwrap(), &keys);
        for shift in 0..8 {
            let shifted = [&vec![0; shift], keys.bytes()].concat();
            let again = [&vec![0; shift], &dump[..]].concat();
            let built = build(&shifted[shift..], keys.ends(), &plan).unwrap();
            assert!(built == dump);
            let function = Function::open(&again[shift..]).unwrap();
            let mut found = vec![NONE; keys.len()];
            function
                .answers(&shifted[shift..], keys.ends(), &mut found)
                .unwrap();
            assert_eq!(found, numbers);
        }
    }
}

#[test]
fn the_other_algorithms_need_no_index() {
    let keys = generated(5);
    for plan in known_plans() {
        let dump = dump_of(&keys, &plan);
        let function = Function::open_in(&dump, &mut []).unwrap();
        assert_numbers(&function, &keys);
    }
}

#[test]
fn threads_share_a_function() {
    fn is_shared<T: Send + Sync>() {}
    is_shared::<Function<'_>>();

    let keys = generated(BATCH);
    for plan in plans() {
        let dump = dump_of(&keys, &plan);
        let function = Function::open(&dump).unwrap();
        let numbers = assert_numbers(&function, &keys);
        thread::scope(|scope| {
            let threads = [0, 1].map(|_| scope.spawn(|| assert_numbers(&function, &keys)));
            for thread in threads {
                assert_eq!(thread.join().unwrap(), numbers);
            }
        });
        // a function goes to another thread
        let there = thread::scope(|scope| {
            scope
                .spawn(move || function.answer(b"key 0"))
                .join()
                .unwrap()
        });
        assert_eq!(there, Some(numbers[0]));
    }
}

/// `CMPH_FILES` names a folder with a file `keys`, a key a line, and its functions `chm.mph`, `bdz.mph`, `bdz_ph.mph` and `brz.mph`.
#[test]
fn files_of_cmph_are_opened() {
    let Some(folder) = env::var_os("CMPH_FILES").map(std::path::PathBuf::from) else {
        println!("CMPH_FILES names no folder: files of cmph are left out");
        return;
    };
    let text = fs::read_to_string(folder.join("keys")).unwrap();
    let keys: Keys = text.lines().collect();
    for (name, algorithm) in [
        ("chm", Algorithm::Chm),
        ("bdz", Algorithm::Bdz),
        ("bdz_ph", Algorithm::BdzPh),
        ("brz", Algorithm::Brz),
    ] {
        let dump = fs::read(folder.join(name).with_extension("mph")).unwrap();
        let function = Function::open(&dump).unwrap();
        assert_eq!(function.algorithm(), algorithm);
        assert_eq!(function.keys() as usize, keys.len());
        let numbers = assert_numbers(&function, &keys);

        let needed = match Function::open_in(&dump, &mut []) {
            Err(DumpError::NoRoom { needed }) => needed,
            opened => opened.map(|_| 0).unwrap(),
        };
        assert_eq!(needed > 0, algorithm == Algorithm::Brz);
        let mut index = vec![0; needed];
        let lent = Function::open_in(&dump, &mut index).unwrap();
        assert_eq!(assert_numbers(&lent, &keys), numbers);
    }
}
