//! Builds functions, and is refused; and shards of keys.
mod common;

use cmph::{
    build, build_brz_into, build_into, room, route, Algorithm, BuildError, Function, Keys,
    KeysError, Plan,
};
use common::{generated, known_plans, of_hex, plans, two_by_brz};

fn built(keys: &Keys, plan: &Plan) -> Result<Vec<u8>, BuildError> {
    build(keys.bytes(), keys.ends(), plan)
}

/// The files of docs/use/formats.md.
#[test]
fn small_functions_have_known_files() {
    let none = Plan {
        seed: 0,
        ..Plan::bdz()
    };
    for (keys, plan, file) in [
        (
            &["a", "b"][..],
            Plan::chm(),
            "434d5048444d5032 01 00 0000 02000000 10e41f00 01000000 02",
        ),
        (
            &[""],
            none,
            "434d5048444d5032 02 00 0700 01000000 b0c41200 00000000 f3ff03 00000000",
        ),
        (
            &["", "a"],
            Plan {
                seed: 0,
                ..Plan::bdz_ph()
            },
            "434d5048444d5032 03 00 0000 02000000 b0c41200 00000000 0000",
        ),
    ] {
        let keys: Keys = keys.iter().collect();
        assert_eq!(built(&keys, &plan), Ok(of_hex(file)));
    }
}

#[test]
fn the_room_is_what_the_file_takes() {
    for plan in known_plans() {
        for many in [1, 2, 3, 5, 100] {
            let keys = generated(many);
            let dump = built(&keys, &plan).unwrap();
            assert_eq!(room(&plan, many), Some(dump.len() as u64));

            let mut small = vec![7; dump.len() - 1];
            let fault = build_into(keys.bytes(), keys.ends(), &plan, &mut small).unwrap_err();
            assert_eq!(fault, BuildError::NoRoom { needed: dump.len() });
            assert!(small.iter().all(|byte| *byte == 7));

            let mut large = vec![7; dump.len() + 9];
            let written = build_into(keys.bytes(), keys.ends(), &plan, &mut large);
            assert_eq!(written, Ok(dump.len()));
            assert_eq!(large[..dump.len()], dump);
            assert_eq!(large[dump.len()..], [7; 9]);
        }
        assert_eq!(room(&plan, 0), None);
        assert!(room(&plan, 67_108_864).is_some());
        assert_eq!(room(&plan, 67_108_865), None);
        assert_eq!(room(&plan, usize::MAX), None);
        assert_eq!(room(&Plan { tries: 0, ..plan }, 1), None);
    }
}

#[test]
fn a_build_by_brz_takes_a_spill() {
    let keys: Keys = ["", "a"].into_iter().collect();
    let none = Plan {
        seed: 0,
        ..Plan::brz()
    };
    assert_eq!(built(&keys, &none), Ok(two_by_brz()));

    let keys = generated(1000);
    let plan = Plan {
        b: 64,
        ..Plan::brz()
    };
    let dump = built(&keys, &plan).unwrap();
    let needed = keys.bytes().len() + 10 * keys.len();
    let mut spill = vec![0; needed];
    let mut room = vec![7; dump.len()];
    let into = |spill: &mut [u8], room: &mut [u8]| {
        build_brz_into(keys.bytes(), keys.ends(), &plan, spill, room)
    };
    let fault = into(&mut spill[1..], &mut room);
    assert_eq!(fault, Err(BuildError::NoSpill { needed }));
    assert!(room.iter().all(|byte| *byte == 7));
    let fault = into(&mut spill, &mut room[1..]);
    assert_eq!(fault, Err(BuildError::NoRoom { needed: dump.len() }));
    assert!(room.iter().all(|byte| *byte == 7));
    assert_eq!(into(&mut spill, &mut room), Ok(dump.len()));
    assert_eq!(room, dump);

    // more than a bucket may have, under any seed
    let keys: Keys = ["b"; 1100].into_iter().collect();
    let fault = built(&keys, &Plan { tries: 2, ..plan });
    assert_eq!(fault, Err(BuildError::EqualKeys { first: 0, again: 1 }));

    assert_eq!(room_of_brz(&plan), None);
    for bad in [
        Plan { b: 63, ..plan },
        Plan { b: 701, ..plan },
        Plan { b: 7, ..plan },
        Plan::bdz(),
    ] {
        let fault = build_brz_into(keys.bytes(), keys.ends(), &bad, &mut spill, &mut []);
        assert_eq!(fault, Err(BuildError::BadPlan));
    }
    let fault = build_into(keys.bytes(), keys.ends(), &plan, &mut []);
    assert_eq!(fault, Err(BuildError::BadPlan));
}

/// The length of a file by BRZ is not known before.
fn room_of_brz(plan: &Plan) -> Option<u64> {
    room(plan, 1000)
}

#[test]
fn equal_keys_are_named() {
    let keys: Keys = ["a", "b", "c", "b"].into_iter().collect();
    for plan in plans() {
        let fault = built(&keys, &plan).unwrap_err();
        assert_eq!(fault, BuildError::EqualKeys { first: 1, again: 3 });
        assert_eq!(fault.to_string(), "keys 1 and 3 are equal");
    }
}

#[test]
fn without_keys_there_is_no_function() {
    for plan in plans() {
        assert_eq!(built(&Keys::new(), &plan), Err(BuildError::NoKeys));
    }
}

/// The plan with the least b.
fn least(plan: Plan) -> Plan {
    let b = if plan.algorithm == Algorithm::Brz {
        64
    } else {
        3
    };
    Plan { b, ..plan }
}

/// The plan with the greatest.
fn greatest(plan: Plan) -> Plan {
    let b = if plan.algorithm == Algorithm::Brz {
        700
    } else {
        10
    };
    Plan { b, ..plan }
}

#[test]
fn a_bad_plan_is_refused() {
    let keys = generated(3);
    for plan in plans() {
        for bad in [
            Plan {
                ratio: 999_999,
                ..plan
            },
            Plan {
                ratio: 10_000_001,
                ..plan
            },
            Plan { tries: 0, ..plan },
            Plan {
                tries: 1001,
                ..plan
            },
            Plan {
                algorithm: Algorithm::Brz,
                b: 63,
                ..plan
            },
            Plan {
                b: 2,
                ..Plan::bdz()
            },
            Plan {
                b: 11,
                ..Plan::bdz()
            },
        ] {
            assert_eq!(built(&keys, &bad), Err(BuildError::BadPlan));
            assert_eq!(room(&bad, 3), None);
        }
        for good in [
            Plan {
                ratio: 10_000_000,
                ..plan
            },
            Plan {
                tries: 1000,
                ..plan
            },
            Plan {
                seed: u32::MAX,
                ..plan
            },
            least(plan),
            greatest(plan),
        ] {
            assert!(built(&keys, &good).is_ok());
        }
    }
}

#[test]
fn with_few_vertices_no_seed_works() {
    for plan in plans() {
        let tight = Plan {
            ratio: 1_000_000,
            tries: 2,
            ..plan
        };
        assert_eq!(built(&generated(1000), &tight), Err(BuildError::NoSeed));
    }
}

#[test]
fn keys_have_at_most_65_535_bytes() {
    let long = "k".repeat(65_535);
    for plan in plans() {
        let keys: Keys = ["", &long, "a"].into_iter().collect();
        let dump = built(&keys, &plan).unwrap();
        let function = Function::open(&dump).unwrap();
        let mut numbers: Vec<_> = keys
            .iter()
            .map(|key| function.answer(key).unwrap())
            .collect();
        numbers.sort_unstable();
        numbers.dedup();
        assert_eq!(numbers.len(), 3);

        let longer: Keys = ["", &format!("{long}k"), "a"].into_iter().collect();
        assert_eq!(built(&longer, &plan), Err(BuildError::BadEnd { key: 1 }));
    }
}

#[test]
fn wrong_ends_are_refused() {
    for plan in plans() {
        for (keys, ends, key) in [
            (&b"abc"[..], &[1, 3, 2][..], 2),
            (b"abc", &[1, 4], 1),
            (b"", &[u64::MAX], 0),
        ] {
            assert_eq!(build(keys, ends, &plan), Err(BuildError::BadEnd { key }));
        }
    }
}

#[test]
fn too_many_keys_are_refused() {
    let ends = vec![0; 67_108_865];
    let fault = build(b"", &ends, &Plan::bdz_ph()).unwrap_err();
    assert_eq!(fault, BuildError::TooManyKeys);
    let dump = built(&generated(3), &Plan::bdz_ph()).unwrap();
    let answered = Function::open(&dump).unwrap().answers(b"", &ends, &mut []);
    assert_eq!(answered, Err(KeysError::TooManyKeys));
    let routed = route(b"", &ends, 3, 7, &mut []);
    assert_eq!(routed, Err(KeysError::TooManyKeys));
}

#[test]
fn keys_have_shards() {
    let keys: Keys = ["", "a", "word", "longer than twelve bytes"]
        .into_iter()
        .collect();
    let mut shards = [77; 5];
    route(keys.bytes(), keys.ends(), 3, 7, &mut shards).unwrap();
    assert_eq!(shards, [3, 2, 1, 6, 77]);

    for (ends, many, len, fault) in [
        (keys.ends(), 0, 4, KeysError::BadShards),
        (keys.ends(), 671_088_646, 4, KeysError::BadShards),
        (keys.ends(), 7, 3, KeysError::NoRoom { needed: 4 }),
        (&[2, 1], 7, 2, KeysError::BadEnd { key: 1 }),
    ] {
        let mut shards = vec![77; len];
        assert_eq!(route(keys.bytes(), ends, 3, many, &mut shards), Err(fault));
        assert!(shards.iter().all(|shard| *shard == 77));
    }
}

#[test]
fn lists_of_keys_are_collected() {
    let mut keys: Keys = [b"ant".to_vec(), Vec::new()].iter().collect();
    keys.extend(["bee"]);
    assert_eq!((keys.len(), keys.is_empty()), (3, false));
    assert_eq!(
        (keys.bytes(), keys.ends()),
        (&b"antbee"[..], &[3, 3, 6][..])
    );
    assert_eq!(keys.get(1), Some(&b""[..]));
    assert_eq!(keys.get(3), None);
    assert!(keys.iter().eq([&b"ant"[..], b"", b"bee"]));
    assert!(Keys::default().is_empty());
}
