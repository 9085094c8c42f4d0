//! The fast implementation agrees with the reference.

use reference::generate::{self, Case, Random, Shape, Sizes, HIGHEST_NUMBER};
use reference::large::{Crowding, ORDERS};
use reference::{address, cases, check, fast, isolate, large, report, Accepted, Limits};

fn compare_isolation(case: &Case) -> u8 {
    let mut expected_list = vec![0xEE; case.room];
    let mut list = vec![0xEE; case.room];
    let expected = isolate(
        &case.file,
        case.attention_type,
        &case.words,
        &case.read,
        &mut expected_list,
    );
    let answer = fast::isolate(
        &case.file,
        case.attention_type,
        &case.words,
        &case.read,
        &mut list,
    );
    assert_eq!(answer, expected);
    assert_eq!(list, expected_list);
    expected.map_or_else(|refusal| refusal.number, |_| 0)
}

/// With a text that has room for the answer or not.
fn compare_report(random: &mut Random, case: &Case) {
    let readings_file = generate::readings_file(random, case);
    let expected = report(&case.file, case.attention_type, &readings_file);
    let room = match random.below(3) {
        0 => random.below(expected.len() + 1),
        _ => expected.len() + random.below(9),
    };
    let mut text = vec![0xEE; room];
    let length = fast::report(&case.file, case.attention_type, &readings_file, &mut text);
    assert_eq!(length, expected.len());
    let (there, beyond) = text.split_at(length.min(room));
    assert_eq!(there, &expected.as_bytes()[..there.len()]);
    assert!(beyond.iter().all(|&byte| byte == 0xEE));
}

#[test]
fn hand_made_cases() {
    let mut random = Random::new(40);
    for case in cases::all() {
        let file = case.file;
        assert_eq!(fast::check(&file), check(&file), "{}", case.name);
        for (id, instance) in [(1, 0), (2, 5)] {
            let expected = address(&file, id, instance);
            let answer = fast::address(&file, id, instance);
            assert_eq!(answer, expected, "{}", case.name);
        }
        let instances = check(&file).map_or(1, |summary| summary.register_instances);
        let (words, read) = generate::readings(&mut random, instances);
        let case = Case {
            file,
            attention_type: large::ATTENTION_TYPE,
            words,
            read,
            room: 64 * 16,
        };
        compare_isolation(&case);
        compare_report(&mut random, &case);
    }
}

#[test]
fn hand_made_calls() {
    let mut random = Random::new(47);
    for case in cases::isolations() {
        let case = Case {
            file: case.file,
            attention_type: large::ATTENTION_TYPE,
            words: case.words,
            read: case.read,
            room: case.room,
        };
        compare_isolation(&case);
        for _ in 0..4 {
            compare_report(&mut random, &case);
        }
    }
}

#[test]
fn random_cases() {
    let mut random = Random::new(41);
    let mut seen = [0; HIGHEST_NUMBER as usize + 1];
    for round in 0..30_000 {
        let case = match round % 2 {
            0 => generate::case(&mut random),
            _ => {
                let number = random.between(0, HIGHEST_NUMBER.into()) as u8;
                generate::aimed_case(&mut random, number, Sizes::Any)
            }
        };
        assert_eq!(fast::check(&case.file), check(&case.file));
        seen[usize::from(compare_isolation(&case))] += 1;
        compare_report(&mut random, &case);
    }
    // Number 1 needs a long file, which is rare.
    seen[1] *= 8;
    assert!(seen.iter().all(|&count| count >= 200), "{seen:?}");
}

#[test]
fn large_cases() {
    let mut random = Random::new(42);
    for _ in 0..300 {
        let case = generate::large_case(&mut random);
        assert_eq!(fast::check(&case.file), check(&case.file));
        compare_isolation(&case);
        compare_report(&mut random, &case);
    }
    for _ in 0..60 {
        let case = generate::full_list_case(&mut random);
        compare_isolation(&case);
        compare_report(&mut random, &case);
    }
    for instances in [256, 1_024] {
        for children in [1, 2, 4, large::MOST_CHILDREN] {
            let case = Case {
                file: large::children(instances, children, false),
                attention_type: large::ATTENTION_TYPE,
                words: large::every_fourth(instances),
                read: vec![1; instances],
                room: instances * 64 * 16,
            };
            compare_isolation(&case);
            compare_report(&mut random, &case);
        }
    }
}

/// Files that are too large for the station alone.
#[test]
fn too_large_cases() {
    let mut random = Random::new(49);
    for _ in 0..1_500 {
        let case = generate::too_large_case(&mut random);
        assert_eq!(fast::check(&case.file), check(&case.file));
        compare_isolation(&case);
        compare_report(&mut random, &case);
    }
}

#[test]
fn addresses() {
    let mut random = Random::new(43);
    for _ in 0..3_000 {
        let case = generate::case(&mut random);
        let ids: Vec<u32> = match Accepted::read(&case.file) {
            Ok(accepted) => accepted.tree.registers.iter().map(|r| r.id).collect(),
            Err(_) => vec![0, 1, 2],
        };
        for _ in 0..4 {
            let id = *random.pick(&ids) ^ *random.pick(&[0, 0, 0, 1, 1 << 24, 1 << 31]);
            let instance = random.below(20) as u8;
            let expected = address(&case.file, id, instance);
            assert_eq!(fast::address(&case.file, id, instance), expected);
        }
    }
    for registers in [1_024, 8_192, 8_193] {
        let file = large::register_instances(registers, 1);
        for id in [registers - 1, registers, registers + 1] {
            let id = id as u32;
            assert_eq!(fast::address(&file, id, 0), address(&file, id, 0));
        }
    }
}

/// Every cut of small files, every byte of them changed, and files that are put
/// together from parts of two.
#[test]
fn cut_changed_and_joined_files() {
    let mut random = Random::new(44);
    let mut before = large::B1.to_vec();
    for _ in 0..150 {
        let shape = Shape::small(&mut random);
        let file = generate::valid_file(&mut random, &shape).bytes;
        for length in 0..=file.len() {
            let cut = &file[..length];
            assert_eq!(fast::check(cut), check(cut));
        }
        let mut changed = file.clone();
        for at in 0..file.len() {
            let byte = file[at];
            for other in [0, 1, 2, byte ^ 0x80, byte.wrapping_add(1), random.byte()] {
                changed[at] = other;
                assert_eq!(fast::check(&changed), check(&changed));
                // And cut somewhere behind the change.
                let cut = &changed[..random.between(at, file.len())];
                assert_eq!(fast::check(cut), check(cut));
            }
            changed[at] = byte;
        }
        for _ in 0..50 {
            let mut joined = before[..random.below(before.len() + 1)].to_vec();
            joined.extend(&file[random.below(file.len())..]);
            assert_eq!(fast::check(&joined), check(&joined));
        }
        before = file;
    }
}

/// Graphs with and without cycles, in every order.
#[test]
fn graphs() {
    let mut random = Random::new(45);
    let mut cyclic = 0;
    for _ in 0..6_000 {
        let count = random.between(1, 24);
        let most = random.between(1, 4);
        let order = random.below(3);
        let children: Vec<Vec<usize>> = (0..count)
            .map(|position| {
                (0..random.below(most + 1))
                    .map(|_| match (order, random.one_in(4 * count)) {
                        (0, false) => random.between(position, count),
                        (1, false) => random.below(position + 1).wrapping_sub(1),
                        _ => random.below(count),
                    })
                    .filter(|&child| child < count)
                    .filter(|&child| order == 2 || child != position)
                    .collect()
            })
            .collect();
        let file = large::graph(&children, random.below(count));
        let expected = check(&file);
        assert_eq!(fast::check(&file), expected);
        cyclic += usize::from(expected.is_err());
        let one_in = random.between(1, 4);
        let words: Vec<u64> = (0..count)
            .map(|_| match random.one_in(one_in) {
                true => random.next(),
                false => 0,
            })
            .collect();
        let case = Case {
            file,
            attention_type: large::ATTENTION_TYPE,
            words,
            read: vec![1; count],
            room: 64 * 24 * 16,
        };
        compare_isolation(&case);
    }
    assert!((1_000..5_000).contains(&cyclic), "{cyclic}");
}

/// Files with many IDs in each order, whole, cut and with a duplicate.
#[test]
fn orders_of_ids() {
    let mut random = Random::new(46);
    for order in ORDERS {
        for file in [
            large::registers_in(order, 1_024),
            large::nodes_in(order, 256),
            large::late_duplicate(order, 1_024),
            large::registers_in(order, 8_192),
            large::nodes_in(order, 1_024),
            large::late_duplicate(order, 8_192),
        ] {
            assert_eq!(fast::check(&file), check(&file));
            for id in [0, 1, 2, 512, 1_023, 1_024, 1_025, 8_192] {
                assert_eq!(fast::address(&file, id, 0), address(&file, id, 0));
            }
            let rounds = if file.len() < 20_000 { 60 } else { 10 };
            for _ in 0..rounds {
                let mut file = file.clone();
                // A register's ID becomes that of another.
                let (to, from) = (random.below(256), random.below(256));
                let from = 20 + 11 * from;
                file.copy_within(from..from + 3, 20 + 11 * to);
                if random.one_in(4) {
                    file.truncate(random.below(file.len()));
                }
                assert_eq!(fast::check(&file), check(&file));
            }
        }
    }
    for limits in [Limits::PROGRAM, Limits::LIBRARY] {
        let nodes = limits.node_instances;
        for file in [
            large::mixed_children(nodes, large::MOST_CHILDREN),
            large::late_cycle(nodes),
            large::late_absence(limits),
            large::late_absent_child(nodes),
            large::late_write_only(limits),
            large::captures(limits, 0),
            large::captures(limits, 1),
            large::deep_expressions(limits),
            large::of_size(limits.bytes),
        ] {
            assert_eq!(fast::check(&file), check(&file));
        }
    }
}

/// IDs and names that collide in a table that is searched by number.
#[test]
fn colliding_cases() {
    let mut random = Random::new(48);
    for _ in 0..6_000 {
        let case = generate::colliding_case(&mut random);
        assert_eq!(fast::check(&case.file), check(&case.file));
        compare_isolation(&case);
        compare_report(&mut random, &case);
        let Ok(accepted) = Accepted::read(&case.file) else {
            continue;
        };
        let register = random.pick(&accepted.tree.register_instances);
        let id = accepted.tree.registers[register.register].id;
        let near = generate::name_like(&mut random, id, register.number);
        for (id, instance) in [(id, register.number), near] {
            let expected = address(&case.file, id, instance);
            assert_eq!(fast::address(&case.file, id, instance), expected);
        }
    }
    for limits in [Limits::PROGRAM, Limits::LIBRARY] {
        for crowding in [Crowding::None, Crowding::By64, Crowding::AtTheEnd] {
            for file in [
                large::crowded_registers(limits, crowding),
                large::crowded_nodes(limits, crowding),
                large::crowded_captures(limits, crowding),
                large::late_crowded_absence(limits, crowding),
                large::crowded_children(limits, crowding),
            ] {
                assert_eq!(fast::check(&file), check(&file));
            }
        }
    }
}
