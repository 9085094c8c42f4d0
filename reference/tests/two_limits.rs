//! The station's limits beside the library's: where a file is within both, the
//! answers are the same, and where it is not, the station says so first.

use reference::checker::check_within;
use reference::generate::{self, Case, Random, Sizes, HIGHEST_NUMBER};
use reference::isolation::{isolate_with_readings_file, isolate_within, RECORD_BYTES};
use reference::report::LIST_RECORDS;
use reference::{check, fast, isolate, layout, report, Accepted, Limits, Refusal};

const LIBRARY: Limits = Limits::LIBRARY;
const PROGRAM: Limits = Limits::PROGRAM;

/// A case of any kind, with and without instances near the limits.
fn any_case(random: &mut Random, round: usize) -> Case {
    match round % 8 {
        0..=2 => generate::case(random),
        3 => generate::colliding_case(random),
        4 if round % 64 == 4 => generate::large_case(random),
        5 => generate::too_large_case(random),
        _ => {
            let number = random.between(0, HIGHEST_NUMBER.into()) as u8;
            generate::aimed_case(random, number, Sizes::Any)
        }
    }
}

fn number<T>(answer: &Result<T, Refusal>) -> u8 {
    answer.as_ref().map_or_else(|refusal| refusal.number, |_| 0)
}

/// Instances as the walk meets them, counted by the library's tree of the longest
/// beginning of the file that has them: the place of the number byte of the first
/// one beyond the station's limits, whatever follows. None if there is none.
fn first_beyond(file: &[u8]) -> Option<usize> {
    let tree = layout::read(file).ok()?;
    let registers = &tree.register_instances;
    let register = registers.get(PROGRAM.register_instances);
    let nodes = &tree.node_instances;
    let node = nodes.get(PROGRAM.node_instances);
    register
        .map(|instance| instance.address_at - 1)
        .or(node.map(|instance| instance.at))
}

/// What is said of the station's check beside the library's.
fn compare_checks(file: &[u8]) {
    let by_library = check(file);
    let by_station = check_within(file, PROGRAM);
    assert_eq!(by_library, check_within(file, LIBRARY));
    if by_station == by_library {
        let is_within = by_library.as_ref().is_ok_and(|summary| {
            file.len() <= PROGRAM.bytes
                && summary.register_instances <= PROGRAM.register_instances
                && summary.node_instances <= PROGRAM.node_instances
        });
        assert!(is_within || by_library.is_err());
        return;
    }
    let station = by_station.unwrap_err();
    match station.number {
        1 => assert!(station.place == 0 && file.len() > PROGRAM.bytes),
        8 => {
            assert!(file.len() <= PROGRAM.bytes);
            // The library has gone on: what it refuses by 2 to 11 stands behind.
            if let Err(library) = by_library {
                let is_behind = library.place > station.place
                    || library.place == station.place && library.number == 7;
                assert!(library.number > 11 || is_behind, "{library} {station}");
            }
            if let Some(place) = first_beyond(file) {
                assert_eq!(station.place, place);
            }
            // The bytes up to there are refused by 8 too, and without the last of
            // them by 2.
            let upto = &file[..station.place + 1];
            assert_eq!(check_within(upto, PROGRAM), Err(station));
            let cut = check_within(&file[..station.place], PROGRAM);
            assert_eq!(cut, Err(Refusal::new(2, station.place)));
        }
        _ => panic!("{station} is not by a limit"),
    }
}

/// The text as it follows from isolation by the station's limits, with the words
/// and read bytes of the readings file.
fn text_by_isolation(case: &Case, readings_file: &[u8]) -> String {
    let mut list = vec![0; LIST_RECORDS * RECORD_BYTES];
    let answer = (|| {
        let accepted = Accepted::read_within(&case.file, PROGRAM)?;
        // A type without a root is refused before readings that do not fit.
        let decoded = reference::readings::decode(&accepted.tree, readings_file);
        let (words, read) = decoded.unwrap_or_default();
        isolate_within(
            &case.file,
            PROGRAM,
            case.attention_type,
            &words,
            &read,
            &mut list,
        )
    })();
    match answer {
        Err(refusal) => format!("refused {} place {}\n", refusal.number, refusal.place),
        Ok((records, steps)) => {
            let mut text = String::new();
            for record in list.chunks_exact(RECORD_BYTES).take(records) {
                let node = u16::from(record[6]) << 8 | u16::from(record[7]);
                let (kind, instance, bit) = (record[4], record[8], record[5]);
                text += &format!("type {kind} node {node} inst {instance} bit {bit}\n");
            }
            text + &format!("steps {steps}\n")
        }
    }
}

#[test]
fn the_station_and_the_library() {
    let mut random = Random::new(60);
    let mut within = 0;
    let mut beyond = [0; 2];
    for round in 0..5_000 {
        let case = any_case(&mut random, round);
        compare_checks(&case.file);

        let readings_file = generate::readings_file(&mut random, &case);
        let text = report(&case.file, case.attention_type, &readings_file);
        assert_eq!(text, text_by_isolation(&case, &readings_file));
        let found = report::find(&case.file, case.attention_type, &readings_file);
        assert_eq!(report::text(&found), text);
        let mut fast_text = vec![0; text.len()];
        let length = fast::report(
            &case.file,
            case.attention_type,
            &readings_file,
            &mut fast_text,
        );
        assert_eq!(length, text.len());
        assert_eq!(fast_text, text.as_bytes());

        // By either limits a file that is accepted by both has the same answer.
        let by_library = check(&case.file);
        let by_station = check_within(&case.file, PROGRAM);
        let mut lists = [vec![9; case.room], vec![9; case.room]];
        let [first, second] = &mut lists;
        let answer = isolate(
            &case.file,
            case.attention_type,
            &case.words,
            &case.read,
            first,
        );
        let station_answer = isolate_within(
            &case.file,
            PROGRAM,
            case.attention_type,
            &case.words,
            &case.read,
            second,
        );
        let mut list = vec![0; LIST_RECORDS * RECORD_BYTES];
        let by_file = isolate_with_readings_file(
            &case.file,
            LIBRARY,
            case.attention_type,
            &readings_file,
            &mut list,
        );
        if by_station == by_library {
            assert_eq!(answer, station_answer);
            assert_eq!(lists[0], lists[1]);
            assert_eq!(number(&by_file), number(&found));
            within += 1;
        } else {
            let refusal = by_station.unwrap_err();
            assert_eq!(station_answer, Err(refusal));
            let line = format!("refused {} place {}\n", refusal.number, refusal.place);
            assert_eq!(text, line);
            beyond[usize::from(refusal.number == 8)] += 1;
        }
    }
    assert!(within > 3_000, "{within} {beyond:?}");
    assert!(beyond[0] > 50 && beyond[1] > 550, "{within} {beyond:?}");
}
