//! The record program through this crate.

use ratmanoep::{answer_records, MAX_INPUT, MAX_OUTPUT};

fn record(kind: u8, fields: &[&[u8]]) -> Vec<u8> {
    [&[0x6e, 0x74, kind], fields.concat().as_slice()].concat()
}

fn u16s(numbers: &[u16]) -> Vec<u8> {
    numbers.iter().flat_map(|n| n.to_le_bytes()).collect()
}

fn link(from: u16, to: u16, weight: u32) -> Vec<u8> {
    record(2, &[&u16s(&[from, to]), &weight.to_le_bytes()])
}

fn case_l(queries: &[(u16, u16)]) -> Vec<u8> {
    let mut input = [record(1, &[&u16s(&[3])]), link(0, 1, 2), link(1, 2, 3)].concat();
    for node in [1, 0, 2] {
        input.extend(record(3, &[&u16s(&[node])]));
    }
    input.extend(record(4, &[&100u32.to_le_bytes()]));
    for &(source, target) in queries {
        input.extend(record(5, &[&u16s(&[source, target])]));
    }
    input
}

#[test]
fn case_l_as_document_01_prints_it() {
    let output = answer_records(&case_l(&[(0, 2), (2, 0), (1, 1), (0, 7)]));
    assert_eq!(
        String::from_utf8(output).unwrap(),
        "built 2 1\nroute 5: 0 1 2\nnone\nroute 0: 1\nrefused 22\n"
    );
}

#[test]
fn any_bytes() {
    assert_eq!(answer_records(b""), b"bad record 0\n");
    assert_eq!(answer_records(&case_l(&[])[..20]), b"bad record 16\n");
    assert_eq!(answer_records(&vec![0x6e; MAX_INPUT + 1]), b"too long\n");
}

#[test]
fn many_queries_fit_the_room() {
    let queries = vec![(0, 2); (MAX_INPUT - case_l(&[]).len()) / 7];
    let output = answer_records(&case_l(&queries));
    assert_eq!(output.len(), "built 2 1\n".len() + queries.len() * "route 5: 0 1 2\n".len());
    assert!(output.len() <= MAX_OUTPUT);
}
