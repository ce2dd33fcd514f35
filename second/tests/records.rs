//! The record reader: valid records at their limits, and what is not one (document 01, "Loss record").

use second::printer::print_records;
use second::record::{Kind, Record};
use second::{read_record, Refusal};

fn good(bytes: &[u8]) -> bool {
    read_record(0, bytes).is_ok()
}

/// One valid record of each map.
fn examples() -> Vec<Record> {
    let named = |kind| Record { sequence: 1, object: 1, name: b"a".to_vec(), ..Record::blank(kind) };
    let rename = Record { second_name: b"b".to_vec(), ..named(Kind::Rename) };
    let data = |kind| Record { sequence: 1, object: 1, data: vec![1, 2], ..Record::blank(kind) };
    vec![
        named(Kind::Create),
        named(Kind::MakeDirectory),
        named(Kind::Remove),
        rename.clone(),
        Record { displaced: Some(2), ..rename },
        data(Kind::Overwrite),
        data(Kind::Append),
        Record { sequence: 1, object: 1, ..Record::blank(Kind::SetLength) },
        Record { sequence: 1, list: vec![0], ..Record::blank(Kind::Forder) },
    ]
}

#[test]
fn each_map_reads_back_and_no_shorter_part_does() {
    let maps: Vec<u16> = examples().iter().map(Record::map).collect();
    assert_eq!(maps, [19, 19, 19, 55, 63, 193, 193, 65, 256]);
    for record in examples() {
        let bytes = record.to_bytes();
        assert_eq!(Record::from_bytes(&bytes), Some((record.clone(), bytes.len())));
        let followed = [bytes.as_slice(), &[1, 2, 3]].concat();
        assert_eq!(Record::from_bytes(&followed), Some((record.clone(), bytes.len())));
        (0..bytes.len()).for_each(|end| assert!(!good(&bytes[..end]), "{record:?} cut at {end}"));
    }
}

#[test]
fn every_map_goes_only_with_its_kinds() {
    for record in examples() {
        let mut bytes = [record.to_bytes().as_slice(), &[1; 40]].concat();
        for map in 0..=u16::MAX {
            bytes[..2].copy_from_slice(&map.to_le_bytes());
            let found = Record::from_bytes(&bytes).map(|(found, _)| (found.kind, found.map()));
            assert!(found.is_none() || (found == Some((record.kind, map)) && record.kind.allows(map)));
            assert!(map != record.map() || found.is_some());
        }
        for code in [0, 9, 255] {
            let mut bytes = record.to_bytes();
            bytes[7] = code;
            assert!(!good(&bytes));
        }
    }
}

fn check(cases: &[(bool, Record)]) {
    for (valid, record) in cases {
        assert_eq!(good(&record.to_bytes()), *valid, "{record:?}");
    }
}

#[test]
fn numbers_and_names_at_their_limits() {
    let create = &examples()[0];
    let rename = &examples()[4];
    check(&[
        (false, Record { sequence: 0, ..create.clone() }),
        (true, Record { sequence: 4_294_967_294, ..create.clone() }),
        (false, Record { sequence: 4_294_967_295, ..create.clone() }),
        (true, Record { program: 31, ..create.clone() }),
        (false, Record { program: 32, ..create.clone() }),
        (false, Record { object: 0, ..create.clone() }),
        (true, Record { object: 255, ..create.clone() }),
        (false, Record { object: 256, ..create.clone() }),
        (true, Record { parent: 255, ..create.clone() }),
        (false, Record { parent: 256, ..create.clone() }),
        (true, Record { object: 7, parent: 7, ..create.clone() }),
        (false, Record { name: b"".to_vec(), ..create.clone() }),
        (false, Record { name: b".".to_vec(), ..create.clone() }),
        (false, Record { name: b"..".to_vec(), ..create.clone() }),
        (false, Record { name: b"a/".to_vec(), ..create.clone() }),
        (false, Record { name: b"a\0".to_vec(), ..create.clone() }),
        (true, Record { name: vec![255; 60], ..create.clone() }),
        (false, Record { name: vec![255; 61], ..create.clone() }),
        (true, Record { second_name: vec![1; 60], ..rename.clone() }),
        (false, Record { second_name: vec![1; 61], ..rename.clone() }),
        (false, Record { second_name: b"/".to_vec(), ..rename.clone() }),
        (true, Record { second_parent: 255, ..rename.clone() }),
        (false, Record { second_parent: 256, ..rename.clone() }),
        (false, Record { displaced: Some(0), ..rename.clone() }),
        (false, Record { displaced: Some(1), ..rename.clone() }),
        (true, Record { displaced: Some(255), ..rename.clone() }),
        (false, Record { displaced: Some(256), ..rename.clone() }),
    ]);
}

#[test]
fn data_lengths_and_lists_at_their_limits() {
    let overwrite = &examples()[5];
    let set_length = &examples()[7];
    let forder = &examples()[8];
    check(&[
        (false, Record { data: vec![], ..overwrite.clone() }),
        (true, Record { data: vec![1; 1024], ..overwrite.clone() }),
        (false, Record { data: vec![1; 1025], ..overwrite.clone() }),
        (false, Record { offset: 1, data: vec![1; 1024], ..overwrite.clone() }),
        (true, Record { offset: 1023, data: vec![1], ..overwrite.clone() }),
        (false, Record { offset: 1023, ..overwrite.clone() }),
        (true, Record { offset: 65_534, ..overwrite.clone() }),
        (false, Record { offset: 65_535, ..overwrite.clone() }),
        (false, Record { offset: 65_536, ..overwrite.clone() }),
        (false, Record { offset: 4_294_967_295, ..overwrite.clone() }),
        (true, Record { offset: 65_536, ..set_length.clone() }),
        (false, Record { offset: 65_537, ..set_length.clone() }),
        (false, Record { list: vec![], ..forder.clone() }),
        (true, Record { list: (0..8).collect(), ..forder.clone() }),
        (false, Record { list: (0..9).collect(), ..forder.clone() }),
        (false, Record { list: vec![3, 4, 3], ..forder.clone() }),
        (true, Record { list: vec![0, 255], ..forder.clone() }),
        (false, Record { list: vec![256], ..forder.clone() }),
    ]);
}

#[test]
fn places_lead_from_record_to_record() {
    let bytes: Vec<u8> = examples().iter().flat_map(Record::to_bytes).collect();
    let mut place = 0;
    for record in examples() {
        let head = read_record(place, &bytes).unwrap();
        assert_eq!(head.kind, record.kind.code() as u64);
        place = head.next;
    }
    assert_eq!(place, bytes.len() as u64);
    for place in [place, place + 1, u64::MAX] {
        assert_eq!(read_record(place, &bytes), Err(Refusal::BadRecord));
    }
    assert_eq!(read_record(0, &[]), Err(Refusal::BadRecord));
}

#[test]
fn the_printing_program() {
    let forder = [0, 1, 7, 0, 0, 0, 3, 8, 2, 5, 0, 6, 0];
    assert_eq!(print_records(&forder), "7 3 8\n");
    assert_eq!(print_records(&[]), "");
    assert_eq!(print_records(&[forder, forder].concat()), "7 3 8\n7 3 8\n");
    assert_eq!(print_records(&[forder.as_slice(), &[0, 1], &forder].concat()), "7 3 8\nbad 13\n");
    assert_eq!(print_records(&forder[..12]), "bad 0\n");
}
