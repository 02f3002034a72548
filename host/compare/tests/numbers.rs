//! The scope's numbers to check by hand, through the C interface and on the second program.

use compare::call::Call;
use compare::handed::*;
use compare::library::MAP;
use compare::{done, refused, signature, BUCKET, ITS_MAP};

fn bytes(symbols: &[u16]) -> Vec<u8> {
    symbols.iter().flat_map(|symbol| symbol.to_le_bytes()).collect()
}

#[test]
fn cases_1_to_6_sign() {
    let signed = |n, symbols: &[u16]| signature(&sign(n, &bytes(symbols)));
    assert_eq!(signed(2, &[]), [0, 0, 0, 0]);
    assert_eq!(signed(2, &[1, 2]), [5, 9, 0, 0]);
    assert_eq!(signed(2, &[0, 0x8000]), [0x100B, 0x2016, 0, 0]);
    assert_eq!(signature(&sign(2, &[0x41])), [0x41, 0x41, 0, 0]);
    assert_eq!(signature(&sign(2, &[0x41, 0])), [0x41, 0x41, 0, 0]);
    assert_eq!((signed(1, &[2, 0]), signed(1, &[0, 1])), ([2, 0, 0, 0], [2, 0, 0, 0]));
    assert_eq!((signed(2, &[2, 0]), signed(2, &[0, 1])), ([2, 2, 0, 0], [2, 4, 0, 0]));
    assert_eq!((signed(2, &[8, 6, 1]), signed(2, &[0, 0, 0])), ([0; 4], [0; 4]));
    assert_eq!(signed(3, &[8, 6, 1]), [0, 0, 0x78, 0]);
}

#[test]
fn cases_7_and_8_join_and_edit() {
    assert_eq!(signature(&join((2, [1, 1, 0, 0], 1), (2, [2, 2, 0, 0], 1))), [5, 9, 0, 0]);
    assert_eq!(signature(&join((2, [1, 1, 9, 9], 1), (2, [2, 2, 7, 7], 1))), [5, 9, 0, 0]);
    assert_eq!(signature(&edit(2, [5, 9, 0, 0], 1, &[2, 0], &[3, 0])), [7, 0xD, 0, 0]);
    assert_eq!(signature(&edit(2, [5, 9, 8, 8], 1, &[2, 0], &[3, 0])), [7, 0xD, 0, 0]);
}

#[test]
fn cases_9_to_11_captions() {
    let (plain, code) = (bytes(&[1, 2, 3]), bytes(&[1, 5, 9]));
    let Call::Encode { output, value: 6, .. } = done(&encode(&plain, 6)) else { panic!() };
    assert_eq!(output, code);
    let Call::Decode { output, value: 6, .. } = done(&decode(&code, 6)) else { panic!() };
    assert_eq!(output, plain);
    let Call::Search { list, value: 1, .. } = done(&search(&code, &bytes(&[2, 3]), 2)) else { panic!() };
    assert_eq!(list, [1, JUNK_NUMBER]);
    // The field (2, 0) encodes to (2, 2).
    let Call::Search { list, value: 1, .. } = done(&search(&bytes(&[2, 2]), &bytes(&[0, 1]), 1)) else { panic!() };
    assert_eq!(list, [0]);
}

#[test]
fn case_12_map() {
    let Call::MakeMap { output, value: 32, .. } = done(&make_map(2, 4, &BUCKET, 33)) else { panic!() };
    assert_eq!((&output[..32], output[32]), (&ITS_MAP[..], JUNK_BYTE));
    let Call::ReadMap { n: 2, page_bytes: 4, bucket_bytes: 6, pages: 2, value: 0, .. } = done(&read_map(&ITS_MAP)) else { panic!() };
    refused(&read_map(&ITS_MAP[..31]), MAP, 25);
    refused(&read_map(&[&ITS_MAP[..], &[0]].concat()), MAP, 32);
    refused(&read_map(&[]), MAP, 0);
    let mut page_3 = ITS_MAP;
    page_3[7] = 3;
    refused(&read_map(&page_3), MAP, 4);
}

#[test]
fn case_12_listing() {
    let Call::ListMap { output, value: 52, .. } = done(&list_map(&ITS_MAP, 53)) else { panic!() };
    assert_eq!(output, b"n 2 page 4 bucket 6 pages 2\n0 0005 0009\n1 0003 0003\n\xEE");
    let Call::ListMap { output, value: 18, .. } = done(&list_map(&ITS_MAP[..31], 18)) else { panic!() };
    assert_eq!(output, b"map refused at 25\n");
}
