//! Document 02, A4: the largest N through the C interface, and the supplier's sheet.
mod common;
use common::program::{SUPPLIER, SUPPLIER_KEPT, SUPPLIER_LOG};
use common::{tallied, tell, tell_tally, top};
use satskhubo_tests::compare::{compare, Tally};
use satskhubo_tests::expected::VIOLATED;
use satskhubo_tests::generate::logs::log_of;
use satskhubo_tests::generate::targeted::all_before;
use satskhubo_tests::generate::Pair;
use satskhubo_tests::host::Host;
use satskhubo_tests::outcome::{Judged, Side, Table, GUARD};
use std::fs;

/// 48^6.
const LARGEST: u64 = 12_230_590_464;

/// Two scans, and one row for each consequent: BEFORE 2 1, or SAME 1 2.
fn antiscenario(same: [bool; 6]) -> String {
    let mut text = "  6  8\n  0  1  1  0          8          0\n  0  1  2  0          8          0\n".to_string();
    for (section, same) in (1..).zip(same) {
        let (kind, p, q) = if same { (8, 1, 2) } else { (6, 2, 1) };
        text += &format!("{section:3}{kind:3}{p:3}{q:3}          0          0\n");
    }
    text
}

fn found(sheet: &[u8], log: &[u8], number: u64) -> Option<[u32; 2]> {
    let searched = Host.search(sheet, log, number, 2);
    assert_eq!(searched.answer, 0);
    (searched.found == 1).then(|| searched.places[GUARD..GUARD + 2].try_into().unwrap())
}

/// Numbers 1, 48^6 and those nearest to them and to 32 bits, each written, judged and searched.
#[test]
fn the_largest_count() {
    let sheet = all_before();
    assert_eq!(Host.read_sheet(&sheet).count, LARGEST);
    let written = |number| {
        let written = Host.write(&sheet, number, 3437);
        assert_eq!(written.answer, 0);
        String::from_utf8(written.buffer[GUARD..GUARD + written.length].to_vec()).unwrap()
    };
    assert_eq!(written(1), antiscenario([false; 6]));
    assert_eq!(written(2), antiscenario([false, false, false, false, false, true]));
    assert_eq!(written(LARGEST - 1), antiscenario([true, true, true, true, true, false]));
    assert_eq!(written(LARGEST), antiscenario([true; 6]));
    // 2^32 is 16, 41, 4, 7, 5, 16 in counting by 48, so that 2^32 + 1 is not number 1.
    assert_eq!(written((1 << 32) + 1), antiscenario([false, true, false, true, true, false]));
    for number in [0, LARGEST + 1, LARGEST + (1 << 32), u64::MAX] {
        assert_eq!(Host.write(&sheet, number, 3437).answer, 31, "{number}");
    }
    let (one, two) = (log_of(&[(5, 3)]).text(), log_of(&[(5, 3), (6, 3)]).text());
    assert_eq!((found(&sheet, &one, LARGEST), found(&sheet, &two, LARGEST)), (Some([1, 1]), Some([1, 1])));
    assert_eq!((found(&sheet, &one, 1), found(&sheet, &two, 1)), (None, Some([2, 1])));
    assert_eq!((found(&sheet, &two, LARGEST - 1), found(&sheet, &two, (1 << 32) + 1)), (None, None));
    let judged = |positions: &[u32]| Host.judge(&sheet, &two, LARGEST, &Table::of(positions, 0));
    assert_eq!(judged(&[2, 2]), Judged { answer: 0, met: 1 });
    assert_eq!(judged(&[1, 2]), Judged { answer: 0, met: 0 });
    assert_eq!(judged(&[1, 3]), Judged { answer: 0, met: 0 });
    tell("large sheets: 48^6", 20);
}

fn supplier(log: &str) -> Pair {
    let file = |name| fs::read(top().join(name)).unwrap();
    Pair { sheet: file(SUPPLIER), log: file(log) }
}

/// Six consequents of a dozen rows, four of them FREE or BEFORE: 16^6.
#[test]
fn the_suppliers_sheet() {
    let (broken, kept) = (supplier(SUPPLIER_LOG), supplier(SUPPLIER_KEPT));
    assert_eq!(Host.read_sheet(&broken.sheet).count, 16_777_216);
    assert_eq!(Host.check_number(&kept.sheet, &kept.log), 0);
    assert_eq!(Host.check_number(&broken.sheet, &broken.log), VIOLATED);
    let tally: Tally = [broken, kept].iter().map(|pair| tallied(compare(&Host, pair, 0, 60))).sum();
    tell_tally("large sheets: the supplier's", tally);
}
