//! The worked texts of Item 12, against the law itself.
use law::cif::{bad_shots, shots, text, told_read, told_write};
use law::Told;

const L: [u16; 8] = [0, 0, 60, 80, 60, 0, 100, 20];

#[test]
fn written() {
    assert_eq!(text(&[0, 0, 10, 10]), "DS 1 1 20;\nL NM;\nB 20 20 10 10;\nDF;\nC 1;\nE\n");
    assert_eq!(text(&[0, 0, 10, 10]).len(), 43);
    assert!(text(&L).contains("B 120 160 60 80;\nB 80 40 160 20;\n"));
    assert_eq!(text(&L).len(), 61);
    assert_eq!(text(&[]).len(), 28);
    assert!(text(&[0, 0, 65535, 65535]).contains("B 131070 131070 65535 65535;"));
    assert_eq!(text(&[0, 0, 65535, 65535]).len(), 57);
    assert!(text(&[65534, 0, 65535, 1]).contains("B 2 2 131069 1;"));
    let bad: [&[u16]; 4] = [&[1, 2, 3], &[0, 0, 0, 10], &[10, 0, 0, 10], &[0, 0, 10, 10, 5, 5, 5, 6]];
    for list in bad {
        assert!(bad_shots(list));
        assert_eq!(told_write(list, &mut []), Told::refused(21));
    }
    assert_eq!(told_write(&L, &mut [0; 60]), Told::refused(14));
    assert_eq!(told_write(&L, &mut [0; 61]), Told::done(&[61]));
}

#[test]
fn faults() {
    let whole = text(&L);
    let with = |old: &str, new: &str| shots(whole.replacen(old, new, 1).as_bytes());
    assert_eq!(shots(whole.as_bytes()), Ok(L.to_vec()));
    assert_eq!(shots(&whole.as_bytes()[..60]), Err(59));
    assert_eq!(with("E\n", "E;\n"), Err(59));
    assert_eq!(with("E\n", "E\n\n"), Err(61));
    assert_eq!(shots(b""), Err(0));
    assert_eq!(with("20;", "10;"), Err(0));
    assert_eq!(with(";\n", ";\r\n"), Err(0));
    assert_eq!(shots(b"DS 1 1 20;\nL NM;\nDF;\n"), Err(21));
    for new in ["B 0120", "B  120", "B 121", "B 0"] {
        assert_eq!(with("B 120", new), Err(17));
    }
    for new in ["61 80", "-60 80", "58 80"] {
        assert_eq!(with("60 80;", &format!("{new};")), Err(17));
    }
    for new in ["131032", "99999999999999999999"] {
        assert_eq!(with("160 20;", &format!("{new} 20;")), Err(34));
    }
    assert_eq!(with("C 1;\n", ""), Err(54));
    assert_eq!(shots(b"DS 1 1 20;\nL NM;\nB 80 40 131030 20;\nDF;\nC 1;\nE\n"), Ok(vec![65495, 0, 65535, 20]));
    assert_eq!(told_read(whole.as_bytes(), &mut [0; 7]), Told::refused(14));
    assert_eq!(told_read(whole.as_bytes(), &mut [0; 8]), Told::done(&[2]));
    assert_eq!(told_read(b"E\n", &mut []), Told::of(22, &[0, 0]));
}
