//! The worked rows of docs/SCOPE.md through the safe functions.

use pinarewhemi::*;

type Ring = Vec<Corner>;

const LAWFUL: Rule = Rule { threshold: 25, weight: 40 };

fn rule(threshold: u32, weight: u32) -> Rule {
    Rule { threshold, weight }
}

fn boxed(x_low: u16, y_low: u16, x_high: u16, y_high: u16) -> Ring {
    vec![(x_low, y_low), (x_high, y_low), (x_high, y_high), (x_low, y_high)]
}

fn l() -> Vec<Ring> {
    vec![vec![(0, 0), (100, 0), (100, 20), (60, 20), (60, 80), (0, 80)]]
}

fn b() -> Vec<Ring> {
    vec![vec![(0, 0), (200, 0), (200, 50), (210, 50), (210, 150), (200, 150), (200, 200), (0, 200)]]
}

fn frame() -> Vec<Ring> {
    vec![boxed(0, 0, 100, 100), boxed(30, 30, 70, 70)]
}

fn slanted() -> Ring {
    vec![(0, 0), (10, 0), (10, 10), (5, 5)]
}

fn unturned() -> Ring {
    vec![(0, 0), (10, 0), (20, 0), (20, 10), (0, 10)]
}

fn shots(list: &[[u16; 4]]) -> Vec<Shot> {
    list.iter().map(|&[x_low, y_low, x_high, y_high]| Shot { x_low, y_low, x_high, y_high }).collect()
}

fn hex(text: &str) -> Vec<u8> {
    let digits: Vec<u8> = text.bytes().filter(|byte| !byte.is_ascii_whitespace()).collect();
    digits.chunks(2).map(|two| u8::from_str_radix(std::str::from_utf8(two).unwrap(), 16).unwrap()).collect()
}

const L_PART: &str = "06 00 00 64 00 64 14 3C 14 3C 50 00 50";
const FRAME_PART: &str = "00 02 04 00 00 64 00 64 64 00 64 04 1E 1E 46 1E 46 46 1E 46";
const UNIT_PART: &str = "04 00 00 01 00 01 01 00 01";

fn three() -> Vec<u8> {
    hex(&format!("19 28 03 {L_PART} {FRAME_PART} {UNIT_PART}"))
}

/// The number and place of a refusal.
fn refused<T: std::fmt::Debug>(answer: Result<T, Refused>) -> (u32, Option<usize>) {
    let refused = answer.expect_err("a refusal");
    (refused.number, refused.offset)
}

#[test]
fn fractures() {
    let holds = |figure: &[Ring], rule: Rule, list: &[[u16; 4]], cost: u32, sliver: u32| {
        let done = fracture(figure, rule).unwrap();
        assert_eq!((done.shots, done.cost, done.sliver), (shots(list), cost, sliver));
    };
    holds(&l(), LAWFUL, &[[0, 0, 60, 80], [60, 0, 100, 20]], 5200, 80);
    holds(&l(), rule(20, 40), &[[0, 0, 60, 80], [60, 0, 100, 20]], 2000, 0);
    holds(&b(), LAWFUL, &[[0, 0, 200, 50], [0, 50, 210, 150], [0, 150, 200, 200]], 3000, 0);
    holds(&b(), rule(25, 9), &[[0, 0, 200, 200], [200, 50, 210, 150]], 2900, 100);
    holds(&[boxed(0, 0, 100, 24)], LAWFUL, &[[0, 0, 100, 24]], 9000, 200);
    holds(&[boxed(0, 0, 100, 24)], rule(24, 40), &[[0, 0, 100, 24]], 1000, 0);
    holds(&[boxed(0, 0, 10, 10)], LAWFUL, &[[0, 0, 10, 10]], 1800, 20);
    let around = [[0, 0, 30, 100], [30, 0, 70, 30], [30, 70, 70, 100], [70, 0, 100, 100]];
    holds(&frame(), LAWFUL, &around, 4000, 0);
    holds(&frame(), rule(40, 40), &around, 21600, 440);
    assert_eq!(fracture(&l(), LAWFUL).unwrap().costs, [3400, 1000, 1000, 6600, 5200, 1000, 4200, 4200, 0]);
    let costs = fracture(&b(), LAWFUL).unwrap().costs;
    assert_eq!((costs.len(), costs[8], costs[15]), (18, 3000, 5000));
    // rings of other types that hold corners
    assert_eq!(fracture(&[[(0, 0), (1, 0), (1, 1), (0, 1)]], LAWFUL), fracture(&[boxed(0, 0, 1, 1)], LAWFUL));
}

#[test]
fn the_default_is_preset_1() {
    let rows: Vec<Rule> = (0..4).map(|number| preset(number).unwrap()).collect();
    assert_eq!(rows, [rule(25, 40), rule(10, 100), rule(5, 200), rule(50, 20)]);
    for figure in [l(), b(), frame(), vec![boxed(0, 0, 100, 9)]] {
        assert_eq!(fracture_default(&figure), fracture(&figure, rule(10, 100)));
    }
    assert_eq!(fracture_default(&[boxed(0, 0, 100, 9)]).unwrap().cost, 21000);
}

#[test]
fn cuts_are_told_ahead() {
    for (figure, weighed) in [(l(), 4), (b(), 13), (frame(), 32), (vec![boxed(0, 0, 1, 1)], 0)] {
        assert_eq!(cuts(&figure), Ok(weighed));
        assert_eq!(fracture(&figure, LAWFUL).unwrap().cuts, weighed);
    }
}

#[test]
fn refusals_of_figures() {
    let none: [Ring; 0] = [];
    let unit = boxed(0, 0, 1, 1);
    for (figure, number) in [
        (none.to_vec(), 2),
        (vec![unit[..3].to_vec()], 2),
        (vec![unit.clone(); 9], 2),
        (vec![unit.repeat(20_000)], 2),
        (vec![slanted(), unit[..3].to_vec()], 2),
        (vec![unturned(), slanted()], 3),
        (vec![unturned()], 4),
        (vec![unit.clone(), unit.clone()], 5),
    ] {
        assert_eq!(refused(fracture(&figure, LAWFUL)), (number, None));
        assert_eq!(refused(fracture_default(&figure)), (number, None));
        assert_eq!(refused(cuts(&figure)), (number, None));
    }
    assert_eq!(refused(fracture(&[slanted()], rule(1001, 40))), (1, None));
    assert_eq!(refused(preset(4)), (15, None));
    let said = fracture(&[slanted()], LAWFUL).unwrap_err();
    assert_eq!(said.to_string(), "refused 3: an edge changes both coordinates");
}

#[test]
fn room_too_short() {
    let (corners, rings) = ([0, 0, 100, 0, 100, 20, 60, 20, 60, 80, 0, 80], [6]);
    let by = |entries: usize, numbers: usize| {
        let (mut table, mut list) = (vec![7; entries], vec![7; numbers]);
        let (mut shots, mut cost, mut sliver, mut cuts) = (9, 9, 9, 9);
        let number = lent::fracture(
            &corners, &rings, 25, 40, &mut table, &mut list, &mut shots, &mut cost, &mut sliver, &mut cuts,
        );
        (number, [shots, cost, sliver, cuts], table, list)
    };
    assert_eq!(by(8, 8), (6, [0; 4], vec![7; 8], vec![7; 8]));
    assert_eq!(by(0, 0), (6, [0; 4], vec![], vec![]));
    let costs = vec![3400, 1000, 1000, 6600, 5200, 1000, 4200, 4200, 0];
    assert_eq!(by(9, 7), (7, [2, 0, 0, 0], costs.clone(), vec![7; 7]));
    let beyond = |front: &[u32], more: usize| [front, &vec![7; more]].concat();
    assert_eq!(by(11, 9), (0, [2, 5200, 80, 4], beyond(&costs, 2), vec![0, 0, 60, 80, 60, 0, 100, 20, 7]));
}

#[test]
fn numbers() {
    for (bytes, value) in [("00", 0), ("80 01", 128), ("FF FF 03", 65535), ("FF FF 7F", 2_097_151)] {
        assert_eq!(number(&hex(bytes), 0), Ok((value, hex(bytes).len())));
    }
    for (bytes, at, refusal) in [
        ("80 00", 0, (9, Some(1))),
        ("80 80 80", 0, (10, Some(2))),
        ("80 80", 0, (8, Some(2))),
        ("05 80", 1, (8, Some(2))),
        ("05", usize::MAX, (8, Some(1))),
        ("", 0, (8, Some(0))),
    ] {
        assert_eq!(refused(number(&hex(bytes), at)), refusal);
    }
}

#[test]
fn jobs() {
    let job = three();
    assert_eq!(job_check(&job), Ok(Header { rule: LAWFUL, outlines: 3 }));
    assert_eq!(job_outline(&job, 1), Ok(&job[16..36]));
    assert_eq!(unpack(&job[16..36]), Ok(frame()));
    let figures = vec![l(), frame(), vec![boxed(0, 0, 1, 1)]];
    assert_eq!(read_job(&job), Ok(Job { rule: LAWFUL, figures: figures.clone() }));
    assert_eq!(write_job(LAWFUL, &figures), Ok(job.clone()));
    assert_eq!(write_header(rule(1000, 1000), 255), Ok(hex("E8 07 E8 07 FF 01")));
    assert_eq!(refused(job_outline(&job, 3)), (13, None));
    assert_eq!(refused(job_check(&job[..44])), (8, Some(44)));
    assert_eq!(refused(job_check(&[0; 4097])), (12, None));
    assert_eq!(refused(read_job(&[&job[..], &[0]].concat())), (11, Some(45)));
    assert_eq!(refused(write_header(LAWFUL, 256)), (10, None));
    assert_eq!(refused(write_job(LAWFUL, &vec![l(); 256])), (10, None));
    assert_eq!(refused(write_job(LAWFUL, &vec![vec![vec![(65535, 65535); 32]]; 22])), (12, None));
    assert_eq!(refused(write_outline(&[boxed(0, 0, 1, 1)[..3].to_vec()])), (2, None));
}

#[test]
fn gdsii() {
    let element = hex(
        "00 04 08 00 00 06 0D 02 00 07 00 06 0E 02 00 02 00 3C 10 03 FF FF FF CE 00 00 03 E8 00 00 00 32 00 00 03 E8
         00 00 00 32 00 00 03 FC 00 00 00 0A 00 00 03 FC 00 00 00 0A 00 00 04 38 FF FF FF CE 00 00 04 38
         FF FF FF CE 00 00 03 E8 00 04 11 00",
    );
    assert_eq!(gdsii_read(&element), Ok(Boundary { corners: l().remove(0), shift: (-50, 1000) }));
    let (done, shift) = gdsii_fracture(&element).unwrap();
    assert_eq!((done.shots, done.cost, done.sliver, done.cuts), (shots(&[[0, 0, 60, 80], [60, 0, 100, 20]]), 5200, 80, 4));
    assert_eq!(shift, (-50, 1000));
    assert_eq!(refused(gdsii_read(&element[..40])), (8, Some(16)));
    assert_eq!(refused(gdsii_fracture(&[&element[..], &[0]].concat())), (16, None));
}

#[test]
fn joining() {
    let done = fracture(&b(), LAWFUL).unwrap();
    assert_eq!(join(&done.shots), Ok(Joining { partners: vec![1, 0, 2], flashes: 2 }));
    assert_eq!(join(&[]), Ok(Joining { partners: vec![], flashes: 0 }));
    assert_eq!(refused(join(&shots(&[[0, 0, 0, 10]]))), (21, None));
    let mut table = [Joined { partner: 9, ..Joined::default() }];
    let mut flashes = 9;
    assert_eq!(lent::join(&[0, 0, 10, 10, 10, 0, 20, 10], &mut table, &mut flashes), 14);
    assert_eq!((table[0].partner, flashes), (9, 0));
}

#[test]
fn edges() {
    let run = |&[low, high, shot, side]: &[usize; 4]| Run { low, high, shot, side };
    let list = shots(&[[0, 0, 60, 80], [60, 0, 100, 20]]);
    let told = |edge, runs: &[[usize; 4]]| assert_eq!(edge_of(edge, &list), runs.iter().map(run).collect::<Vec<_>>());
    told(0, &[[0, 60, 1, 3], [60, 100, 2, 3]]);
    told(1, &[[0, 20, 2, 2]]);
    told(5, &[[0, 80, 1, 1]]);
    let comb: Vec<Shot> = (0..40).flat_map(|k| shots(&[[0, 2 * k, 60, 2 * k + 1]])).collect();
    assert_eq!(edge_of(5, &comb).len(), 80);
    assert_eq!(refused(edge(&l(), 6, &list)), (23, None));
    assert_eq!(refused(edge(&l(), 6, &shots(&[[0, 0, 0, 1]]))), (21, None));
    assert_eq!(refused(edge(&[slanted()], 6, &list)), (3, None));
}

fn edge_of(number: usize, list: &[Shot]) -> Vec<Run> {
    edge(&l(), number, list).unwrap()
}

#[cfg(has_pinwheel)]
#[test]
fn pinwheels() {
    let w2 = [[
        (100, 60), (40, 60), (40, 0), (110, 0), (110, 80), (100, 80), (100, 20), (70, 20), (70, 60), (10, 60), (10, 100), (100, 100),
    ]];
    let done = fracture_pinwheel(&w2, LAWFUL).unwrap();
    let list = shots(&[[40, 0, 70, 60], [70, 0, 110, 20], [10, 60, 100, 100], [100, 20, 110, 80]]);
    assert_eq!((done.shots, done.cost, done.sliver, done.cuts), (list, 10800, 170, 158));
    assert_eq!(fracture(&w2, LAWFUL).unwrap().cost, 11200);
    assert_eq!(fracture_pinwheel(&w2, rule(25, 0)), fracture(&w2, rule(25, 0)));
}

#[cfg(has_division)]
#[test]
fn division() {
    let done = fracture_divided(&b(), LAWFUL, 200).unwrap();
    let list = shots(&[[0, 0, 200, 50], [0, 50, 105, 150], [105, 50, 210, 150], [0, 150, 200, 200]]);
    assert_eq!((done.shots, done.cost, done.sliver), (list, 4000, 0));
    let bar = fracture_divided(&[boxed(0, 0, 500, 20)], LAWFUL, 200).unwrap();
    assert_eq!((bar.shots.len(), bar.cost, bar.sliver, bar.costs), (3, 43000, 1000, vec![41000]));
    assert_eq!(fracture_divided(&[boxed(0, 0, 65535, 65535)], LAWFUL, 200).unwrap().shots.len(), 107_584);
    assert_eq!(refused(fracture_divided(&[slanted()], LAWFUL, 199)), (19, None));
    assert_eq!(refused(fracture_divided(&[slanted()], rule(1001, 40), 199)), (1, None));
}

#[cfg(has_index)]
#[test]
fn an_index() {
    let job = three();
    assert_eq!(index_open(&job), Ok(vec![3, 16, 36]));
    assert_eq!(index_pick(&job, &[3, 16, 36], 2), Ok(&job[36..]));
    assert_eq!(refused(index_pick(&job, &[3, 16, 36], 3)), (13, None));
    assert_eq!(refused(index_pick(&job, &[60000], 0)), (8, Some(45)));
    let less = index_remove(&job, 1).unwrap();
    assert_eq!(less, Indexed { job: hex(&format!("19 28 02 {L_PART} {UNIT_PART}")), index: vec![3, 16] });
    let more = index_append(&less.job, &frame()).unwrap();
    assert_eq!((more.index, more.job.len()), (vec![3, 16, 25], 45));
    assert_eq!(refused(index_append(&write_job(LAWFUL, &vec![[boxed(0, 0, 1, 1)]; 255]).unwrap(), &l())), (20, None));
    assert_eq!(refused(index_remove(&job, 3)), (13, None));
    assert_eq!(refused(index_remove(&job[..44], 3)), (8, Some(44)));
}

#[cfg(has_salvage)]
#[test]
fn salvaging() {
    let job = three();
    assert_eq!(salvage(&job), Ok(Salvaged { job: job.clone(), kept: 3, lost: 0, dropped: 0 }));
    let two = hex(&format!("19 28 02 {L_PART} {FRAME_PART}"));
    assert_eq!(salvage(&job[..44]), Ok(Salvaged { job: two, kept: 2, lost: 1, dropped: 8 }));
    assert_eq!(refused(salvage(&hex("E9 07 28 00"))), (10, Some(1)));
}

#[cfg(has_cif)]
#[test]
fn cif() {
    let list = shots(&[[0, 0, 60, 80], [60, 0, 100, 20]]);
    let text = cif_write(&list).unwrap();
    assert_eq!(text, b"DS 1 1 20;\nL NM;\nB 120 160 60 80;\nB 80 40 160 20;\nDF;\nC 1;\nE\n");
    for list in [vec![], list, shots(&[[0, 0, 1, 1]; 500]), shots(&[[0, 0, 65535, 65535]; 500])] {
        assert_eq!(cif_read(&cif_write(&list).unwrap()), Ok(list));
    }
    assert_eq!(refused(cif_read(&text[..60])), (22, Some(59)));
    assert_eq!(refused(cif_write(&shots(&[[0, 0, 0, 10]]))), (21, None));
}

#[test]
fn the_library_is_of_the_crates_version() {
    let (first, second, third) = version();
    assert_eq!(format!("{first}.{second}.{third}"), env!("CARGO_PKG_VERSION"));
}
