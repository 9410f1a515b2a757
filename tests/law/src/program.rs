//! What the job program prints of its standard input.

use crate::bytes::job;
use crate::call::fracture;
use std::fmt::Write;

pub fn printed(input: &[u8]) -> String {
    let mut text = String::new();
    let job = match job(input) {
        Ok(job) => job,
        Err(fault) => {
            writeln!(text, "job refused {} at {}", fault.number, fault.at).unwrap();
            return text;
        }
    };
    writeln!(text, "job {}", job.outlines.len()).unwrap();
    let (mut table, mut list) = (vec![0; 14_400], vec![0; 4 * 225]);
    for (k, (_, drawing)) in job.outlines.iter().enumerate() {
        let told = fracture(drawing, job.threshold, job.weight, &mut table, &mut list);
        if told.number != 0 {
            writeln!(text, "outline {k} refused {}", told.number).unwrap();
            continue;
        }
        let [shots, cost, sliver, ..] = told.numbers;
        writeln!(text, "outline {k} shots {shots} cost {cost} sliver {sliver}").unwrap();
        for shot in list.chunks(4).take(shots as usize) {
            writeln!(text, "{} {} {} {}", shot[0], shot[1], shot[2], shot[3]).unwrap();
        }
    }
    text
}
