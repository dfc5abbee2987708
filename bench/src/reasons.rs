//! Why a frame takes its tool, beside writing the same frame.

use crate::frames::few_values;
use crate::frames::Batch;
use crate::time::best;
use crate::{all_batches, calls, each, table};

fn saying(batch: &Batch) {
    let mut text = [0; g7110::WHY_TEXT];
    let mut form = [0; 321];
    let times = best([
        &mut || each(&batch.frames, |frame| calls::proved_why(frame, batch.law, batch.set, &mut text)),
        &mut || each(&batch.frames, |frame| calls::proved_write(frame, batch.law, batch.set, &mut form)),
        &mut || each(&batch.frames, |frame| calls::second_why(frame, batch.law, batch.set)),
    ]);
    let [why, write, second] = times.map(|time| time / batch.frames.len() as f64);
    println!("| {} | {why:.0} | {write:.0} | {:.2} | {second:.0} | {:.2} |", batch.name, why / write, second / why);
}

pub fn tables() {
    table(
        "Why, beside writing the same frame",
        "| kind | samples | why, ns | write, ns | time to writing | second, ns | speed to second |",
    );
    all_batches(&[160, 320]).iter().for_each(saying);
    few_values(&[40, 160, 320]).iter().for_each(saying);
}
