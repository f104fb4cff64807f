//! Judges small drawn logs and asks all orders the same: as many logs as the
//! argument says, or a million.

use std::process::ExitCode;

use reference::generate::logs::log;
use reference::judge::{by_all_orders, bytes, is_judged, judge, LINE_SIZE, PLACE_SIZE};
use reference::refusal::Reason;
use reference::xorshift::Draws;

/// Logs of up to this many lines are put to all orders.
const FEW: usize = 7;

fn main() -> ExitCode {
    let logs = match std::env::args().nth(1).map(|word| word.parse::<u64>()) {
        None => 1_000_000,
        Some(Ok(logs)) => logs,
        Some(_) => {
            eprintln!("usage: judge [LOGS]");
            return ExitCode::from(2);
        }
    };
    let mut draws = Draws::new(5);
    let (mut yes, mut no, mut malformed, mut failed) = (0u64, 0u64, 0u64, 0u64);
    for _ in 0..logs {
        let lines = log(&mut draws, FEW);
        let log = bytes(&lines);
        let mut order = vec![0; log.len() / LINE_SIZE * PLACE_SIZE];
        let good = match judge(&log, &mut order) {
            Ok(count) => {
                yes += 1;
                let order: Vec<usize> = order
                    .chunks(PLACE_SIZE)
                    .map(|place| usize::from(u16::from_le_bytes([place[0], place[1]])))
                    .collect();
                let shown: Vec<usize> = order[..count].iter().map(|line| line - 1).collect();
                order[count..].iter().all(|line| *line == 0)
                    && is_judged(&lines, &shown)
                    && by_all_orders(&lines)
            }
            Err(Reason::NoOrder) => {
                no += 1;
                !by_all_orders(&lines)
            }
            Err(_) => {
                malformed += 1;
                true
            }
        };
        failed += u64::from(!good);
    }
    println!("{yes} yes, {no} without an order, {malformed} malformed");
    println!("{} passed, {failed} failed", logs - failed);
    ExitCode::from(u8::from(failed > 0))
}
