//! The text of the listing program.

use crate::plan::plan_schedule;
use crate::table::{Refusal, Table};
use std::fmt::Write;

pub fn listing(table: &Result<Table, Refusal>) -> String {
    match table.as_ref().map_err(|refusal| *refusal).and_then(listed) {
        Ok(text) => text,
        Err(refusal) => format!("refused {} place {}\n", refusal.number, refusal.place),
    }
}

fn listed(table: &Table) -> Result<String, Refusal> {
    let schedule = plan_schedule(table)?;
    let mut text = format!("hyper {}\n", table.hyper);
    let mut total = 0;
    for (signal, part) in schedule.iter().enumerate() {
        total += part.count as u32;
        let _ = writeln!(text, "signal {} elements {}", signal, part.count);
        for (word, instances) in [("write", &part.writers), ("read", &part.readers)] {
            for (instance, element) in instances {
                let _ = writeln!(
                    text,
                    "{} {} {} element {}",
                    word, instance.task, instance.number, element
                );
            }
        }
    }
    let _ = writeln!(text, "total {}", total);
    Ok(text)
}
