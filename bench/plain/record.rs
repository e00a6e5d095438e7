//! The record.
use crate::hub::{Cause, Hub, Item, Run};
use crate::script::Script;

fn push_number(text: &mut String, number: u64) {
    if number >= 10 {
        push_number(text, number / 10);
    }
    text.push(char::from(b'0' + (number % 10) as u8));
}

fn push_run(text: &mut String, script: &Script, r: usize, run: &Run) {
    let words = |text: &mut String, words: &str, number: usize| {
        text.push_str(words);
        push_number(text, number as u64);
    };
    words(text, "run ", r + 1);
    text.push(' ');
    text.push_str(run.routine.name);
    match run.doom {
        None => {
            text.push_str(" committed");
            for answer in &run.answers {
                match answer {
                    None => text.push_str(" ."),
                    Some(found) => words(text, " ", *found as usize),
                }
            }
        }
        Some(Cause::Must(c)) => words(text, " aborted must ", c + 1),
        Some(Cause::Refuted(c, found)) => {
            words(text, " aborted refuted ", c + 1);
            words(text, " found ", found as usize);
        }
        Some(Cause::Lost(d)) => text.push_str(&format!(" aborted lost {}", script.devices[d].name)),
        Some(Cause::Revoked {
            device,
            lender,
            deadline,
            moment,
        }) => text.push_str(&format!(
            " aborted revoked {} by {} deadline {deadline} at {moment}",
            script.devices[device].name,
            lender + 1
        )),
        Some(Cause::DownAtEnd(d)) => {
            text.push_str(&format!(" aborted downatend {}", script.devices[d].name))
        }
    }
    text.push('\n');
}

pub fn push_window(text: &mut String, script: &Script, hub: &Hub, number: usize, at: &str) {
    text.push_str(&format!("window {} {at}\n", number + 1));
    for (r, run) in hub.runs.iter().enumerate() {
        push_run(text, script, r, run);
    }
    text.push_str(if hub.line.is_empty() {
        "order none"
    } else {
        "order"
    });
    for item in &hub.line {
        match item {
            Item::Ran(r) => {
                text.push(' ');
                push_number(text, *r as u64 + 1);
            }
            Item::Failed(d) => text.push_str(&format!(" fail({})", script.devices[*d].name)),
            Item::Back(d) => text.push_str(&format!(" back({})", script.devices[*d].name)),
        }
    }
    text.push_str(if script.devices.is_empty() {
        "\nhome none"
    } else {
        "\nhome"
    });
    for (device, lineage) in script.devices.iter().zip(&hub.lineages) {
        text.push(' ');
        text.push_str(device.name);
        text.push('=');
        push_number(text, lineage.committed.into());
        if !lineage.up {
            text.push('!');
        }
    }
    text.push('\n');
}
