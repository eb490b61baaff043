//! The smallest image found for each slip of docs/SLIPS.md.

use std::io::Read;

use harness::{
    bridge,
    slips::{SLIPS, slipped, smallest},
};

use super::{command::Answer, words::number};

pub fn run(arguments: &[String], _: &mut dyn Read) -> Answer {
    let seeds = arguments.first().map_or(Ok(100), |word| number(word, "number of seeds"))?;
    let mut text = String::new();
    for (n, (name, what)) in SLIPS.iter().enumerate() {
        text += &format!("{name}: {what}\n");
        let Some(image) = smallest(n, seeds) else {
            text += "  no image found\n";
            continue;
        };
        let report = |answer: Option<(Vec<u8>, Vec<u8>)>| match answer {
            Some((_, report)) => hex(&report),
            None => "refused 9 0".into(),
        };
        text += &format!("  {} bytes: {}\n", image.len(), hex(&image));
        text += &format!("  right: {}\n", report(bridge::program(&image)));
        text += &format!("  slipped: {}\n", report(slipped(n, &image)));
    }
    Ok(text.into_bytes())
}

fn hex(bytes: &[u8]) -> String {
    bytes.iter().map(|byte| format!("{byte:02x}")).collect()
}
