//! "The printed listing".

use crate::{Message, Ran, Reason, run};

/// The files that are too long to be read, by number 16.
const LONGEST_TABLE: usize = 32_768;
const LONGEST_STEPS: usize = 49_152;

/// What the program prints for the contents of `table.bin` and `steps.bin`; None stands for a file that can't be read. "The
/// program looks for 16 before all else."
pub fn program(table: Option<&[u8]>, steps: Option<&[u8]>) -> String {
    match (table, steps) {
        (Some(table), Some(steps))
            if table.len() <= LONGEST_TABLE && steps.len() <= LONGEST_STEPS =>
        {
            listing(&run(table, steps, table.len()))
        }
        _ => "answer 16 done 0 stations 0\n".to_string(),
    }
}

/// "The printed first line then ends in `bag`, or `held-by` and the station number" (document 02, T-02).
fn ending(reason: Option<Reason>) -> String {
    match reason {
        None => String::new(),
        Some(Reason::OwnBag) => " bag".to_string(),
        Some(Reason::HeldBy(holder)) => format!(" held-by {holder}"),
    }
}

/// The first line, and for answers 0 and 10 to 15 a line per station, which "gains its code at the end as one word, `@` with the number, or
/// nothing for 0" (document 02, T-05).
pub fn listing(ran: &Ran) -> String {
    let mut text = format!(
        "answer {} done {} stations {}{}\n",
        ran.answer,
        ran.done,
        ran.stations(),
        ending(ran.reason)
    );
    let name = |side: Option<u32>| side.map_or("-".to_string(), |number| number.to_string());
    for (number, station) in ran.table.iter().flatten() {
        let mut words = vec![
            number.to_string(),
            name(station.left),
            name(station.right),
            if station.leaving { "leave" } else { "stay" }.to_string(),
        ];
        for (message, &copies) in &station.bag {
            let word = match message {
                Message::Introduction(introduced) => format!("i{introduced}"),
                Message::RemoveLeft => "l".to_string(),
                Message::RemoveRight => "r".to_string(),
            };
            words.extend(std::iter::repeat_n(word, copies));
        }
        words.extend(station.site.map(|code| format!("@{code}")));
        text += &words.join(" ");
        text += "\n";
    }
    text
}
