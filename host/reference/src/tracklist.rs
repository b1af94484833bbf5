//! What the listing program prints.

use crate::accept::{judge, Judged};
use crate::answer::BAD_INPUT;

/// The output for a whole standard input: the bytes of a track, then its marks.
pub fn tracklist(input: &[u8]) -> Vec<u8> {
    if input.len() % 2 == 1 {
        return refusal(BAD_INPUT);
    }
    let (track, marks) = input.split_at(input.len() / 2);
    match judge(track, marks) {
        Ok(judged) => listing(&judged).into_bytes(),
        Err(answer) => refusal(answer.number),
    }
}

/// The line for refused input.
fn refusal(number: u8) -> Vec<u8> {
    format!("refused {number}\n").into_bytes()
}

/// One line for the home address, then one for each sector.
fn listing(judged: &Judged) -> String {
    let home = judged.home;
    let (cylinder, head) = (home.address.cylinder, home.address.head);
    let mut lines = format!("{cylinder} {head} {}\n", home.flag);
    for sector in &judged.sectors {
        let fields = sector.fields;
        let data_place = sector.blocks.data + 6;
        lines += &format!(
            "{} {} {} {} {data_place}\n",
            fields.s, fields.flag, fields.kl, fields.dl
        );
    }
    lines
}
