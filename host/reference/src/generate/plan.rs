//! A track described by its contents, and the bytes and marks it becomes.

use crate::check::check;
use crate::layout::*;

/// A sector with the number of gap bytes after its data block; the last one's gap runs to index.
#[derive(Clone, Debug, PartialEq, Eq)]
pub struct PlannedSector {
    pub flag: u8,
    pub s: u8,
    pub key: Vec<u8>,
    pub data: Vec<u8>,
    /// Whether an empty data block goes on with check and end byte.
    pub closed: bool,
    pub gap: usize,
}

impl PlannedSector {
    /// Bytes from the count's end to the data block's end.
    pub fn blocks_length(&self) -> usize {
        let key = match self.key.len() {
            0 => 0,
            kl => GAP + 6 + kl + TRAILER,
        };
        let data = match self.data.len() {
            0 if self.closed => 10,
            0 => 7,
            dl => 6 + dl + TRAILER,
        };
        key + GAP + data
    }
}

/// A whole track; any value may be out of rule.
#[derive(Clone, Debug, PartialEq, Eq)]
pub struct Plan {
    pub length: usize,
    pub home: usize,
    pub flag: u8,
    pub address: Address,
    /// Cylinder and head in the counts.
    pub named: Address,
    pub sectors: Vec<PlannedSector>,
}

/// Where a built sector lies: opening of the count, information of key and data, how many bytes of data, end of the block.
#[derive(Clone, Copy, Debug, PartialEq, Eq)]
pub struct Places {
    pub count: usize,
    pub key: usize,
    pub data: usize,
    pub dl: usize,
    pub end: usize,
}

impl Places {
    /// Whether the data block is empty and ends with its zero byte.
    pub fn is_seven(&self) -> bool {
        self.dl == 0 && self.end == self.data + 1
    }

    /// Whether the data block is empty and goes on with check and end byte.
    pub fn is_ten(&self) -> bool {
        self.dl == 0 && self.end == self.data + 4
    }
}

/// A built track.
#[derive(Clone, Debug)]
pub struct Built {
    pub track: Vec<u8>,
    pub marks: Vec<u8>,
    pub places: Vec<Places>,
}

impl Built {
    /// Where a sector's span ends.
    pub fn span_end(&self, index: usize) -> usize {
        let next = self.places.get(index + 1);
        next.map_or(self.track.len(), |next| next.count)
    }

    /// How many bytes of a sector's span follow its data block.
    pub fn gap_after(&self, index: usize) -> usize {
        self.span_end(index) - self.places[index].end
    }

    /// Ends of the empty data blocks, by the bytes that follow the zero byte in the span, planned or not.
    pub(super) fn measure_empty_blocks(&mut self) {
        for index in 0..self.places.len() {
            let (places, span_end) = (self.places[index], self.span_end(index));
            if places.dl == 0 {
                let behind = &self.track[places.data + 1..span_end];
                let goes_on = behind.starts_with(&EMPTY_TRAILER);
                self.places[index].end = places.data + if goes_on { 4 } else { 1 };
            }
        }
    }
}

/// Contents of a gap of a given length.
pub type Gap<'a> = &'a mut dyn FnMut(usize) -> Vec<u8>;

impl Plan {
    /// Where the last data block ends.
    pub(super) fn end(&self) -> usize {
        let mut end = self.home + HOME_TO_COUNT;
        for (index, sector) in self.sectors.iter().enumerate() {
            end += match index {
                0 => 18,
                _ => self.sectors[index - 1].gap + 20,
            };
            end += sector.blocks_length();
        }
        end
    }

    /// Bytes and marks of the plan, gap contents as given.
    pub fn build(&self, gap: Gap) -> Built {
        let mut track = gap(self.home);
        track.extend_from_slice(&SHORT_OPENING);
        let information = [vec![self.flag], address_bytes(self.address)].concat();
        push_information(&mut track, &information);
        track.extend(gap(GAP));
        let mut places: Vec<Places> = Vec::new();
        for (index, sector) in self.sectors.iter().enumerate() {
            places.push(self.push_sector(&mut track, index, sector, gap));
            if index + 1 < self.sectors.len() {
                track.extend(gap(sector.gap));
            }
        }
        assert!(track.len() <= self.length, "the plan exceeds its length");
        let rest = self.length - track.len();
        track.extend(gap(rest));
        let marks = marks_for(&places, track.len());
        let mut built = Built {
            track,
            marks,
            places,
        };
        built.measure_empty_blocks();
        built
    }

    /// One sector up to its data block's end.
    fn push_sector(
        &self,
        track: &mut Vec<u8>,
        index: usize,
        sector: &PlannedSector,
        gap: Gap,
    ) -> Places {
        let count = track.len();
        match index {
            0 => track.extend_from_slice(&SHORT_OPENING),
            _ => track.extend_from_slice(&LONG_OPENING),
        }
        let mut information = vec![sector.flag];
        information.extend(address_bytes(self.named));
        information.extend([sector.s, sector.key.len() as u8]);
        information.extend((sector.data.len() as u16).to_be_bytes());
        push_information(track, &information);
        let key = match sector.key.is_empty() {
            true => 0,
            false => push_block(track, &sector.key, gap),
        };
        let data = push_block(track, &sector.data, gap);
        if sector.data.is_empty() && sector.closed {
            track.extend_from_slice(&EMPTY_TRAILER);
        }
        Places {
            count,
            key,
            data,
            dl: sector.data.len(),
            end: track.len(),
        }
    }
}

/// Cylinder and head as four bytes.
fn address_bytes(address: Address) -> Vec<u8> {
    let cylinder = address.cylinder.to_be_bytes();
    [cylinder, address.head.to_be_bytes()].concat()
}

/// Information, check and end byte.
fn push_information(track: &mut Vec<u8>, information: &[u8]) {
    track.extend_from_slice(information);
    track.extend(check(information));
    track.push(END_BYTE);
}

/// Gap, opening and contents of a block; gives the place of its information.
fn push_block(track: &mut Vec<u8>, information: &[u8], gap: Gap) -> usize {
    track.extend(gap(GAP));
    track.extend_from_slice(&SHORT_OPENING);
    let place = track.len();
    match information.is_empty() {
        true => track.push(0),
        false => push_information(track, information),
    }
    place
}

/// The marks of all openings after the first count.
fn marks_for(places: &[Places], length: usize) -> Vec<u8> {
    let mut marks = vec![0; length];
    for sector in places.iter().skip(1) {
        marks[sector.count..sector.count + 8].copy_from_slice(&LONG_MARKS);
    }
    marks
}
