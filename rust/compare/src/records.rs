//! Replay inputs: records of requests, drawn for a policy.

use crate::draw::Draw;
use crate::kept::PRINT;
use crate::policies::{damaged, over, privilege, protection, to_the_right, Over};
use twin::image::Policy;

/// An input: the length, the image, and the records.
pub fn input(image: &[u8], records: &[u8]) -> Vec<u8> {
    let mut input = (image.len() as u16).to_le_bytes().to_vec();
    input.extend(image);
    input.extend(records);
    input
}

/// What records are drawn for.
pub struct For {
    over: Over,
    roles: usize,
    files: usize,
    prints: bool,
}

impl For {
    /// Records of a replay for a policy.
    pub fn policy(policy: &Policy) -> For {
        For {
            over: over(&policy.parents),
            roles: policy.roles.len(),
            files: policy.files.len(),
            prints: false,
        }
    }

    /// Records of a box for a policy: prints among them.
    pub fn kept(policy: &Policy) -> For {
        For {
            prints: true,
            ..For::policy(policy)
        }
    }

    /// So many records, after a begin of four slots.
    pub fn records(&self, draw: &mut Draw, count: usize) -> Vec<u8> {
        let mut records = self.begins(draw, 4).concat();
        for _ in 0..count {
            records.extend(self.record(draw));
        }
        records
    }

    /// A begin of each of so many slots.
    pub fn begins(&self, draw: &mut Draw, slots: u8) -> Vec<Vec<u8>> {
        let begin = |slot| vec![1, slot, draw.byte(self.roles.max(1))];
        (0..slots).map(begin).collect()
    }

    /// A record, most often an ask.
    pub fn record(&self, draw: &mut Draw) -> Vec<u8> {
        let code = match draw.below(100) {
            _ if self.prints && draw.one_in(6) => PRINT,
            0..=11 => 1,
            12..=15 => 2,
            16..=59 => 3,
            60..=80 => 4,
            _ => 5,
        };
        self.record_of(draw, code)
    }

    /// A record with this code, 1 to 5 or a print's.
    pub fn record_of(&self, draw: &mut Draw, code: u8) -> Vec<u8> {
        match code {
            1 => vec![1, slot(draw), part_of(draw, self.roles)],
            2 => vec![2, slot(draw)],
            3 => self.row(draw, 3).to_vec(),
            PRINT => self.print(draw),
            code => self.twice(draw, code),
        }
    }

    /// A code with a slot, a file and a mode.
    fn row(&self, draw: &mut Draw, code: u8) -> [u8; 4] {
        [
            code,
            slot(draw),
            part_of(draw, self.files),
            part_of(draw, 5),
        ]
    }

    /// A change or a bypass; one expression in six is damaged.
    fn twice(&self, draw: &mut Draw, code: u8) -> Vec<u8> {
        let mut record = self.row(draw, code).to_vec();
        for _ in 0..2 {
            let mut bytes = self.expression(draw, code);
            if draw.one_in(6) {
                bytes = damaged(draw, &bytes);
            }
            push(&mut record, &bytes);
        }
        record
    }

    /// A print of an expression of any shape; one in five is damaged.
    fn print(&self, draw: &mut Draw) -> Vec<u8> {
        let mut bytes = match draw.below(4) {
            0 => privilege(draw, self.over),
            1 => to_the_right(draw, self.over),
            _ => protection(draw, self.over),
        };
        if draw.one_in(5) {
            bytes = damaged(draw, &bytes);
        }
        let mut record = vec![PRINT];
        push(&mut record, &bytes);
        record
    }

    /// An expression in order for a change or a bypass.
    fn expression(&self, draw: &mut Draw, code: u8) -> Vec<u8> {
        match code {
            4 => protection(draw, self.over),
            _ => privilege(draw, self.over),
        }
    }

    /// A change and a bypass of slot 0 and file 0 for each place of an expression, damaged there,
    /// now the first and now the second.
    pub fn damaged_everywhere(&self, draw: &mut Draw) -> Vec<Vec<u8>> {
        let mut records = Vec::new();
        for code in [4, 5] {
            let good = self.expression(draw, code);
            for at in 0..good.len() {
                let mut bad = good.clone();
                bad[at] = draw.pick(&[0, 1, 2, 3, 4, 5, 63, 64, 255, bad[at] ^ 1, bad[at] ^ 2]);
                let first = draw.one_in(2);
                let pair = if first { [&bad, &good] } else { [&good, &bad] };
                let mut record = vec![code, 0, 0, draw.byte(5)];
                for bytes in pair {
                    push(&mut record, bytes);
                }
                records.push(record);
            }
        }
        records
    }
}

/// A length byte and its bytes.
fn push(record: &mut Vec<u8>, bytes: &[u8]) {
    record.push(bytes.len() as u8);
    record.extend(bytes);
}

/// A slot, mostly one of the first four.
fn slot(draw: &mut Draw) -> u8 {
    match draw.below(20) {
        0 => 15 + draw.byte(4),
        1 => draw.byte(256),
        2 => draw.byte(16),
        _ => draw.byte(4),
    }
}

/// A number, mostly below `count`.
fn part_of(draw: &mut Draw, count: usize) -> u8 {
    match draw.below(20) {
        0 => draw.byte(256),
        1 => (count + draw.below(2)) as u8,
        _ => draw.byte(count.max(1)),
    }
}
