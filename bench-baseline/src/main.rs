//! The bench once more in plain Rust: a script on standard input, its listing on standard output. Nothing here is proved:
//! it is what the verified bench is measured and compared against.

mod kit;

use kit::{Delivery, Kit, Refusal};
use std::io::{self, Read, Write};

const RECORD: usize = 16;

enum Call {
    Make { boards: usize, pages: usize, pool: bool },
    Place { address: usize, word: u32 },
    Load { board: usize, address: usize },
    Store { board: usize, address: usize, word: u32 },
    Deliver { pick: usize },
}

fn decimal(digits: &[u8]) -> Option<usize> {
    digits.iter().try_fold(0, |number, digit| match digit {
        b'0'..=b'9' => Some(10 * number + (digit - b'0') as usize),
        _ => None,
    })
}

fn hexadecimal(digits: &[u8]) -> Option<u32> {
    digits.iter().try_fold(0, |number, digit| match digit {
        b'0'..=b'9' => Some(16 * number + (digit - b'0') as u32),
        b'a'..=b'f' => Some(16 * number + (digit - b'a') as u32 + 10),
        _ => None,
    })
}

/// The call of a record, None where a character is not of its form.
fn read_record(record: &[u8; RECORD]) -> Option<Call> {
    let two = decimal(&record[1..3])?;
    let three = decimal(&record[3..6])?;
    let eight = hexadecimal(&record[6..14])?;
    if record[14..] != *b" \n" {
        return None;
    }
    match (record[0], two, three, eight) {
        (b'K', boards, pages, 0 | 1) => Some(Call::Make { boards, pages, pool: eight == 1 }),
        (b'P', 0, address, word) => Some(Call::Place { address, word }),
        (b'L', board, address, 0) => Some(Call::Load { board, address }),
        (b'S', board, address, word) => Some(Call::Store { board, address, word }),
        (b'D', 0, pick, 0) => Some(Call::Deliver { pick }),
        _ => None,
    }
}

struct Answer {
    letter: u8,
    two: usize,
    three: usize,
    eight: u32,
    hops: u8,
}

const QUIET: Answer = Answer { letter: b'Q', two: 0, three: 0, eight: 0, hops: 0 };

impl Answer {
    fn new(letter: u8, two: usize, three: usize, eight: u32) -> Self {
        Answer { letter, two, three, eight, hops: 0 }
    }

    fn bytes(&self) -> [u8; RECORD] {
        const HEX: &[u8; 16] = b"0123456789abcdef";
        let mut line = [b'\n'; RECORD];
        line[0] = self.letter;
        line[1] = HEX[self.two / 10 % 10];
        line[2] = HEX[self.two % 10];
        line[3] = HEX[self.three / 100 % 10];
        line[4] = HEX[self.three / 10 % 10];
        line[5] = HEX[self.three % 10];
        for (i, digit) in line[6..14].iter_mut().enumerate() {
            *digit = HEX[(self.eight >> (28 - 4 * i) & 15) as usize];
        }
        line[14] = HEX[(self.hops & 15) as usize];
        line
    }
}

fn accessed(board: usize, address: usize, at_once: Option<u32>, opened_word: u32) -> Answer {
    match at_once {
        Some(word) => Answer::new(b'A', board, address, word),
        None => Answer::new(b'O', board, address, opened_word),
    }
}

fn delivered(delivery: Delivery) -> Answer {
    let Delivery { board, kind, hops, finish } = delivery;
    let two = board as usize;
    match finish {
        Some(f) => Answer { letter: b'F', two, three: f.address, eight: f.word, hops: f.hops },
        None => Answer { letter: b'M', two, three: kind as usize, eight: 0, hops },
    }
}

#[derive(Default)]
struct Player {
    kit: Option<Kit>,
    started: bool,
}

impl Player {
    fn turn(&mut self, record: &[u8; RECORD]) -> Result<Answer, Refusal> {
        match (read_record(record).ok_or(17u32)?, &mut self.kit) {
            (Call::Make { boards, pages, pool }, None) => {
                self.kit = Some(Kit::new(boards, pages, pool)?);
                Ok(Answer::new(b'A', boards, pages, pool as u32))
            }
            (Call::Place { address, word }, Some(kit)) if !self.started => {
                kit.place(address, word)?;
                Ok(Answer::new(b'A', 0, address, word))
            }
            (Call::Load { board, address }, Some(kit)) => {
                let at_once = kit.load(board, address)?;
                self.started = true;
                Ok(accessed(board, address, at_once, 0))
            }
            (Call::Store { board, address, word }, Some(kit)) => {
                let at_once = kit.store(board, address, word)?;
                self.started = true;
                Ok(accessed(board, address, at_once, word))
            }
            (Call::Deliver { pick }, Some(kit)) => {
                self.started = true;
                Ok(kit.deliver(pick).map_or(QUIET, delivered))
            }
            _ => Err(18),
        }
    }
}

fn refused(number: Refusal) -> Answer {
    Answer::new(b'X', 0, number as usize, 0)
}

fn play(script: &[u8]) -> Vec<u8> {
    let mut listing = Vec::with_capacity(script.len() + RECORD);
    let mut player = Player::default();
    for record in script.chunks(RECORD) {
        // only the last record can be cut short
        let Ok(record) = record.try_into() else {
            listing.extend_from_slice(&refused(17).bytes());
            break;
        };
        match player.turn(record) {
            Ok(answer) => listing.extend_from_slice(&answer.bytes()),
            Err(number) => {
                listing.extend_from_slice(&refused(number).bytes());
                if record[0] == b'K' {
                    break;
                }
            }
        }
    }
    listing
}

fn main() -> io::Result<()> {
    let mut script = Vec::new();
    io::stdin().lock().read_to_end(&mut script)?;
    io::stdout().lock().write_all(&play(&script))
}
