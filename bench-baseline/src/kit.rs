//! Boards that share one memory over a link: the protocol of the verified crates once more, plainly and with no proof.

use std::collections::VecDeque;

const MOST: usize = 16;
const PLACES: usize = 16;
const LIMIT: usize = 288;
const MOST_HOPS: u8 = 14;

type Words = [u32; PLACES];

#[derive(Clone, Copy, PartialEq, Eq)]
pub enum Kind {
    ReadRequest = 1,
    WriteRequest,
    Copy,
    Grant,
    Invalidate,
    Acknowledgement,
}

#[derive(Clone, Copy)]
struct Message {
    kind: Kind,
    page: u8,
    from: u8,
    to: u8,
    asker: u8,
    hops: u8,
    copies: u16,
    words: Words,
}

impl Message {
    /// A message without copy set and words: all but copies and grants.
    fn bare(kind: Kind, page: u8, from: u8, to: u8, asker: u8, hops: u8) -> Self {
        Message { kind, page, from, to, asker, hops, copies: 0, words: [0; PLACES] }
    }
}

/// A queue hands over the oldest message, a pool the one at place pick mod count, in order of posting.
struct Link {
    pool: bool,
    row: VecDeque<Message>,
}

impl Link {
    /// At most N * (N - 1) messages of a kit wait, so the limit is never met.
    fn post(&mut self, message: Message) {
        assert!(self.row.len() < LIMIT);
        self.row.push_back(message);
    }

    fn take(&mut self, pick: usize) -> Option<Message> {
        match self.row.len() {
            0 => None,
            count if self.pool => self.row.remove(pick % count),
            _ => self.row.pop_front(),
        }
    }
}

#[derive(Clone, Copy, PartialEq, Eq)]
enum Access {
    None,
    Read,
    Write,
}

#[derive(Clone, Copy)]
struct Entry {
    access: Access,
    hint: u8,
    copies: u16,
    words: Words,
}

#[derive(Clone, Copy)]
enum Open {
    Load { address: usize },
    AskedStore { address: usize, word: u32 },
    ClearingStore { address: usize, word: u32, awaited: u16, hops: u8 },
}

impl Open {
    fn page(&self) -> u8 {
        let (Open::Load { address } | Open::AskedStore { address, .. } | Open::ClearingStore { address, .. }) = *self;
        (address / PLACES) as u8
    }
}

#[derive(Clone, Copy)]
struct Request {
    kind: Kind,
    page: u8,
    asker: u8,
    hops: u8,
}

pub struct Finish {
    pub address: usize,
    pub word: u32,
    pub hops: u8,
}

pub struct Delivery {
    pub board: u8,
    pub kind: Kind,
    pub hops: u8,
    pub finish: Option<Finish>,
}

struct Board {
    number: u8,
    entries: [Entry; MOST],
    open: Option<Open>,
    waiting: Vec<Request>,
    /// Who sent the invalidate that waits for the open load.
    deferred: Option<u8>,
}

impl Board {
    fn new(number: u8) -> Self {
        let access = if number == 0 { Access::Write } else { Access::None };
        let entry = Entry { access, hint: 0, copies: 0, words: [0; PLACES] };
        Board { number, entries: [entry; MOST], open: None, waiting: Vec::with_capacity(MOST), deferred: None }
    }

    /// The word where it is answered at once, None where the load opens.
    fn load(&mut self, address: usize, link: &mut Link) -> Option<u32> {
        let page = address / PLACES;
        let entry = &self.entries[page];
        if entry.access != Access::None {
            return Some(entry.words[address % PLACES]);
        }
        self.open = Some(Open::Load { address });
        link.post(Message::bare(Kind::ReadRequest, page as u8, self.number, entry.hint, self.number, 0));
        None
    }

    fn store(&mut self, address: usize, word: u32, link: &mut Link) -> Option<u32> {
        let page = address / PLACES;
        let entry = &mut self.entries[page];
        let owner = entry.hint == self.number;
        if entry.access == Access::Write || owner && entry.copies == 0 {
            entry.access = Access::Write;
            entry.words[address % PLACES] = word;
            return Some(word);
        }
        if owner {
            self.clear(address, word, 0, link);
        } else {
            self.open = Some(Open::AskedStore { address, word });
            link.post(Message::bare(Kind::WriteRequest, page as u8, self.number, entry.hint, self.number, 0));
        }
        None
    }

    fn arrive(&mut self, message: &Message, link: &mut Link) -> Option<Finish> {
        let page = message.page as usize;
        match (message.kind, self.open) {
            (Kind::ReadRequest | Kind::WriteRequest, open) => {
                let Message { kind, page, asker, hops, .. } = *message;
                let request = Request { kind, page, asker, hops };
                if open.is_some_and(|open| open.page() == page) {
                    self.waiting.push(request);
                } else {
                    self.serve(request, link);
                }
                None
            }
            (Kind::Copy, Some(Open::Load { address })) => {
                let entry = &mut self.entries[page];
                entry.words = message.words;
                entry.access = Access::Read;
                entry.hint = message.from;
                let word = entry.words[address % PLACES];
                if let Some(sender) = self.deferred.take() {
                    self.invalidate(message.page, sender, link);
                }
                self.close(link);
                Some(Finish { address, word, hops: message.hops })
            }
            (Kind::Grant, Some(Open::AskedStore { address, word })) => {
                let entry = &mut self.entries[page];
                entry.words = message.words;
                entry.copies = message.copies;
                entry.hint = self.number;
                entry.access = Access::Read;
                if entry.copies == 0 {
                    return Some(self.finish_store(address, word, message.hops, link));
                }
                self.clear(address, word, message.hops, link);
                None
            }
            (Kind::Invalidate, Some(open @ Open::Load { .. })) if open.page() == message.page => {
                self.deferred = Some(message.from);
                None
            }
            (Kind::Invalidate, _) => {
                self.invalidate(message.page, message.from, link);
                None
            }
            (Kind::Acknowledgement, Some(Open::ClearingStore { address, word, awaited, hops })) => {
                let awaited = awaited & !(1 << message.from);
                if awaited == 0 {
                    return Some(self.finish_store(address, word, hops, link));
                }
                self.open = Some(Open::ClearingStore { address, word, awaited, hops });
                None
            }
            _ => unreachable!("no board is sent what it does not expect"),
        }
    }

    /// The owner's store waits until every board of the copy set has given up its copy.
    fn clear(&mut self, address: usize, word: u32, hops: u8, link: &mut Link) {
        let page = address / PLACES;
        let awaited = self.entries[page].copies;
        self.open = Some(Open::ClearingStore { address, word, awaited, hops });
        let mut rest = awaited;
        while rest != 0 {
            let member = rest.trailing_zeros() as u8;
            rest &= rest - 1;
            link.post(Message::bare(Kind::Invalidate, page as u8, self.number, member, self.number, 0));
        }
    }

    fn invalidate(&mut self, page: u8, sender: u8, link: &mut Link) {
        self.entries[page as usize].access = Access::None;
        link.post(Message::bare(Kind::Acknowledgement, page, self.number, sender, sender, 0));
    }

    fn finish_store(&mut self, address: usize, word: u32, hops: u8, link: &mut Link) -> Finish {
        let entry = &mut self.entries[address / PLACES];
        entry.access = Access::Write;
        entry.copies = 0;
        entry.words[address % PLACES] = word;
        self.close(link);
        Finish { address, word, hops }
    }

    /// Nothing is open any more: the requests that waited are served in order of arrival.
    fn close(&mut self, link: &mut Link) {
        self.open = None;
        let mut waiting = std::mem::take(&mut self.waiting);
        for request in waiting.drain(..) {
            self.serve(request, link);
        }
        self.waiting = waiting;
    }

    fn serve(&mut self, request: Request, link: &mut Link) {
        let Request { kind, page, asker, hops } = request;
        let entry = &mut self.entries[page as usize];
        let (from, to) = (self.number, asker);
        if entry.hint != self.number {
            let hops = MOST_HOPS.min(hops + 1);
            link.post(Message::bare(kind, page, from, entry.hint, asker, hops));
            entry.hint = asker;
        } else if kind == Kind::ReadRequest {
            entry.copies |= 1 << asker;
            entry.access = Access::Read;
            link.post(Message { kind: Kind::Copy, page, from, to, asker, hops, copies: 0, words: entry.words });
        } else {
            let copies = entry.copies & !(1 << asker);
            link.post(Message { kind: Kind::Grant, page, from, to, asker, hops, copies, words: entry.words });
            entry.access = Access::None;
            entry.copies = 0;
            entry.hint = asker;
        }
    }
}

pub struct Kit {
    boards: Vec<Board>,
    pages: usize,
    link: Link,
}

/// Refusals are plain numbers.
pub type Refusal = u32;

impl Kit {
    pub fn new(boards: usize, pages: usize, pool: bool) -> Result<Self, Refusal> {
        if !(1..=MOST).contains(&boards) {
            return Err(4);
        }
        if !(1..=MOST).contains(&pages) {
            return Err(5);
        }
        let link = Link { pool, row: VecDeque::with_capacity(LIMIT) };
        Ok(Kit { boards: (0..boards as u8).map(Board::new).collect(), pages, link })
    }

    /// For a kit that is not started: its words are all at board 0.
    pub fn place(&mut self, address: usize, word: u32) -> Result<(), Refusal> {
        if address >= PLACES * self.pages {
            return Err(2);
        }
        self.boards[0].entries[address / PLACES].words[address % PLACES] = word;
        Ok(())
    }

    pub fn load(&mut self, board: usize, address: usize) -> Result<Option<u32>, Refusal> {
        self.questions(board, address)?;
        Ok(self.boards[board].load(address, &mut self.link))
    }

    pub fn store(&mut self, board: usize, address: usize, word: u32) -> Result<Option<u32>, Refusal> {
        self.questions(board, address)?;
        Ok(self.boards[board].store(address, word, &mut self.link))
    }

    /// None: nothing waits.
    pub fn deliver(&mut self, pick: usize) -> Option<Delivery> {
        let message = self.link.take(pick)?;
        let finish = self.boards[message.to as usize].arrive(&message, &mut self.link);
        Some(Delivery { board: message.to, kind: message.kind, hops: message.hops, finish })
    }

    fn questions(&self, board: usize, address: usize) -> Result<(), Refusal> {
        if board >= self.boards.len() {
            Err(1)
        } else if address >= PLACES * self.pages {
            Err(2)
        } else if self.boards[board].open.is_some() {
            Err(3)
        } else {
            Ok(())
        }
    }
}
