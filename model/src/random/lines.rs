//! Random call lines, made by looking at the tables: most are accepted.

use super::damage::{damage, garbled_answer, garbled_chain, garbled_comesall};
use super::pairs::comesall;
use super::prng::Rng;
use super::profile::Profile;
use crate::call::{Call, Item, Word, WORDS};
use crate::limits::{ALL_RIGHTS, LAST_NUMBER, PROCESSES};
use crate::refusals::refusal;
use crate::relations::{first_chain, on_loan, request_on};
use crate::tables::{Kind, Place, Request, Row, Tables};

/// What is proposed: a word with one number, an ask, an answer with its last number, a comes, a chain
/// or a comesall.
#[derive(Clone, Copy)]
enum Plan {
    One(Word),
    Ask,
    Answer(u32),
    Comes,
    Chain,
    ComesAll,
}

const PLANS: [Plan; 14] = [
    Plan::One(Word::Go),
    Plan::One(Word::Hold),
    Plan::One(Word::Register),
    Plan::One(Word::Drop),
    Plan::One(Word::Port),
    Plan::One(Word::Close),
    Plan::Ask,
    Plan::One(Word::Fetch),
    Plan::Answer(1),
    Plan::Answer(0),
    Plan::One(Word::Revoke),
    Plan::Comes,
    Plan::Chain,
    Plan::ComesAll,
];

/// Last numbers of an answer that are out of range.
const ODD_LAST: [u32; 6] = [2, 3, 10, 256, LAST_NUMBER, u32::MAX];

/// How likely each plan is, in the order of `PLANS`. Without an open request a comesall, which is
/// accepted all the same, has no value but `-`.
fn weights(profile: Profile, tables: &Tables) -> [u32; 14] {
    let mut weights = match profile {
        Profile::Tiny => [8, 10, 5, 6, 10, 3, 24, 16, 5, 3, 4, 6, 4, 5],
        Profile::Loans => [4, 10, 3, 4, 13, 2, 32, 20, 4, 2, 3, 3, 3, 4],
        Profile::Nested => [1, 6, 1, 2, 16, 1, 36, 24, 4, 3, 4, 2, 2, 3],
        Profile::Directories => [18, 20, 8, 6, 7, 1, 18, 14, 2, 1, 3, 2, 3, 3],
        Profile::Deep => [12, 20, 14, 2, 16, 1, 18, 16, 1, 1, 2, 1, 4, 3],
        Profile::Full if tables.rows.len() < 1022 => [2, 40, 6, 0, 26, 0, 26, 5, 0, 0, 0, 1, 1, 1],
        Profile::Full => [2, 20, 6, 20, 12, 2, 20, 8, 3, 2, 3, 2, 2, 2],
    };
    if tables.requests.is_empty() {
        weights[PLANS.len() - 1] = 1;
    }
    weights
}

/// One line, with its line feed if it was not damaged.
pub fn line(rng: &mut Rng, profile: Profile, tables: &Tables) -> Vec<u8> {
    let way = rng.below(100);
    let mut maker = Maker {
        rng,
        profile,
        tables,
        near: (6..14).contains(&way),
    };
    match way {
        0..=1 => {
            let line = maker.propose().print();
            damage(maker.rng, &line)
        }
        2 if maker.rng.percent(50) => {
            let (caller, end) = maker.answerer(1);
            garbled_answer(maker.rng, caller, end)
        }
        3 if maker.rng.percent(25) => {
            let row = maker.any_number();
            garbled_chain(maker.rng, row)
        }
        4 if maker.rng.percent(25) => {
            let (row, request) = (maker.any_number(), maker.any_number());
            garbled_comesall(maker.rng, row, request)
        }
        2..=5 => maker.careless().print(),
        6..=20 => maker.propose().print(),
        _ => maker.acceptable().print(),
    }
}

/// A call with a caller and rows that nearly fit it.
pub fn near_call(rng: &mut Rng, profile: Profile, tables: &Tables) -> Call {
    let near = true;
    Maker {
        rng,
        profile,
        tables,
        near,
    }
    .propose()
}

/// What a line is made from. A near proposal has a row of the caller's that
/// need not fit the call.
struct Maker<'a> {
    rng: &'a mut Rng,
    profile: Profile,
    tables: &'a Tables,
    near: bool,
}

impl<'a> Maker<'a> {
    /// A proposal that is accepted, if one of a few is.
    fn acceptable(&mut self) -> Call {
        let mut call = self.propose();
        for _ in 0..8 {
            if refusal(self.tables, &call).is_none() {
                return call;
            }
            call = self.propose();
        }
        call
    }

    /// Any word and any numbers, some of them out of range.
    fn careless(&mut self) -> Call {
        let odd = [0, PROCESSES, PROCESSES + 1, u32::MAX];
        let caller = match self.rng.below(8) {
            0 => self.rng.pick(&odd).unwrap_or(0),
            1 => self.rng.between(1, PROCESSES),
            _ => self.some_process(),
        };
        match self.rng.below(14) {
            0 => Call::Comes {
                row: self.any_number(),
                request: self.any_number(),
            },
            1 => Call::Chain {
                row: self.any_number(),
            },
            2 => comesall(self.rng, self.tables, true),
            3..=6 => Call::Ask {
                caller,
                client: self.any_number(),
                items: self.careless_items(),
            },
            7 => Call::Answer {
                caller,
                end: self.any_number(),
                last: self.any_last(),
            },
            _ => Call::One {
                caller,
                word: self.rng.pick(&WORDS).map_or(Word::Go, |(_, word)| word),
                number: self.any_number(),
            },
        }
    }

    fn careless_items(&mut self) -> Vec<Item> {
        let rights = [0, 1, 2, 3, 7, 7, 7, 8, u32::MAX];
        let count = self.rng.below(7);
        let item = |_| Item {
            row: self.any_number(),
            rights: self.rng.pick(&rights).unwrap_or(0),
        };
        (0..count).map(item).collect()
    }

    fn any_last(&mut self) -> u32 {
        match self.rng.percent(20) {
            true => self.rng.pick(&ODD_LAST).unwrap_or(2),
            false => self.rng.between(0, 1),
        }
    }

    fn any_number(&mut self) -> u32 {
        let rows = self.tables.rows.iter().map(|r| r.number);
        let requests = self.tables.requests.iter().map(|q| q.number);
        match self.rng.below(24) {
            0 => 0,
            1 => self.rng.between(LAST_NUMBER - 1, LAST_NUMBER + 1),
            2 => self.rng.between(1, self.tables.next.max(1)),
            3..=6 => self.rng.pick(&requests.collect::<Vec<_>>()).unwrap_or(1),
            _ => self.rng.pick(&rows.collect::<Vec<_>>()).unwrap_or(1),
        }
    }

    fn some_process(&mut self) -> u32 {
        let listed = (1..=PROCESSES).filter(|p| self.tables.listed(*p));
        self.rng.pick(&listed.collect::<Vec<_>>()).unwrap_or(1)
    }

    /// A call with a caller and rows that fit it, accepted or not.
    fn propose(&mut self) -> Call {
        let weights = weights(self.profile, self.tables);
        match PLANS[self.rng.weighted(&weights)] {
            Plan::One(word) => self.propose_word(word),
            Plan::Ask => self.propose_ask(),
            Plan::Answer(last) => {
                let (caller, end) = self.answerer(last);
                let any = self.near && self.rng.percent(30);
                let last = if any { self.any_last() } else { last };
                Call::Answer { caller, end, last }
            }
            Plan::Comes => {
                let row = self.some_row();
                let request = self.some_request(|_| true).map_or(1, |q| q.number);
                Call::Comes { row, request }
            }
            Plan::Chain => Call::Chain {
                row: self.some_row(),
            },
            Plan::ComesAll => comesall(self.rng, self.tables, self.near),
        }
    }

    /// The number of a row of any place. Near: now and then any number.
    fn some_row(&mut self) -> u32 {
        if self.near && self.rng.percent(30) {
            return self.any_number();
        }
        let rows: Vec<&Row> = self.tables.rows.iter().collect();
        self.pick_row(&rows).map_or(1, |r| r.number)
    }

    fn propose_word(&mut self, word: Word) -> Call {
        let found = match word {
            Word::Go if self.rng.percent(25) => Some((self.some_process(), 0)),
            Word::Go => self.held(|r| r.kind == Kind::Subdirectory),
            Word::Hold => self.in_active_node(),
            Word::Register | Word::Drop => self.held(|r| !r.is_end()),
            Word::Port => self.held(|r| r.kind == Kind::Operation),
            Word::Close => self.held(|r| r.kind == Kind::Client),
            Word::Fetch => self.server_of(|q| q.fetched == 0),
            Word::Revoke => {
                let request = self.some_request(|_| true);
                request.map(|q| (q.asker, q.number))
            }
        };
        let (caller, number) = found.unwrap_or_else(|| (self.some_process(), 1));
        Call::One {
            caller,
            word,
            number,
        }
    }

    /// A row, in the deep profile often one of the greatest depth or of the longest first chain.
    fn pick_row<'b>(&mut self, rows: &[&'b Row]) -> Option<&'b Row> {
        if self.profile != Profile::Deep || self.rng.percent(50) {
            return self.rng.pick(rows);
        }
        let rows = rows.iter().copied();
        match self.rng.percent(50) {
            true => rows.max_by_key(|r| r.depth),
            false => rows.max_by_key(|r| first_chain(self.tables, r.number).len()),
        }
    }

    /// A row of a c-list that passes the test, with its holder.
    fn held(&mut self, test: impl Fn(&Row) -> bool) -> Option<(u32, u32)> {
        let any = self.near && self.rng.percent(30);
        let rows = self.tables.rows.iter().filter(|r| holder(r).is_some());
        let rows: Vec<&Row> = rows.filter(|r| any || test(r)).collect();
        let row = self.pick_row(&rows)?;
        Some((holder(row)?, row.number))
    }

    fn in_active_node(&mut self) -> Option<(u32, u32)> {
        let caller = self.some_process();
        let active = Place::Node(self.tables.process(caller)?.active);
        let rows = self.tables.rows.iter().filter(|r| r.place == active);
        let row = self.pick_row(&rows.collect::<Vec<_>>())?;
        Some((caller, row.number))
    }

    fn some_request(&mut self, test: impl Fn(&Request) -> bool) -> Option<&'a Request> {
        let requests = self.tables.requests.iter().filter(|q| test(q));
        self.rng.pick(&requests.collect::<Vec<_>>())
    }

    /// The server end of a port whose open request passes the test, with its
    /// holder. Near: of any port.
    fn server_of(&mut self, test: impl Fn(&Request) -> bool) -> Option<(u32, u32)> {
        if self.near && self.rng.percent(40) {
            return self.held(|r| r.kind == Kind::Server);
        }
        let near = self.near;
        let request = self.some_request(|q| near || test(q))?;
        let server = self.tables.row(request.port.checked_add(1)?)?;
        Some((holder(server)?, server.number))
    }

    /// Who may answer with this last number, and the server end.
    fn answerer(&mut self, last: u32) -> (u32, u32) {
        let found = self.server_of(|q| last == 0 || q.fetched == 1);
        found.unwrap_or_else(|| (self.some_process(), 1))
    }

    fn propose_ask(&mut self) -> Call {
        let (near, tables) = (self.near, self.tables);
        let free = |r: &Row| near || request_on(tables, r.number).is_none();
        let client = match self.profile == Profile::Nested && self.rng.percent(60) {
            true => self.client_of_borrower(),
            false => self.held(|r| r.kind == Kind::Client && free(r)),
        };
        let (caller, client) = client.unwrap_or_else(|| (self.some_process(), 1));
        Call::Ask {
            caller,
            client,
            items: self.some_items(caller, client),
        }
    }

    /// A client end of a process that has an end on loan, with no request on
    /// either port.
    fn client_of_borrower(&mut self) -> Option<(u32, u32)> {
        let tables = self.tables;
        let free = |r: &Row| r.port().is_some_and(|c| request_on(tables, c).is_none());
        let ends: Vec<&Row> = tables.rows.iter().filter(|r| free(r)).collect();
        let lent = ends.iter().filter(|r| on_loan(tables, r));
        let borrowers: Vec<u32> = lent.filter_map(|r| holder(r)).collect();
        let borrower = self.rng.pick(&borrowers)?;
        let own = ends.iter().filter(|r| r.in_c_list_of(borrower));
        let clients = own.filter(|r| r.kind == Kind::Client);
        let client = self.rng.pick(&clients.collect::<Vec<_>>())?;
        Some((borrower, client.number))
    }

    fn some_items(&mut self, caller: u32, client: u32) -> Vec<Item> {
        let (near, tables) = (self.near, self.tables);
        let fits = |r: &Row| near || r.port() != Some(client);
        let own = tables.rows.iter().filter(|r| r.in_c_list_of(caller));
        let mut rows: Vec<&Row> = own.filter(|r| fits(r)).collect();
        self.rng.shuffle(&mut rows);
        rows.sort_by_key(|r| !wanted(self.profile, tables, r));
        let most = match self.profile {
            Profile::Nested => 3,
            Profile::Full => 1,
            _ => 4,
        };
        let count = self.rng.below(most + 1);
        let items = rows.into_iter().take(count).map(|r| item(self.rng, r));
        items.collect()
    }
}

fn holder(row: &Row) -> Option<u32> {
    match row.place {
        Place::CList(p) => Some(p),
        _ => None,
    }
}

/// The rows that the profile lends first.
fn wanted(profile: Profile, tables: &Tables, row: &Row) -> bool {
    match profile {
        Profile::Nested => on_loan(tables, row),
        Profile::Directories => row.kind == Kind::Subdirectory,
        Profile::Deep => row.depth >= 4 && !row.is_end(),
        _ => true,
    }
}

/// Rights within the row's, now and then any.
fn item(rng: &mut Rng, row: &Row) -> Item {
    let mask = match rng.below(4) {
        0 => rng.between(0, ALL_RIGHTS),
        _ => ALL_RIGHTS,
    };
    let rights = match rng.below(40) {
        0 => rng.between(0, ALL_RIGHTS + 1),
        _ => row.rights & mask,
    };
    Item {
        row: row.number,
        rights,
    }
}
