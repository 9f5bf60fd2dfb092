//! The comparison of one series: the Rust and the proved compiler, call by call.
use crate::heights;
use crate::image;
use crate::listing;
use crate::names;
use crate::port::{self, Answer};
use crate::random::Random;
use crate::read::{self, Reading};
use crate::reference::{self, Accepted, Outcome, State, Words};
use crate::series::{padded, Call, Lent, Series};
use crate::walk;

/// How often each outcome was compared.
#[derive(Default, Clone)]
pub struct Counts {
    pub trees: u64,
    pub accepted: u64,
    /// By number, where the Rust or reading decides.
    pub refused: [u64; 23],
    /// By number, where a limit or a rule of the port decides. At 22 the Rust was not run: it accepts branches without a value.
    pub limits: [u64; 23],
    /// Images checked and listed, sound and damaged ones.
    pub images: u64,
    /// Images whose heights were proposed and checked, and those lists that passed.
    pub heights: u64,
    pub passed: u64,
    /// Damaged sessions.
    pub sessions: u64,
    /// Damaged lists of words.
    pub lists: u64,
    /// Calls with records.
    pub records: u64,
}

/// Both sides in the middle of a series.
pub struct Both {
    lent: Lent,
    state: State,
    session: Vec<u8>,
    latest: Vec<u8>,
    pub counts: Counts,
    damage: Random,
}

type Compared = Result<(), String>;

/// What the Rust has added by its end, against the session's limits.
struct Added {
    definitions: usize,
    constants: usize,
    pool: usize,
}

impl Added {
    fn new(definitions: usize, list: &[crate::evaluator::objects::Object]) -> Self {
        Added { definitions, constants: list.len(), pool: reference::constants(list).len() }
    }

    fn too_many_globals(&self) -> bool {
        self.definitions > 1024
    }

    fn pool_passed(&self) -> bool {
        self.constants > 4096 || self.pool > 28_672
    }
}

/// The tags of the fields at which a number's place may lie.
fn place_tags(number: usize) -> &'static [u8] {
    match number {
        5 | 10 => &[0x20],
        6 => &[0x21, 0x22],
        7 => &[0x2C],
        8 => &[0x24, 0x25],
        9 | 11 => &[0x13],
        12 => &[0x24, 0x26, 0x28],
        14 => &[0x24],
        _ => &[0x11, 0x13, 0x14, 0x20, 0x21, 0x22, 0x23, 0x24, 0x25, 0x26, 0x27, 0x28, 0x29, 0x2A, 0x2B],
    }
}

/// Whether the field at the place is one that the number names, and the one that the Rust's message names.
fn place_fits(tree: &[u8], number: usize, place: usize, message: &str) -> bool {
    if !tree.get(place).is_some_and(|tag| place_tags(number).contains(tag)) {
        return false;
    }
    let length = usize::from(u16::from_be_bytes([tree[place + 1], tree[place + 2]]));
    let content = &tree[place + 3..place + 3 + length];
    match (number, message.strip_prefix("err undefined variable ")) {
        (5, Some(name)) => crate::tree::to_string(content) == name,
        _ => true,
    }
}

impl Default for Both {
    fn default() -> Self {
        let (lent, state) = (Lent::default(), State::begun(&None));
        let (session, latest) = (Vec::new(), Vec::new());
        Both { lent, state, session, latest, counts: Counts::default(), damage: Random::new(17) }
    }
}

impl Both {
    /// Both sides afresh, with these words.
    pub fn begin(&mut self, words: &Words) -> Compared {
        if let Some(list) = words {
            self.damaged_list(list)?;
        }
        self.state = State::begun(words);
        self.session = padded(&self.state.session());
        self.lent.make(words)
    }

    /// A damaged copy of a list that is handed over: 19 exactly where it is none.
    fn damaged_list(&mut self, list: &[Vec<u8>]) -> Compared {
        let mut names = reference::name_fields(list);
        match (self.damage.below(5), names.len()) {
            (0, _) => names.extend_from_slice(&[0x30, 0, 1, 0x61]),
            (1, 0) | (2, _) => names.push(self.damage.next() as u8),
            (1, n) => names.truncate(self.damage.below(n)),
            (_, 0) => {}
            (_, n) => {
                let at = self.damage.below(n);
                names[at] = names[at].wrapping_add(*self.damage.pick(&[1, 255, 3, 253]));
            }
        }
        self.counts.lists += 1;
        let answer = self.lent.hand(&names)?;
        let due = match image::handed(&names) {
            Some(_) => Answer::Length(port::SESSION_SIZE),
            None => Answer::Refused(19, 0),
        };
        self.expect(answer, due).map_err(|text| format!("of the words {}: {text}", crate::hex::hex(&names)))
    }

    /// A whole series; at a difference the number of the call and what differs.
    pub fn series(&mut self, series: &Series) -> Result<(), (usize, String)> {
        self.begin(&series.words).map_err(|text| (0, text))?;
        for (i, call) in series.calls.iter().enumerate() {
            self.call(call).map_err(|text| (i, text))?;
        }
        Ok(())
    }

    /// The latest image that both sides made.
    pub fn latest_image(&self) -> &[u8] {
        &self.latest
    }

    /// Names and pool of the session that the Rust's state makes.
    pub fn reference_state(&self) -> Vec<u8> {
        self.state.names_and_pool()
    }

    /// One call on both sides; the answer that both give.
    pub fn call(&mut self, call: &Call) -> Result<Answer, String> {
        let answer = self.lent.call(&call.tree, &call.lending)?;
        self.counts.trees += 1;
        self.judge(call, answer)?;
        Ok(answer)
    }

    fn judge(&mut self, call: &Call, answer: Answer) -> Compared {
        if call.lending.short() {
            self.limit(answer, 1, 0)?;
            return self.unchanged();
        }
        let reading = read::tree(&call.tree);
        let due = if reading.refused().is_none() { walk::refusal(&self.state, &call.tree) } else { None };
        if let Some((22, place)) = due {
            self.limit(answer, 22, place)?;
            return self.unchanged();
        }
        let outcome = reference::compile(&self.state, &call.tree);
        if matches!(outcome, Outcome::BadTree) != reading.bad.is_some() {
            return Err("the two readings of the tree differ".into());
        }
        match (reading.refused(), outcome) {
            (Some((3, place)), _) => {
                self.expect(answer, Answer::Refused(3, place))?;
                self.counts.refused[3] += 1;
                self.unchanged()
            }
            (Some((number, place)), _) => {
                self.limit(answer, number, place)?;
                self.unchanged()
            }
            (None, outcome) => {
                self.placed(due, answer)?;
                self.walked(call, &reading, answer, outcome)
            }
        }
    }

    /// A tree that reads well, against the Rust.
    fn walked(&mut self, call: &Call, reading: &Reading, answer: Answer, outcome: Outcome) -> Compared {
        match outcome {
            Outcome::Accepted(accepted) => self.accepted(call, reading, answer, accepted),
            Outcome::Refused { message, definitions, constants } => {
                let added = Added::new(definitions, &constants);
                self.refused(call, reading, answer, &message, &added)
            }
            Outcome::BadTree => unreachable!("reading refuses it"),
        }
    }

    /// Number and place of the walk's refusal, against the reading in walk.rs.
    fn placed(&self, due: Option<walk::Refused>, answer: Answer) -> Compared {
        match (due, answer) {
            (Some((number, place)), _) => self.expect(answer, Answer::Refused(number, place)),
            (None, Answer::Length(_) | Answer::Refused(15, 0)) => Ok(()),
            (None, _) => Err(format!("{answer:?}, but no refusal of the walk is due")),
        }
    }

    fn expect(&self, answer: Answer, expected: Answer) -> Compared {
        if answer == expected {
            Ok(())
        } else {
            Err(format!("{answer:?}, but {expected:?} is due"))
        }
    }

    /// A refusal by the port's own limit, whose place is known.
    fn limit(&mut self, answer: Answer, number: usize, place: usize) -> Compared {
        self.expect(answer, Answer::Refused(number, place))?;
        self.counts.limits[number] += 1;
        Ok(())
    }

    /// After a refusal: the session as before (output and work areas were seen to by `Lent::call`).
    fn unchanged(&self) -> Compared {
        if self.lent.session_bytes() == self.session {
            Ok(())
        } else {
            Err("a refusal changed the session".into())
        }
    }

    /// Whether one of the walk's limits (11 to 14) decided; then that it may.
    fn walk_limit(&mut self, call: &Call, reading: &Reading, answer: Answer, added: &Added) -> Result<bool, String> {
        let passed = added.too_many_globals() || added.pool_passed();
        let (number, place) = match answer {
            Answer::Refused(number @ 11..=14, place) => (number, place),
            _ if passed => return Err(format!("{answer:?}, but globals or pool pass a limit")),
            _ => return Ok(false),
        };
        let may = match number {
            11 => added.too_many_globals(),
            12 => added.pool_passed(),
            13 => reading.emission > 32_768,
            _ => reading.nesting > 16,
        };
        if !may || !place_fits(&call.tree, number, place, "") {
            return Err(format!("{answer:?}, but that limit is not passed or its place is another field"));
        }
        self.counts.limits[number] += 1;
        self.unchanged()?;
        Ok(true)
    }

    fn refused(&mut self, call: &Call, reading: &Reading, answer: Answer, message: &str, added: &Added) -> Compared {
        if self.walk_limit(call, reading, answer, added)? {
            return Ok(());
        }
        let due = reference::number(message);
        match answer {
            Answer::Refused(number, place) if number == due && place_fits(&call.tree, number, place, message) => {
                self.counts.refused[number] += 1;
                self.unchanged()
            }
            _ => Err(format!("{answer:?}, but the Rust says: {message} (number {due})")),
        }
    }

    fn accepted(&mut self, call: &Call, reading: &Reading, answer: Answer, accepted: Accepted) -> Compared {
        let added = Added::new(accepted.state.names.len(), &accepted.state.constants);
        if self.walk_limit(call, reading, answer, &added)? {
            return Ok(());
        }
        if reading.nesting > 16 || accepted.code.len() > 32_768 {
            return Err(format!("{answer:?}, but nesting or code passes a limit"));
        }
        let image = accepted.image();
        if image.len() > call.lending.output {
            self.limit(answer, 15, 0)?;
            return self.unchanged();
        }
        self.expect(answer, Answer::Length(image.len()))?;
        if self.lent.output[..image.len()] != image {
            return Err(format!("the images differ; the Rust's is {}", crate::hex::hex(&image)));
        }
        self.names(&accepted)?;
        let before = std::mem::take(&mut self.session);
        let records = walk::walked(&self.state, &call.tree).map_err(|due| format!("accepted, but {due:?} is due"))?;
        self.state = accepted.state;
        self.session = padded(&self.state.session());
        if self.lent.session_bytes() != self.session {
            return Err(format!("the sessions differ; the Rust's is {}", crate::hex::hex(&self.state.session())));
        }
        if self.counts.accepted % 8 == 0 {
            names::compare(&before, &call.tree, &image, &self.session, &records)?;
            self.counts.records += 1;
        }
        self.counts.accepted += 1;
        self.latest.clone_from(&image);
        self.image(image)?;
        if !self.damage.often(100) {
            return Ok(());
        }
        let session = self.damaged_session();
        let used = session.iter().rposition(|b| *b != 0).map_or(0, |last| last + 1);
        self.on_session(&session)
            .map_err(|text| format!("on the session {}: {text}", crate::hex::hex(&session[..used])))
    }

    fn damaged_session(&mut self) -> Vec<u8> {
        let mut session = self.session.clone();
        let used = self.state.session().len() + 4;
        for _ in 0..self.damage.between(1, 2) {
            let at = if self.damage.often(50) { self.damage.below(session.len()) } else { self.damage.below(used) };
            let near = session[at].wrapping_add(*self.damage.pick(&[1, 255, 3, 253]));
            session[at] = if self.damage.often(500) { near } else { self.damage.below(0x63) as u8 };
        }
        session
    }

    /// The empty tree on these session bytes: 2 where the layout is broken, else an image with their pool, and three fields.
    fn on_session(&mut self, session: &[u8]) -> Compared {
        let (answer, after) = self.lent.call_on(session, &[0x10, 0, 0])?;
        let mut due = session.to_vec();
        match image::session(session) {
            None => self.limit(answer, 2, 0)?,
            Some((pool, _)) => {
                let image = [&[0x50, 0, 0], &session[pool]].concat();
                self.expect(answer, Answer::Length(image.len()))?;
                if self.lent.output[..image.len()] != image {
                    return Err("the empty tree's image has another pool than the session".into());
                }
                if session[0] == 0x40 {
                    due.splice(0..0, State::begun(&Some(reference::six())).session().into_iter().take(45));
                    due.truncate(port::SESSION_SIZE);
                }
            }
        }
        self.counts.sessions += 1;
        if after == due {
            Ok(())
        } else {
            Err("the empty tree or number 2 changed the session otherwise than by its three fields".into())
        }
    }

    /// The names of this tree stand in the Rust's own table where the session has them.
    fn names(&self, accepted: &Accepted) -> Compared {
        let names = &accepted.state.names;
        let mut table = accepted.state.table.clone();
        if names.len() != usize::from(table.num_definitions) {
            return Err("the Rust has another number of definitions".into());
        }
        for name in &names[self.state.names.len()..] {
            let latest = names.iter().rposition(|n| n == name);
            if reference::global_index(&mut table, name) != latest {
                return Err(format!("the Rust has another index for {name:?}"));
            }
        }
        Ok(())
    }

    /// The image check and the listing, on the image and on a damaged copy of it.
    fn image(&mut self, mut image: Vec<u8>) -> Compared {
        self.expect(port::check_image(&image), port::SOUND)?;
        if image.len() > 600 {
            return Ok(());
        }
        self.listed(&image)?;
        if !self.heights(&image)? {
            return Err("a compiled image does not pass with its heights".into());
        }
        let at = self.damage.below(image.len());
        match self.damage.below(4) {
            0 => image.truncate(at),
            1 => image.insert(at, self.damage.next() as u8),
            2 => image[at] = self.damage.below(0x20) as u8,
            _ => image[at] = self.damage.next() as u8,
        }
        let damaged = self.listed(&image).and_then(|()| self.heights(&image).map(drop));
        damaged.map_err(|text| format!("of the image {}: {text}", crate::hex::hex(&image)))
    }

    /// A random image, and a damaged copy of it.
    pub fn random_image(&mut self) -> Compared {
        let mut image = heights::random_image(&mut self.damage);
        for _ in 0..2 {
            self.heights(&image).map_err(|text| format!("of the image {}: {text}", crate::hex::hex(&image)))?;
            let at = self.damage.below(image.len());
            image[at] = self.damage.below(0x20) as u8;
        }
        Ok(())
    }

    /// Heights of one image, proposed and checked, and other lists checked; whether the image passes with its heights.
    fn heights(&mut self, image: &[u8]) -> Result<bool, String> {
        self.counts.heights += 1;
        if let Err(image::Wrong(place)) = image::check(image) {
            self.expect(port::propose_heights(image, &mut []), Answer::Refused(17, place))?;
            self.expect(port::check_heights(image, &[], &mut []), Answer::Refused(17, place))?;
            return Ok(false);
        }
        let (due, pass) = heights::all(image);
        let mut proposed = vec![0xA5; due.len() + 3];
        self.expect(port::propose_heights(image, &mut proposed), Answer::Length(due.len()))?;
        let same = due.iter().zip(&proposed).all(|(due, n)| due.unwrap_or(0) == *n);
        if pass && !same || proposed[due.len()..] != [0xA5; 3] {
            return Err(format!("other heights are proposed: {proposed:?}"));
        }
        if !due.is_empty() {
            let mut short = vec![0xA5; due.len() - 1];
            self.expect(port::propose_heights(image, &mut short), Answer::Refused(15, 0))?;
            if short.iter().any(|n| *n != 0xA5) {
                return Err("a short list was written".into());
            }
        }
        self.check_heights(image, &proposed[..due.len()])?;
        let offered = heights::list(&due, &mut self.damage);
        self.check_heights(image, &offered)?;
        Ok(pass)
    }

    /// One list of heights, now and then with too short an output.
    fn check_heights(&mut self, image: &[u8], offered: &[u32]) -> Compared {
        let checked = heights::check(image, offered);
        let many = checked.as_ref().map_or(4, Vec::len);
        let room = if self.damage.often(100) { self.damage.below(many) } else { many + 2 };
        let (due, tops) = match checked {
            Err((number, place)) => (Answer::Refused(number, place), Vec::new()),
            Ok(tops) if room < tops.len() => (Answer::Refused(15, 0), Vec::new()),
            Ok(tops) => (Answer::Length(tops.len()), tops),
        };
        self.counts.passed += u64::from(matches!(due, Answer::Length(_)));
        let mut output = vec![0xA5; room];
        self.expect(port::check_heights(image, offered, &mut output), due)?;
        if output[..tops.len()] != tops || output[tops.len()..].iter().any(|n| *n != 0xA5) {
            return Err(format!("the greatest heights differ: {output:?}, offered {offered:?}"));
        }
        Ok(())
    }

    /// The image check and the listing of one image, now and then into too short an output.
    fn listed(&mut self, image: &[u8]) -> Compared {
        let (checked, listed) = match listing::listing(image) {
            Ok(text) => (port::SOUND, text.into_bytes()),
            Err(image::Wrong(place)) => (Answer::Refused(17, place), Vec::new()),
        };
        self.counts.images += 1;
        self.expect(port::check_image(image), checked)?;
        let short = self.damage.often(100) && !listed.is_empty();
        let mut output = vec![0xA5; if short { self.damage.below(listed.len()) } else { listed.len() + 8 }];
        let answer = port::list_image(image, &mut output);
        let due = if checked == port::SOUND && !short { Answer::Length(listed.len()) } else { checked };
        self.expect(answer, due)?;
        let written = if let Answer::Length(length) = due { length } else { 0 };
        if output[..written] != listed[..written] || output[written..].iter().any(|b| *b != 0xA5) {
            return Err(format!("the listing differs: {}", String::from_utf8_lossy(&output)));
        }
        Ok(())
    }
}
