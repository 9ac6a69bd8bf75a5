//! Scripts of random runs. The model plays each line as it is made, so that the next one can build on its answer.
mod handings;
mod withdrawals;

use crate::forge::*;
use crate::model::card::STARTING_CARD;
use crate::model::message::*;
use crate::model::order::ZERO_KEY;
use crate::model::random::Random;
use crate::model::script::{all_genuine, hex, Output, Player, KEPT_MESSAGES};
use crate::model::sha256::sha256;
use crate::office::*;
use crate::tally::{
    AGAIN, BAD_KEY, ELSEWHERE, FOREIGN, FORGED, HANDED, NO_PROOF, ORDER, OWN_PROOF, RIVAL, SCREEN,
    TWIN, UNPROVED,
};
use handings::{every_handing, outlasting, Written};
use std::collections::{BTreeMap, BTreeSet};
use withdrawals::Withdrawal;

/// So many runs out of `Office::one_in` are about withdrawals: fewer where fewer orders are wanted. They have less than a tenth of
/// the calls.
const WITHDRAWALS: usize = 45;

/// The numbers of a run's writers: few, so that their slots meet.
const WRITER_IDS: [[u8; 3]; 4] = [[1, 2, 64], [3, 5, 4], [63, 64, 1], [7, 62, 33]];

/// One action in so many makes a client again: with more of them few operations would finish.
const MADE_AGAIN_IN: usize = 500;

/// Below the 1,048,576 bytes that the proved program reads, with room for the longest line.
const SCRIPT_BYTES: usize = 990_000;

/// An operation that is done.
pub struct Finished {
    pub is_view: bool,
    pub done: Done,
    /// The replies that it counted: those to its last message, and with a write-back the CARDs of that timestamp.
    pub counted: Vec<Message>,
    /// Whether its client has taken or built a prepared proof, in this operation or an earlier one.
    pub had_proof: bool,
    /// What the replicas hold by then in its register.
    pub held: Vec<Timestamp>,
}

#[derive(Default)]
pub struct Script {
    pub lines: Vec<String>,
    pub expected: Vec<Output>,
    pub finished: Vec<Finished>,
    /// What shows in no answer by itself, by column and row of the tally.
    pub noted: BTreeMap<(&'static str, &'static str), usize>,
    /// Of the lines, with their ends.
    pub bytes: usize,
    pub player: Player,
}

impl Script {
    fn is_full(&self) -> bool {
        self.bytes > SCRIPT_BYTES
    }

    pub fn add(&mut self, line: String) -> &Output {
        self.expected.push(self.player.play(&line));
        self.bytes += line.len() + 1;
        self.lines.push(line);
        &self.expected[self.expected.len() - 1]
    }

    /// Hands an order to a replica that is set up, or to none.
    fn hand_order(&mut self, id: u8, order: &[u8]) {
        let replica = self.player.replica(id);
        let client = order.get(2).copied().unwrap_or(0);
        let again = replica.is_some_and(|replica| replica.withdrawn.contains(&client));
        if *self.add(format!("{ORDER} {id} {}", hex(order))) != Output::Taken {
            return;
        }
        if again {
            self.note(ORDER, AGAIN);
        }
        if is_viewer(client) {
            self.note(ORDER, SCREEN);
        }
    }

    fn note(&mut self, column: &'static str, row: &'static str) {
        *self.noted.entry((column, row)).or_default() += 1;
    }

    /// Those of the rows that occurred.
    fn note_those<const N: usize>(
        &mut self,
        column: &'static str,
        rows: [(&'static str, bool); N],
    ) {
        for (row, _) in rows.into_iter().filter(|(_, occurred)| *occurred) {
            self.note(column, row);
        }
    }
}

#[derive(Clone, Copy)]
enum Party {
    Replica(u8),
    /// Of either kind, which its number tells.
    Client(u8),
}

impl Party {
    /// The call by which it is handed a message.
    fn call(self) -> &'static str {
        match self {
            Party::Replica(_) => "to-replica",
            Party::Client(id) if is_viewer(id) => "to-viewer",
            Party::Client(_) => "to-client",
        }
    }
}

fn is_viewer(id: u8) -> bool {
    VIEWERS.contains(&id)
}

/// What a script calls a client with this number.
fn noun(id: u8) -> &'static str {
    if is_viewer(id) {
        "viewer"
    } else {
        "client"
    }
}

/// A message on its way, signed.
#[derive(Clone)]
struct Mail {
    to: Party,
    number: usize,
    message: Message,
}

/// How a run goes: the weights of its actions, then percentages.
struct Style {
    begin: usize,
    deliver: usize,
    hand_to_busy: usize,
    forge_reply: usize,
    forge_request: usize,
    garbage: usize,
    disk: usize,
    set_up: usize,
    stray: usize,
    defects: usize,
    losses: usize,
    repeats: usize,
}

const LEGAL: Style = Style {
    begin: 8,
    deliver: 92,
    hand_to_busy: 1,
    forge_reply: 0,
    forge_request: 0,
    garbage: 0,
    disk: 0,
    set_up: 0,
    stray: 0,
    defects: 0,
    losses: 4,
    repeats: 8,
};
const DAMAGED: Style = Style {
    garbage: 5,
    disk: 3,
    set_up: 2,
    stray: 1,
    defects: 30,
    forge_request: 3,
    ..LEGAL
};
const BYZANTINE: Style = Style {
    forge_reply: 40,
    forge_request: 40,
    ..DAMAGED
};
const FORGED_QUORUMS: Style = Style {
    begin: 12,
    deliver: 4,
    forge_reply: 84,
    forge_request: 0,
    defects: 20,
    ..DAMAGED
};
const FAULTY_CLIENTS: Style = Style {
    begin: 1,
    deliver: 4,
    forge_request: 90,
    disk: 4,
    defects: 25,
    ..DAMAGED
};

/// What the generator knows of a client from its answers.
#[derive(Clone)]
struct ClientView {
    id: u8,
    busy: bool,
    /// Of the operation begun last.
    register: u8,
    is_write: bool,
    /// The registers of its finished writes.
    wrote: BTreeSet<u8>,
    /// The timestamps of the written proofs that it was handed and shows, by register.
    handed: BTreeMap<u8, Timestamp>,
    /// The kind of reply to the message sent last, and what replies to its operation have to name.
    awaited: u8,
    nonce: u64,
    timestamp: Timestamp,
    digest: Digest,
    /// All forged replies of the operation show this timestamp, so that reads without a write-back happen too.
    shows: Option<Timestamp>,
    /// As in `Finished`.
    counted: Vec<Message>,
    had_proof: bool,
}

impl ClientView {
    fn new(id: u8) -> ClientView {
        ClientView {
            id,
            busy: false,
            register: 1,
            is_write: false,
            wrote: BTreeSet::new(),
            handed: BTreeMap::new(),
            awaited: CARD,
            nonce: 1,
            timestamp: Timestamp {
                count: 1,
                client: id,
            },
            digest: [0; 32],
            shows: None,
            counted: Vec::new(),
            had_proof: false,
        }
    }

    /// After nonce 2^64 - 1 it begins nothing.
    fn is_used_up(&self) -> bool {
        !self.busy && self.nonce == u64::MAX
    }

    fn note_taken(&mut self, reply: Message) {
        self.had_proof |= reply.prepared.is_some();
        self.counted.push(reply);
    }

    fn note_sent(&mut self, sent: Message) {
        self.busy = true;
        self.had_proof |= sent.prepared.is_some();
        let writes_back = self.awaited == CARD && sent.kind == WRITE;
        let written_back = sent.prepared_timestamp();
        self.counted
            .retain(|reply| writes_back && reply.prepared_timestamp() == written_back);
        self.awaited = sent.kind + 4;
        self.register = sent.register();
        if sent.nonce.is_some() {
            self.is_write = sent.kind == READ_TIMESTAMP;
        }
        self.nonce = sent.nonce.unwrap_or(self.nonce);
        self.timestamp = sent.timestamp.unwrap_or(self.timestamp);
        self.digest = sent.digest.unwrap_or(self.digest);
        if let (WRITE, Some(proof)) = (sent.kind, sent.prepared) {
            self.timestamp = proof.timestamp;
        }
    }
}

struct Run<'a> {
    random: &'a mut Random,
    script: &'a mut Script,
    office: &'a Office,
    f: u8,
    /// Of the office's keys the one that most replicas have.
    key: usize,
    style: Style,
    /// Whether last counts are shown, after which little else can happen.
    extremes: bool,
    clients: Vec<ClientView>,
    /// Clients in whose name requests are forged: few, so that their slots meet.
    senders: Vec<u8>,
    cards: Vec<Vec<u8>>,
    /// The cards' digests, and some that differ from the last one in a single bit.
    digests: Vec<Digest>,
    /// The smallest count forged at present.
    lowest_count: u32,
    mail: Vec<Mail>,
    /// Prepared proofs that clients showed, with their registers and cards.
    proofs: Vec<(u8, PreparedProof, Vec<u8>)>,
    /// Written proofs that clients showed, or that were gathered.
    written: Vec<Written>,
    /// The signatures of all WRITTENs, by register and timestamp, then by replica.
    said_written: BTreeMap<(u8, Timestamp), BTreeMap<u8, Signature>>,
    /// PREPAREs that show a handed proof, without their signatures.
    handed_prepares: BTreeSet<Vec<u8>>,
    /// Orders without defects, which go to several replicas.
    orders: Vec<Vec<u8>>,
    kept_replicas: BTreeSet<u8>,
    kept_clients: BTreeMap<u8, ClientView>,
}

/// A script of runs, one after the other.
pub fn script(random: &mut Random, office: &Office) -> Script {
    let mut script = Script::default();
    while !script.is_full() {
        add_run(random, &mut script, office);
    }
    script
}

/// A run behind what the script has.
pub fn add_run(random: &mut Random, script: &mut Script, office: &Office) {
    if random.below(office.one_in) < WITHDRAWALS {
        Withdrawal::new(random, script, office).play();
    } else {
        Run::new(random, script, office).play();
    }
}

/// A script with a replica 1 that has this key.
fn with_replica(key: &[u8]) -> Script {
    let mut script = Script::default();
    script.add(format!("replica 1 1 {}", hex(key)));
    script
}

/// A request of each kind from each number at one replica, so that none is left to chance; first it is handed these orders,
/// each three times.
fn every_sender(random: &mut Random, key: &[u8], orders: &[Vec<u8>]) -> Script {
    let mut script = with_replica(key);
    for order in [orders; 3].concat() {
        script.hand_order(1, &order);
    }
    for kind in READ_TIMESTAMP..=READ {
        for sender in 0..=u8::MAX {
            let request = sound(random, kind, sender, 1, 1);
            script.add(format!("to-replica 1 {} +", hex(&request.encode())));
        }
    }
    script
}

/// A READ with nonce 1.
fn first_read(sender: u8, register: u8) -> Message {
    Message {
        nonce: Some(1),
        ..Message::new(READ, sender, register)
    }
}

fn hand_read(script: &mut Script, sender: u8) {
    let request = first_read(sender, 1);
    script.add(format!("to-replica 1 {} +", hex(&request.encode())));
}

/// An order against each number, genuine all the same, then a READ of that number and of the next one.
fn every_order(random: &mut Random, office: &Office) -> Script {
    let mut script = with_replica(&office.key(0));
    for client in 0..=u8::MAX {
        script.hand_order(1, &office.order(random, 0, client));
        hand_read(&mut script, client);
        hand_read(&mut script, client.wrapping_add(1));
    }
    script
}

/// An order with a bit changed in each part, and orders with leaves of the tree and others, under keys that are made for them.
fn every_part(random: &mut Random, office: &Office) -> Script {
    let mut script = with_replica(&office.key(0));
    let order = office.order(random, 0, 1);
    for part in parts() {
        let mut spoiled = order.clone();
        flip(random, &mut spoiled, part);
        script.hand_order(1, &spoiled);
    }
    for leaf in (0..=34).chain([63, 64, 255, 1 << 16, 1 << 31, u32::MAX]) {
        let (order, key) = order_and_key(random, 1, leaf);
        script.add(format!("replica 1 1 {}", hex(&key)));
        script.hand_order(1, &order);
    }
    script
}

/// Every request and every beginning for each number of a register.
fn every_register(random: &mut Random) -> Script {
    let mut script = with_replica(&ZERO_KEY);
    for kind in [WRITE, PREPARE, READ_TIMESTAMP, READ] {
        for register in 0..=u8::MAX {
            let request = sound(random, kind, 1, register, 1);
            script.add(format!("to-replica 1 {} +", hex(&request.encode())));
        }
    }
    for register in 0..=u8::MAX {
        script.add("client 1 1 1".to_string());
        script.add(format!("write 1 {register} 0000"));
        for id in [1, 65] {
            begin_afresh(&mut script, id, register);
        }
    }
    script
}

/// A reply for each number of a register, to a client and a viewing client that wait for this one.
fn every_reply(awaited: u8) -> Script {
    let mut script = Script::default();
    for id in [1, 65] {
        begin_afresh(&mut script, id, awaited);
        for register in 0..=u8::MAX {
            hand_first_card(&mut script, id, register);
        }
    }
    script
}

/// What every comparison begins with. The replies are a script for each register: `script_player` takes 1 MiB of one.
pub fn fixed(random: &mut Random, office: &Office) -> Vec<Script> {
    let odd_clients = CLIENTS.step_by(2);
    let orders: Vec<_> = odd_clients
        .map(|client| office.order(random, 0, client))
        .collect();
    let mut scripts = vec![
        every_sender(random, &ZERO_KEY, &[]),
        every_sender(random, &office.key(0), &orders),
        every_order(random, office),
        every_part(random, office),
        every_register(random),
        every_handing(random),
        outlasting(random),
    ];
    scripts.extend(REGISTERS.map(every_reply));
    scripts
}

/// A read or a view by a party with no other operation.
fn begin_afresh(script: &mut Script, id: u8, register: u8) {
    let verb = if is_viewer(id) { "view" } else { "read" };
    script.add(format!("{} 1 {id} 1", noun(id)));
    script.add(format!("{verb} {id} {register}"));
}

/// The reply to a first READ that shows the starting card, for some register.
fn hand_first_card(script: &mut Script, id: u8, register: u8) {
    let reply = Message {
        nonce: Some(1),
        card: Some(STARTING_CARD.to_vec()),
        addressed: Some(id),
        ..Message::new(CARD, 1, register)
    };
    let call = Party::Client(id).call();
    script.add(format!("{call} {id} {} +", hex(&reply.encode())));
}

/// What a message's signature covers.
fn covered(message: &[u8]) -> &[u8] {
    &message[..message.len() - 64]
}

/// The signing box: bytes that hang on all that is signed, which names the sender.
fn sign(message: &mut Message) {
    let bytes = message.encode();
    let mix = |seed: u64, &byte: &u8| (seed ^ u64::from(byte)).wrapping_mul(0x100_0000_01b3);
    let seed = covered(&bytes).iter().fold(0, mix);
    message.signature = Random::new(seed).bytes();
}

/// The verdict on the entries of a proof that was shown or gathered for these registers: their signatures are genuine for no
/// other. Another proof is taken for genuine.
fn entry_verdict(register: Option<u8>, shown_for: impl Iterator<Item = u8>) -> u8 {
    let mut shown_for = shown_for.peekable();
    let is_known = shown_for.peek().is_some();
    u8::from(!is_known || shown_for.any(|known| Some(known) == register))
}

impl<'a> Run<'a> {
    fn new(random: &'a mut Random, script: &'a mut Script, office: &'a Office) -> Run<'a> {
        let f = 1 + random.weighted(&[50, 20, 12, 9, 9]) as u8;
        let style = [LEGAL, DAMAGED, BYZANTINE, FORGED_QUORUMS, FAULTY_CLIENTS];
        let style = style
            .into_iter()
            .nth(random.weighted(&[10, 20, 25, 25, 20]))
            .unwrap();
        let ids = random.pick(&WRITER_IDS)[..1 + random.below(3)].to_vec();
        let viewers = [[65, 96], [66, 65], [96, 95], [80, 77]];
        let viewers = &random.pick(&viewers)[..random.below(3)];
        let all = ids.iter().chain(viewers);
        let clients = all.map(|&id| ClientView::new(id)).collect();
        let mut senders = ids;
        senders.push(random.pick(&[1, 2, 6, 64]));
        let cards = vec![STARTING_CARD.to_vec(), good_card(random), good_card(random)];
        let mut digests: Vec<Digest> = cards.iter().map(|card| sha256(card)).collect();
        for at in [0, 31, random.below(32)] {
            let mut near = digests[2];
            near[at] ^= 1 << random.below(8);
            digests.push(near);
        }
        Run {
            f,
            key: random.below(KEYS),
            style,
            extremes: random.percent(45),
            clients,
            senders,
            cards,
            digests,
            lowest_count: random.pick(&[1, 1, 1, 1, 1, 254, 65_534, 0x00ff_fffe, 0x7fff_fffe]),
            mail: Vec::new(),
            proofs: Vec::new(),
            written: Vec::new(),
            said_written: BTreeMap::new(),
            handed_prepares: BTreeSet::new(),
            orders: Vec::new(),
            kept_replicas: BTreeSet::new(),
            kept_clients: BTreeMap::new(),
            random,
            script,
            office,
        }
    }

    fn play(&mut self) {
        self.script.add("new".to_string());
        for id in 1..=replicas(self.f) {
            let key = self.some_key(8);
            self.script
                .add(format!("replica {} {id} {}", self.f, hex(&key)));
        }
        for at in 0..self.clients.len() {
            self.set_up_client(self.clients[at].id);
        }
        if self.random.percent(8) {
            self.replace_laptop();
        }
        for _ in 0..100 + 80 * usize::from(self.f) {
            if self.script.is_full() {
                return;
            }
            self.act();
        }
    }

    fn set_up_client(&mut self, id: u8) {
        let nonce = self.first_nonce();
        self.script
            .add(format!("{} {} {id} {nonce}", noun(id), self.f));
        self.note_fresh(id);
    }

    fn note_fresh(&mut self, id: u8) {
        if let Some(client) = self.client(id) {
            *client = ClientView::new(id);
        }
    }

    fn first_nonce(&mut self) -> u64 {
        let any = self.random.number().max(1);
        self.random.pick(&[
            1,
            1,
            1,
            1,
            254,
            u64::from(u32::MAX),
            any,
            any,
            u64::MAX - 3,
            u64::MAX - 1,
            u64::MAX,
        ])
    }

    fn act(&mut self) {
        if self.random.percent(2) {
            self.lowest_count = self.lowest_count.saturating_add(1);
        }
        if self.random.below(self.office.one_in) == 0 {
            return self.hand_order();
        }
        if self.random.below(MADE_AGAIN_IN) == 0 {
            return self.make_some_again();
        }
        let style = &self.style;
        let weights = [
            style.begin,
            style.deliver,
            style.hand_to_busy,
            style.forge_reply,
            style.forge_request,
            style.garbage,
            style.disk,
            style.set_up,
            style.stray,
        ];
        match self.random.weighted(&weights) {
            0 => self.begin(),
            1 => self.deliver(),
            2 => self.hand_proof_to_busy(),
            3 => self.forge_reply(),
            4 => self.forge_request(),
            5 => self.hand_garbage(),
            6 => self.keep_or_restore(),
            7 => self.set_up(),
            _ => self.stray_line(),
        }
    }

    /// A client begins, most often an idle one. Some writers are handed a written proof before that.
    fn begin(&mut self) {
        let idle = self.clients_that_are(false);
        let with_defects = self.style.defects > 0;
        let at = match idle.is_empty() {
            false => self.random.pick(&idle),
            true if with_defects && self.random.percent(30) => {
                self.random.below(self.clients.len())
            }
            true => return self.deliver(),
        };
        let id = self.clients[at].id;
        // one that is used up is soon set up afresh
        let is_used_up = self.clients[at].is_used_up();
        let percent = if is_used_up { 60 } else { 20 };
        if !is_viewer(id) && self.random.percent(percent) {
            self.hand_proof(at);
        }
        let wrote: Vec<u8> = self.clients[at].wrote.iter().copied().collect();
        let handed: Vec<u8> = self.clients[at].handed.keys().copied().collect();
        let register = match self.random.below(20) {
            0 | 1 if with_defects => bad_register(self.random),
            2..=13 if wrote.len() > 1 => self.random.pick(&wrote),
            2..=15 if !handed.is_empty() => self.random.pick(&handed),
            _ => good_register(self.random),
        };
        let begun = match is_viewer(id) {
            true => format!("view {id} {register}"),
            false if self.random.percent(40) => format!("read {id} {register}"),
            false => format!("write {id} {register} {}", hex(&self.card_to_write())),
        };
        let lent = self.lent(40);
        self.play_line(Party::Client(id), format!("{lent}{begun}"), &[]);
    }

    fn card_to_write(&mut self) -> Vec<u8> {
        let with_defects = self.style.defects > 0;
        match self.random.below(10) {
            0 if with_defects => bad_card(self.random),
            0..=4 => self.random.pick(&self.cards),
            _ => good_card(self.random),
        }
    }

    /// How a call's line begins: so many of 100 say how long an output the call is lent. Where nothing is damaged none is too short.
    fn lent(&mut self, percent: usize) -> String {
        if !self.random.percent(percent) {
            return String::new();
        }
        let room = room(self.random);
        let room = if self.style.defects > 0 {
            room
        } else {
            room.max(LONGEST_MESSAGE)
        };
        format!("lent {room} ")
    }

    /// Plays a call and takes note of its answer. `handed` is the message that is handed over, empty where none is.
    fn play_line(&mut self, party: Party, line: String, handed: &[u8]) -> Output {
        let answer = self.script.add(line).clone();
        if !matches!(answer, Output::Refused(_) | Output::Unread) {
            self.note_taken(party, handed);
        }
        match (answer.clone(), party) {
            (Output::Sent(number, message), _) => {
                let mut message = Message::decode(&message).expect("a party sends whole messages");
                sign(&mut message);
                self.post(party, number, message, handed.get(3).copied());
            }
            (Output::Done(done), Party::Client(id)) => self.note_done(id, done),
            (Output::Ended, Party::Client(id)) => self.note_end(id),
            (Output::Refused(17), Party::Client(id)) => self.renew(id),
            (Output::Refused(18), Party::Client(id)) => self.note_elsewhere(id, handed),
            _ => (),
        }
        answer
    }

    /// What a client sent goes to all replicas, what a replica sent to the client that asked.
    fn post(&mut self, from: Party, number: usize, message: Message, asking: Option<u8>) {
        let receivers: Vec<Party> = match from {
            Party::Client(_) => (1..=replicas(self.f)).map(Party::Replica).collect(),
            Party::Replica(_) => asking
                .and_then(|id| self.client(id))
                .map(|client| Party::Client(client.id))
                .into_iter()
                .collect(),
        };
        for to in receivers {
            self.mail.push(Mail {
                to,
                number,
                message: message.clone(),
            });
        }
        let most = 8 * usize::from(replicas(self.f));
        self.mail.drain(..self.mail.len().saturating_sub(most));
        match from {
            Party::Client(id) => self.note_sent(id, message),
            Party::Replica(_) => self.note_reply(message),
        }
    }

    fn note_reply(&mut self, reply: Message) {
        if let (WRITTEN, Some(timestamp)) = (reply.kind, reply.timestamp) {
            let said = (reply.register(), timestamp);
            let signatures = self.said_written.entry(said).or_default();
            signatures.insert(reply.sender, reply.signature);
        }
    }

    fn client(&mut self, id: u8) -> Option<&mut ClientView> {
        self.clients.iter_mut().find(|client| client.id == id)
    }

    fn clients_that_are(&self, busy: bool) -> Vec<usize> {
        let all = 0..self.clients.len();
        all.filter(|&at| self.clients[at].busy == busy).collect()
    }

    /// An idle client is refused 17 for good: some are set up afresh.
    fn renew(&mut self, id: u8) {
        let spent = self.client(id).is_some_and(|client| !client.busy);
        if spent && self.random.percent(60) {
            self.set_up_client(id);
        }
    }

    /// A message was handed over and not refused.
    fn note_taken(&mut self, party: Party, handed: &[u8]) {
        let Ok(message) = Message::decode(handed) else {
            return;
        };
        match party {
            Party::Replica(id) if message.kind == WRITE => self.note_write(id, &message),
            Party::Replica(_) => (),
            Party::Client(id) => {
                if let Some(client) = self.client(id) {
                    client.note_taken(message);
                }
            }
        }
    }

    fn note_write(&mut self, id: u8, request: &Message) {
        let (Some(replica), Some(proof)) = (self.script.player.replica(id), &request.prepared)
        else {
            return;
        };
        let own = &replica.registers[&request.register()];
        if own.timestamp() != proof.timestamp {
            return;
        }
        // of one timestamp there is one card in a register
        let mut others = replica.registers.values();
        let has_twin =
            others.any(|other| other.timestamp() == own.timestamp() && other.card() != own.card());
        let is_rival = proof.signers() != own.signers();
        let call = Party::Replica(id).call();
        if has_twin {
            self.script.note(call, TWIN);
        }
        if is_rival {
            self.script.note(call, RIVAL);
        }
    }

    /// A reply was refused with 18: is its register the only reason?
    fn note_elsewhere(&mut self, id: u8, handed: &[u8]) {
        let register = self.client(id).map(|client| client.register);
        let Ok(reply) = Message::decode(handed) else {
            return;
        };
        if reply.register == register {
            return;
        }
        let awaited = Message { register, ..reply }.encode();
        let genuine = all_genuine(&awaited);
        let player = &self.script.player;
        let taken = if is_viewer(id) {
            let viewer = player.viewer(id).cloned();
            viewer.map(|mut viewer| viewer.receive(&awaited, &genuine, LONGEST_MESSAGE))
        } else {
            let client = player.client(id).cloned();
            client.map(|mut client| client.receive(&awaited, &genuine, LONGEST_MESSAGE))
        };
        if taken.is_some_and(|answer| answer.is_ok()) {
            self.script.note(Party::Client(id).call(), ELSEWHERE);
        }
    }

    fn note_done(&mut self, id: u8, done: Done) {
        let register = self.client(id).map_or(1, |client| client.register);
        let held = self.script.player.held(register);
        if let Some(client) = self.client(id) {
            if client.is_write {
                client.wrote.insert(register);
                client.handed.remove(&register);
            }
            let finished = Finished {
                is_view: is_viewer(id),
                done,
                counted: client.counted.clone(),
                had_proof: client.had_proof,
                held,
            };
            self.script.finished.push(finished);
        }
        self.note_end(id);
    }

    fn note_end(&mut self, id: u8) {
        if let Some(client) = self.client(id) {
            client.busy = false;
        }
    }

    fn note_sent(&mut self, id: u8, sent: Message) {
        let register = sent.register();
        if let (Some(proof), Some(card)) = (&sent.prepared, &sent.card) {
            self.proofs.push((register, proof.clone(), card.clone()));
        }
        let written = sent
            .written
            .clone()
            .map(|proof| Written { register, proof });
        self.written.extend(written);
        if sent.kind == PREPARE {
            self.note_prepare(id, &sent);
        }
        let begins = sent.nonce.is_some();
        let shows = match self.random.below(10) {
            0..=3 => Some(self.some_timestamp()),
            4..=5 => Some(Timestamp::START),
            _ => None,
        };
        if let Some(client) = self.client(id) {
            client.shows = if begins { shows } else { client.shows };
            client.note_sent(sent);
        }
    }

    /// A client that was handed a written proof of this register shows that; one that has written other registers shows its own
    /// of this one, or none.
    fn note_prepare(&mut self, id: u8, sent: &Message) {
        let register = sent.register();
        let Some(client) = self.client(id) else {
            return;
        };
        let wrote_others = client.wrote.iter().any(|&other| other != register);
        let row = match (client.handed.contains_key(&register), &sent.written) {
            (true, _) => HANDED,
            (false, Some(_)) if wrote_others => OWN_PROOF,
            (false, None) if wrote_others => NO_PROOF,
            _ => return,
        };
        self.script.note(Party::Client(id).call(), row);
        if row == HANDED {
            let bytes = sent.encode();
            self.handed_prepares.insert(covered(&bytes).to_vec());
        }
    }

    /// Hands over a message; `number` names one that was sent, with zeros for its signature.
    fn hand(&mut self, party: Party, delivery: Delivery, number: Option<usize>) -> Output {
        let Delivery { message, verdicts } = &delivery;
        let lent = self.lent(14);
        let verdicts = self.verdicts_word(verdicts, all_genuine(message));
        let word = number.map_or(hex(message), |number| format!("@{number}"));
        let (Party::Replica(id) | Party::Client(id)) = party;
        let line = format!("{lent}{} {id} {word} {verdicts}", party.call());
        let rows = match party {
            Party::Replica(id) => self.proof_rows(id, message),
            Party::Client(_) => None,
        };
        let answer = self.play_line(party, line, message);
        if let Party::Replica(id) = party {
            self.note_shut_out(id, &delivery, &answer);
        }
        if let (Output::Sent(..), Some(rows)) = (&answer, rows) {
            self.script.note_those(party.call(), rows);
        }
        answer
    }

    /// Verdicts as a line has them; `genuine` is what `+` stands for.
    fn verdicts_word(&mut self, verdicts: &[u8], genuine: Vec<u8>) -> String {
        if verdicts == genuine && self.random.percent(70) {
            "+".to_string()
        } else {
            hex(verdicts)
        }
    }

    fn withdrawn_at(&self, replica: u8) -> Vec<u8> {
        let replica = self.script.player.replica(replica);
        replica.map_or(Vec::new(), |replica| {
            replica.withdrawn.iter().copied().collect()
        })
    }

    /// Of a withdrawn client's message 8 is tested before 23, and 9 to 11 behind it.
    fn note_shut_out(&mut self, id: u8, delivery: &Delivery, answer: &Output) {
        let Some(replica) = self.script.player.replica(id) else {
            return;
        };
        let Delivery { message, verdicts } = delivery;
        let nobody = BTreeSet::new();
        let row = match answer {
            Output::Refused(8) if replica.withdrawn.contains(&message[3]) => FORGED,
            Output::Refused(23)
                if Receiver::Replica
                    .check(message, verdicts, replica.f, &nobody)
                    .is_err() =>
            {
                UNPROVED
            }
            _ => return,
        };
        self.script.note(Party::Replica(id).call(), row);
    }

    /// With defects as often as the style has them.
    fn hand_message(&mut self, party: Party, message: Message) {
        if self.random.percent(self.style.defects) {
            let delivery = spoiled(self.random, message, self.f);
            self.hand(party, delivery, None);
            return;
        }
        let mut delivery = self.judged(&message);
        let has_foreign = delivery.verdicts.contains(&0);
        let shut_out =
            matches!(party, Party::Replica(id) if self.withdrawn_at(id).contains(&message.sender));
        if shut_out && self.random.percent(15) {
            let at = self.random.below(delivery.verdicts.len());
            delivery.verdicts[at] = 0;
        }
        if self.hand(party, delivery, None) == Output::Refused(10) && has_foreign {
            self.script.note(party.call(), FOREIGN);
        }
    }

    /// With the verdicts of the signing box, which knows the proofs that were shown or gathered.
    fn judged(&self, message: &Message) -> Delivery {
        let register = message.register;
        let prepared = message.prepared.iter().flat_map(|proof| {
            let shown = self.proofs.iter().filter(|(_, shown, _)| shown == proof);
            let verdict = entry_verdict(register, shown.map(|shown| shown.0));
            vec![verdict; proof.entries.len()]
        });
        let written = message.written.iter();
        let written = written.flat_map(|proof| self.written_verdicts(register, proof));
        Delivery {
            message: message.encode(),
            verdicts: [1].into_iter().chain(prepared).chain(written).collect(),
        }
    }

    /// The same of a written proof that is shown or handed over for a register.
    fn written_verdicts(&self, register: Option<u8>, proof: &WrittenProof) -> Vec<u8> {
        let known = self.written.iter().filter(|known| known.proof == *proof);
        let verdict = entry_verdict(register, known.map(|known| known.register));
        vec![verdict; proof.entries.len()]
    }

    /// Delivers a message, most often a young one; some are lost, some stay to be repeated.
    fn deliver(&mut self) {
        if self.mail.is_empty() {
            return;
        }
        let young = self.mail.len().min(2 * usize::from(replicas(self.f)));
        let old = self.mail.len() - young;
        let at = if self.random.percent(80) {
            old + self.random.below(young)
        } else {
            self.random.below(old + young)
        };
        let repeats = self.random.percent(self.style.repeats);
        let mail = if repeats {
            self.mail[at].clone()
        } else {
            self.mail.remove(at)
        };
        if self.random.percent(self.style.losses) {
            return;
        }
        let misrouted = self.style.defects > 0 && self.random.percent(3);
        let to = if misrouted { self.any_party() } else { mail.to };
        if mail.number <= KEPT_MESSAGES && self.random.percent(10) {
            let unsigned = Message {
                signature: [0; 64],
                ..mail.message
            };
            self.hand(to, whole(&unsigned), Some(mail.number));
            return;
        }
        self.hand_message(to, mail.message);
    }

    fn any_party(&mut self) -> Party {
        if self.random.percent(50) {
            Party::Replica(self.any_replica())
        } else {
            Party::Client(self.clients[self.random.below(self.clients.len())].id)
        }
    }

    fn any_replica(&mut self) -> u8 {
        1 + self.random.below(replicas(self.f).into()) as u8
    }

    /// Most often replica 1, so that one record grows old.
    fn favoured_replica(&mut self) -> u8 {
        let any = self.any_replica();
        self.random.pick(&[1, 1, 1, any, any])
    }

    /// Few counts and clients, so that timestamps meet; in some runs the last counts too.
    fn some_timestamp(&mut self) -> Timestamp {
        let near = self
            .lowest_count
            .saturating_add(self.random.pick(&[0, 0, 1, 1, 2]));
        let count = match self.random.below(28) {
            0 if self.extremes => u32::MAX,
            1 if self.extremes => u32::MAX - 1,
            _ => near,
        };
        Timestamp {
            count,
            client: self.random.pick(&self.senders),
        }
    }

    /// A proof with its card: one that was sent, now and then for another register than this one, or a forged one.
    fn some_proof(
        &mut self,
        register: u8,
        timestamp: Option<Timestamp>,
    ) -> (PreparedProof, Vec<u8>) {
        if timestamp.is_none() && self.random.percent(30) {
            let any_register = self.random.percent(20);
            let fits = |known: &&(u8, PreparedProof, Vec<u8>)| any_register || known.0 == register;
            let known: Vec<_> = self.proofs.iter().filter(fits).cloned().collect();
            if !known.is_empty() {
                let (_, proof, card) = self.random.pick(&known);
                return (proof, card);
            }
        }
        let timestamp = timestamp.unwrap_or_else(|| self.some_timestamp());
        let card = self.random.pick(&self.cards);
        (
            prepared_proof(self.random, timestamp, sha256(&card), self.f),
            card,
        )
    }

    /// A reply from any replica, most often one that its client awaits.
    fn forge_reply(&mut self) {
        let busy = self.clients_that_are(true);
        if busy.is_empty() && self.random.percent(90) {
            return self.begin();
        }
        let any = self.random.below(self.clients.len());
        let at = if busy.is_empty() {
            any
        } else {
            self.random.pick(&busy)
        };
        let reply = self.reply_to(at);
        self.hand_message(Party::Client(self.clients[at].id), reply);
    }

    fn reply_to(&mut self, at: usize) -> Message {
        let ClientView {
            id,
            register,
            awaited,
            nonce,
            timestamp,
            digest,
            shows,
            ..
        } = self.clients[at];
        let any_kind = TIMESTAMP + self.random.below(4) as u8;
        let misfit = self.style.defects > 0 && self.random.percent(6);
        let kind = if misfit { any_kind } else { awaited };
        let elsewhere = self.style.defects > 0 && self.random.percent(6);
        let register = if elsewhere {
            good_register(self.random)
        } else {
            register
        };
        let mut reply = Message::new(kind, self.any_replica(), register);
        reply.signature = self.random.bytes();
        if kind == PREPARED || kind == WRITTEN {
            reply.timestamp = Some(timestamp);
            reply.digest = Some(digest).filter(|_| kind == PREPARED);
        } else {
            let (proof, card) = self.shown(register, shows);
            reply.nonce = Some(nonce);
            reply.addressed = Some(id);
            reply.prepared = proof;
            reply.card = Some(card).filter(|_| kind == CARD);
        }
        reply
    }

    fn shown(
        &mut self,
        register: u8,
        shows: Option<Timestamp>,
    ) -> (Option<PreparedProof>, Vec<u8>) {
        let shows = shows.filter(|_| self.random.percent(97));
        if shows == Some(Timestamp::START) || shows.is_none() && self.random.percent(20) {
            return (None, STARTING_CARD.to_vec());
        }
        let (proof, card) = self.some_proof(register, shows);
        (Some(proof), card)
    }

    /// A request in the name of some client.
    fn forge_request(&mut self) {
        let replica = self.favoured_replica();
        let withdrawn = self.withdrawn_at(replica);
        let sender = match self.random.below(100) {
            0..=19 if !withdrawn.is_empty() => self.random.pick(&withdrawn),
            0..=89 => self.random.pick(&self.senders),
            90..=95 => 1 + self.random.byte() % 64,
            _ => self.random.byte(),
        };
        let signature = self.random.bytes();
        // a viewing client may only READ
        let read = if is_viewer(sender) { 400 } else { 15 };
        let kind = 1 + self.random.weighted(&[12, 46, 27, read]) as u8;
        let register = good_register(self.random);
        let mut request = Message {
            signature,
            ..Message::new(kind, sender, register)
        };
        match kind {
            PREPARE => self.fill_prepare(&mut request),
            WRITE => {
                let (proof, card) = self.some_proof(register, None);
                request.card = Some(card);
                request.prepared = Some(proof);
            }
            _ => {
                let any = self.random.number();
                request.nonce = Some(self.random.pick(&[0, 1, u64::MAX, any]));
            }
        }
        self.hand_message(Party::Replica(replica), request);
    }

    fn fill_prepare(&mut self, request: &mut Message) {
        let sender = request.sender;
        if self.random.percent(85) {
            request.prepared = Some(self.some_proof(request.register(), None).0);
        }
        let successor = request.prepared_timestamp().successor(sender);
        request.timestamp = Some(successor.unwrap_or(Timestamp {
            count: u32::MAX,
            client: sender,
        }));
        request.digest = Some(self.random.pick(&self.digests));
        if self.random.percent(45) {
            request.written = Some(self.some_written_proof());
        }
    }

    /// Of any client.
    fn some_written_proof(&mut self) -> WrittenProof {
        if !self.written.is_empty() && self.random.percent(10) {
            return self.random.pick(&self.written).proof;
        }
        let timestamp = self.some_timestamp();
        written_proof(self.random, timestamp, self.f)
    }

    fn hand_garbage(&mut self) {
        let party = self.any_party();
        let delivery = garbage(self.random);
        self.hand(party, delivery, None);
    }

    fn keep_or_restore(&mut self) {
        if self.random.percent(50) {
            self.keep_or_restore_client();
        } else {
            self.keep_or_restore_replica();
        }
    }

    fn keep_or_restore_replica(&mut self) {
        let id = self.favoured_replica();
        let command = if self.kept_replicas.contains(&id) && self.random.percent(60) {
            "restore"
        } else {
            "keep"
        };
        self.kept_replicas.insert(id);
        self.script.add(format!("{command} replica {id}"));
    }

    /// What the generator knows of the client goes with the record.
    fn keep_or_restore_client(&mut self) {
        let at = self.random.below(self.clients.len());
        let client = &mut self.clients[at];
        let id = client.id;
        match self.kept_clients.get(&id) {
            Some(kept) if self.random.percent(60) => {
                *client = kept.clone();
                self.script.add(format!("restore {} {id}", noun(id)));
            }
            _ => {
                self.kept_clients.insert(id, client.clone());
                self.script.add(format!("keep {} {id}", noun(id)));
            }
        }
    }

    /// Mostly out of range; else the party starts afresh.
    fn set_up(&mut self) {
        let f = self.random.pick(&[0, 1, 2, 3, 4, 5, 6, 255]);
        if self.random.percent(50) {
            let n = replicas(f.clamp(1, 5));
            let id = self
                .random
                .pick(&[0, 1, 1, 1, n, n, n + 1, n + 1, 17, 65, 255]);
            let key = self.key_to_set_up();
            let line = format!("replica {f} {id} {}", hex(&key));
            let good_numbers = FAULT_BOUNDS.contains(&f) && (1..=n).contains(&id);
            match *self.script.add(line) {
                Output::Ready => drop(self.kept_replicas.remove(&id)),
                Output::Refused(_) if good_numbers => self.script.note("replica", BAD_KEY),
                _ => (),
            }
        } else {
            let id = self.random.pick(&[0, 1, 64, 65, 96, 97, 255]);
            let nonce = self.random.pick(&[0, 0, 1, u64::MAX]);
            let noun = self.random.pick(&["client", "viewer"]);
            if *self.script.add(format!("{noun} {f} {id} {nonce}")) == Output::Ready {
                self.note_fresh(id);
            }
        }
    }

    /// One of the office's keys; so often of 100 another than most replicas have.
    fn some_key(&mut self, percent: usize) -> Vec<u8> {
        let other = usize::from(self.random.percent(percent));
        self.office.key((self.key + other) % KEYS)
    }

    fn key_to_set_up(&mut self) -> Vec<u8> {
        let key = self.some_key(20);
        if self.random.percent(50) {
            bad_key(self.random, key)
        } else {
            key
        }
    }

    /// An order to a replica: the office hands out each to several.
    fn hand_order(&mut self) {
        let known = !self.orders.is_empty() && self.random.percent(70);
        let order = if known {
            self.random.pick(&self.orders)
        } else {
            self.new_order()
        };
        let spoils = self.style.defects > 0 && self.random.percent(40);
        let order = if spoils {
            spoiled_order(self.random, order)
        } else {
            order
        };
        let replica = self.favoured_replica();
        self.script.hand_order(replica, &order);
    }

    fn new_order(&mut self) -> Vec<u8> {
        let client = match self.random.below(20) {
            0 => 1 + self.random.below(96) as u8,
            1..=10 => self.random.pick(&self.senders),
            _ => self.clients[self.random.below(self.clients.len())].id,
        };
        let other = usize::from(self.random.percent(8));
        let key = (self.key + other) % KEYS;
        if self.style.defects > 0 && self.random.percent(15) {
            return self.office.misfit(self.random, key, client);
        }
        let order = self.office.order(self.random, key, client);
        self.orders.push(order.clone());
        order
    }

    /// Lines that call nobody: parties that are never set up, and words that are no command.
    fn stray_line(&mut self) {
        let lines = [
            "# a comment",
            "read 40 1",
            "to-replica 17 - -",
            "to-client 65 - -",
            "to-viewer 1 - -",
            "view 1 1",
            "read 1",
            "read 1 256",
            "read 1 +1",
            "read 1 1 1",
            "view 65",
            "view 65 -",
            "write 1 0000",
            "write 1 x 0000",
            "keep replica 17",
            "replica 1 1",
            "replica 1 1 0",
            "replica 1 1 - -",
            "order 17 -",
            "order 1",
            "order 1 - -",
            "order 1 +",
            "lent 1600 order 1 -",
            "hand 40 1 - -",
            "hand 65 1 - -",
            "hand 1 1 -",
            "hand 1 1 - - -",
            "hand 1 1 @1 +",
            "hand 1 x - -",
            "hand 1 256 - -",
            "hand 1 1 0 -",
            "hand 1 1 - 0",
            "lent 1600 hand 1 1 - -",
            "keep viewer 1",
            "restore client 65",
            "restore viewer 97",
            "lent 1601 read 1 1",
            "lent 1580 new",
            "what",
        ];
        let line = self.random.pick(&lines);
        self.script.add(line.to_string());
    }
}
