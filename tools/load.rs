//! Loads an MQTT 3.1.1 broker on loopback and prints its measurements as one line of JSON.
//!
//!     load flow HOST PORT       publishers send numbered messages to subscribers
//!     load connects HOST PORT   clients connect and disconnect, one after the other
//!     load drain HOST PORT      messages wait in a queue until their subscriber comes back
//!
//! Options are `--NAME VALUE`: `seconds`, `qos`, `size` of a payload, `window` (publications of one
//! publisher that are not answered yet), `publishers`, `subscribers`, `each` (1: publisher i to
//! subscriber i, 0: all to all), `rate` (messages a second of each publisher; 0: as fast as windows
//! let), `ahead` (how far a publisher may be before its slowest subscriber), `kept` (1: the
//! subscribers' sessions are kept ones), `idle` (further clients that are connected and do
//! nothing), `parallel`, `messages`, `pid` (a process whose processor time and memory are read).
//! Each run is bounded in time. Build: `rustc --edition 2021 -O -o load tools/load.rs`.

use std::collections::{HashMap, HashSet};
use std::error::Error;
use std::io::{self, ErrorKind, Read, Write};
use std::net::TcpStream;
use std::sync::atomic::{AtomicBool, AtomicU64, Ordering::Relaxed};
use std::sync::{Arc, Barrier};
use std::thread::{self, JoinHandle};
use std::time::{Duration, Instant};

type Fault = Box<dyn Error + Send + Sync>;

const UNKNOWN: u64 = u64::MAX;
const HEADER: usize = 20;

/// What the command line asks for.
#[derive(Clone)]
struct Options {
    host: String,
    port: u16,
    given: HashMap<String, u64>,
}

impl Options {
    fn read(words: &[String]) -> Result<Options, Fault> {
        let [host, port, pairs @ ..] = words else {
            return Err("a host and a port are missing".into());
        };
        let given = pairs
            .chunks(2)
            .map(|pair| match pair {
                [name, value] => Ok((name.trim_start_matches("--").to_string(), value.parse()?)),
                _ => Err(format!("{} has no value", pair[0]).into()),
            })
            .collect::<Result<_, Fault>>()?;
        Ok(Options { host: host.clone(), port: port.parse()?, given })
    }

    fn get(&self, name: &str, usual: u64) -> u64 {
        self.given.get(name).copied().unwrap_or(usual)
    }

    fn seconds(&self) -> Duration {
        Duration::from_secs(self.get("seconds", 2))
    }
}

// ---- packets

fn put_text(out: &mut Vec<u8>, text: &str) {
    out.extend((text.len() as u16).to_be_bytes());
    out.extend(text.as_bytes());
}

fn put_length(out: &mut Vec<u8>, mut length: usize) {
    while length >= 128 {
        out.push((length % 128) as u8 | 128);
        length /= 128;
    }
    out.push(length as u8);
}

fn packet(first: u8, body: &[u8]) -> Vec<u8> {
    let mut out = vec![first];
    put_length(&mut out, body.len());
    out.extend(body);
    out
}

fn connect(name: &str, clean: bool) -> Vec<u8> {
    let mut body = Vec::new();
    put_text(&mut body, "MQTT");
    body.extend([4, u8::from(clean) << 1, 0, 0]);
    put_text(&mut body, name);
    packet(0x10, &body)
}

fn subscribe(filter: &str, qos: u8) -> Vec<u8> {
    let mut body = vec![0, 1];
    put_text(&mut body, filter);
    body.push(qos);
    packet(0x82, &body)
}

fn put_publish(out: &mut Vec<u8>, topic: &str, qos: u8, id: u16, payload: &[u8]) {
    out.push(0x30 | qos << 1);
    put_length(out, 2 + topic.len() + if qos > 0 { 2 } else { 0 } + payload.len());
    put_text(out, topic);
    if qos > 0 {
        out.extend(id.to_be_bytes());
    }
    out.extend(payload);
}

fn put_answer(out: &mut Vec<u8>, first: u8, id: &[u8]) {
    out.extend([first, 2, id[0], id[1]]);
}

// ---- a client

/// A connection, with bytes that came and were not read.
struct Client {
    stream: TcpStream,
    bytes: Vec<u8>,
    read: usize,
    filled: usize,
}

impl Client {
    fn open(options: &Options, name: &str, clean: bool) -> Result<Client, Fault> {
        let stream = TcpStream::connect((options.host.as_str(), options.port))?;
        stream.set_nodelay(true)?;
        stream.set_read_timeout(Some(Duration::from_secs(20)))?;
        let mut client = Client { stream, bytes: vec![0; 1 << 18], read: 0, filled: 0 };
        client.stream.write_all(&connect(name, clean))?;
        match client.wait()? {
            (0x20, body) if body[1] == 0 => Ok(client),
            (first, body) => Err(format!("no CONNACK 0: {first:02x} {body:02x?}").into()),
        }
    }

    /// Returns the first byte of the next whole packet that came, and where its body is.
    fn next(&mut self) -> Option<(u8, usize, usize)> {
        let came = &self.bytes[self.read..self.filled];
        let (mut length, mut at) = (0, 1);
        loop {
            let byte = *came.get(at)?;
            length |= usize::from(byte & 127) << (7 * (at - 1));
            at += 1;
            if byte < 128 {
                break;
            }
        }
        if came.len() < at + length {
            return None;
        }
        let (first, start) = (came[0], self.read + at);
        self.read = start + length;
        Some((first, start, start + length))
    }

    /// Reads once, and returns whether something came before the time was over.
    fn fill(&mut self) -> io::Result<bool> {
        self.bytes.copy_within(self.read..self.filled, 0);
        (self.filled, self.read) = (self.filled - self.read, 0);
        if self.bytes.len() - self.filled < 1 << 16 {
            self.bytes.resize(2 * self.bytes.len(), 0);
        }
        match self.stream.read(&mut self.bytes[self.filled..]) {
            Ok(0) => Err(ErrorKind::UnexpectedEof.into()),
            Ok(count) => {
                self.filled += count;
                Ok(true)
            }
            Err(error) if matches!(error.kind(), ErrorKind::WouldBlock | ErrorKind::TimedOut) =>
                Ok(false),
            Err(error) => Err(error),
        }
    }

    /// Waits for a packet and returns it.
    fn wait(&mut self) -> Result<(u8, Vec<u8>), Fault> {
        loop {
            if let Some((first, start, end)) = self.next() {
                return Ok((first, self.bytes[start..end].to_vec()));
            }
            if !self.fill()? {
                return Err("no answer within the time".into());
            }
        }
    }
}

// ---- what the threads of a flow share

struct Flow {
    options: Options,
    began: Instant,
    start: Barrier,
    is_over: AtomicBool,
    /// By subscriber: how many came, and how many are to come once that is known.
    came: Vec<AtomicU64>,
    due: Vec<AtomicU64>,
}

impl Flow {
    fn qos(&self) -> u8 {
        self.options.get("qos", 0) as u8
    }

    fn is_each(&self) -> bool {
        self.options.get("each", 0) == 1
    }

    fn topic(&self, at: usize) -> String {
        let at = if self.is_each() { at } else { 0 };
        format!("load/{}/{at}", std::process::id())
    }

    /// Returns whether a publisher that sent that many has to wait for its slowest subscriber.
    fn is_ahead(&self, publisher: usize, sent: u64) -> bool {
        let share = if self.is_each() { 1 } else { self.options.get("publishers", 1) };
        let came = if self.is_each() { &self.came[publisher..=publisher] } else { &self.came[..] };
        let slowest = came.iter().map(|it| it.load(Relaxed)).min().unwrap_or(UNKNOWN);
        sent >= slowest / share + self.options.get("ahead", 1000)
    }

    fn nanoseconds(&self) -> u64 {
        self.began.elapsed().as_nanos() as u64
    }

    /// Writes what a subscriber reads into a payload: the time, the publisher and the number.
    fn mark(&self, payload: &mut [u8], publisher: usize, number: u64) {
        payload[..8].copy_from_slice(&self.nanoseconds().to_be_bytes());
        payload[8..12].copy_from_slice(&(publisher as u32).to_be_bytes());
        payload[12..HEADER].copy_from_slice(&number.to_be_bytes());
    }
}

fn number(bytes: &[u8]) -> u64 {
    bytes.iter().fold(0, |sum, byte| sum << 8 | u64::from(*byte))
}

/// Times in tenths of a microsecond: all, or of a long run every second, fourth, eighth ..
#[derive(Default)]
struct Times {
    kept: Vec<u32>,
    passed: u32,
    doublings: u32,
}

impl Times {
    const MOST: usize = 1 << 20;

    fn add(&mut self, nanoseconds: u64) {
        self.passed += 1;
        if self.passed >> self.doublings == 0 {
            return;
        }
        self.passed = 0;
        self.kept.push((nanoseconds / 100).min(u64::from(u32::MAX)) as u32);
        if self.kept.len() == Times::MOST {
            let mut is_second = false;
            self.kept.retain(|_| {
                is_second = !is_second;
                is_second
            });
            self.doublings += 1;
        }
    }

    fn of_all(many: impl Iterator<Item = Times>) -> Times {
        Times { kept: many.flat_map(|it| it.kept).collect(), ..Times::default() }
    }

    /// Returns in milliseconds what the half, 99 of 100 and 999 of 1,000 of the times are at most,
    /// as a list of JSON.
    fn shares(mut self) -> String {
        self.kept.sort_unstable();
        let share = |share: f64| {
            let at = (self.kept.len().saturating_sub(1) as f64 * share) as usize;
            self.kept.get(at).map_or(0.0, |it| f64::from(*it) / 10_000.0)
        };
        format!("[{:.4}, {:.4}, {:.4}]", share(0.5), share(0.99), share(0.999))
    }
}

// ---- publishers

/// What a publisher sent that is not answered yet, and the times until each was answered.
struct Sending {
    free: Vec<u16>,
    since: HashMap<u16, Instant>,
    times: Times,
}

impl Sending {
    /// Takes the answers that came, and puts a PUBREL for each PUBREC.
    fn take(&mut self, client: &mut Client, out: &mut Vec<u8>) {
        while let Some((first, start, _)) = client.next() {
            let id = [client.bytes[start], client.bytes[start + 1]];
            match first >> 4 {
                5 => put_answer(out, 0x62, &id),
                4 | 7 => {
                    let id = u16::from_be_bytes(id);
                    let since = self.since.remove(&id).expect("an answer to what was sent");
                    self.times.add(since.elapsed().as_nanos() as u64);
                    self.free.push(id);
                }
                _ => {}
            }
        }
    }
}

/// Publishes until the time is over and all is answered; returns how many, and the times until the
/// answers.
fn publish(flow: &Flow, mut client: Client, at: usize) -> Result<(u64, Times), Fault> {
    let (qos, topic, rate) = (flow.qos(), flow.topic(at), flow.options.get("rate", 0));
    let window = flow.options.get("window", 16) as u16;
    let mut payload = vec![b'x'; (flow.options.get("size", 100) as usize).max(HEADER)];
    let mut sending = Sending {
        free: (1..=window).rev().collect(), since: HashMap::new(), times: Times::default() };
    let (mut out, mut sent, began) = (Vec::with_capacity(1 << 17), 0, Instant::now());
    // (a read that waits is a millisecond long at least, so one who keeps a pace does not wait)
    client.stream.set_nonblocking(rate > 0)?;
    while !flow.is_over.load(Relaxed) || !sending.since.is_empty() {
        let due = if rate == 0 { UNKNOWN } else {
            (began.elapsed().as_secs_f64() * rate as f64) as u64 };
        while out.len() < 1 << 16 && sent < due && !flow.is_over.load(Relaxed)
            && !flow.is_ahead(at, sent) {
            let id = if qos == 0 { 0 }
                else if let Some(id) = sending.free.pop() { id } else { break };
            flow.mark(&mut payload, at, sent);
            put_publish(&mut out, &topic, qos, id, &payload);
            sent += 1;
            if qos > 0 {
                sending.since.insert(id, Instant::now());
            }
        }
        let is_idle = out.is_empty();
        if !is_idle {
            write(&mut client, &out)?;
            out.clear();
        }
        if qos > 0 && !sending.since.is_empty() && (client.fill()? || !is_idle) {
            sending.take(&mut client, &mut out);
        } else if is_idle {
            thread::sleep(Duration::from_micros(50));
        }
    }
    Ok((sent, sending.times))
}

/// Writes all, also to a socket that does not wait.
fn write(client: &mut Client, mut out: &[u8]) -> io::Result<()> {
    while !out.is_empty() {
        match client.stream.write(out) {
            Ok(count) => out = &out[count..],
            Err(error) if error.kind() == ErrorKind::WouldBlock =>
                thread::sleep(Duration::from_micros(50)),
            Err(error) => return Err(error),
        }
    }
    Ok(())
}

// ---- subscribers

/// What came to a subscriber.
#[derive(Default)]
struct Came {
    count: u64,
    /// Those that came within the measured time.
    within: u64,
    doubled: u64,
    disordered: u64,
    times: Times,
    last: HashMap<u64, u64>,
    /// The identifiers of publications at QoS 2 that are not released.
    held: HashSet<[u8; 2]>,
}

impl Came {
    /// Notes a publication, and puts its answer.
    fn note(&mut self, flow: &Flow, first: u8, body: &[u8], out: &mut Vec<u8>) {
        let (qos, topic) = (first >> 1 & 3, usize::from(body[0]) << 8 | usize::from(body[1]));
        let at = 2 + topic + if qos > 0 { 2 } else { 0 };
        if qos == 1 {
            put_answer(out, 0x40, &body[2 + topic..at]);
        }
        if qos == 2 {
            put_answer(out, 0x50, &body[2 + topic..at]);
            if !self.held.insert([body[2 + topic], body[3 + topic]]) {
                return;
            }
        }
        let payload = &body[at..];
        self.times.add(flow.nanoseconds().saturating_sub(number(&payload[..8])));
        let (publisher, number) = (number(&payload[8..12]), number(&payload[12..HEADER]));
        let next = self.last.entry(publisher).or_insert(0);
        self.doubled += u64::from(number + 1 == *next);
        self.disordered += u64::from(number + 1 < *next);
        *next = (*next).max(number + 1);
        self.count += 1;
        self.within += u64::from(!flow.is_over.load(Relaxed));
    }
}

/// Accepts until all came that was sent, or nothing came for three seconds.
fn accept(flow: &Flow, mut client: Client, at: usize) -> Result<Came, Fault> {
    let (mut came, mut out, mut last) = (Came::default(), Vec::new(), Instant::now());
    client.stream.set_read_timeout(Some(Duration::from_millis(100)))?;
    while came.count < flow.due[at].load(Relaxed) && last.elapsed() < Duration::from_secs(3) {
        if client.fill()? {
            last = Instant::now();
        }
        while let Some((first, start, end)) = client.next() {
            match first >> 4 {
                3 => came.note(flow, first, &client.bytes[start..end], &mut out),
                6 => {
                    let id = [client.bytes[start], client.bytes[start + 1]];
                    came.held.remove(&id);
                    put_answer(&mut out, 0x70, &id);
                }
                _ => {}
            }
        }
        flow.came[at].store(came.count, Relaxed);
        client.stream.write_all(&out)?;
        out.clear();
    }
    Ok(came)
}

// ---- a flow

fn joined<T>(threads: Vec<JoinHandle<Result<T, Fault>>>) -> Result<Vec<T>, Fault> {
    threads.into_iter().map(|it| it.join().expect("a thread that ends")).collect()
}

/// Starts the subscribers of a flow, each with its subscription granted.
fn subscribers(flow: &Arc<Flow>) -> Result<Vec<JoinHandle<Result<Came, Fault>>>, Fault> {
    let start = |at: usize| {
        let kept = flow.options.get("kept", 0) == 1;
        let mut client = Client::open(&flow.options, &format!("load-s{at}"), !kept)?;
        client.stream.write_all(&subscribe(&flow.topic(at), flow.qos()))?;
        match client.wait()? {
            (0x90, body) if body[2] <= 2 => {}
            (first, body) => return Err(format!("no SUBACK: {first:02x} {body:02x?}").into()),
        }
        let flow = flow.clone();
        Ok(thread::spawn(move || {
            flow.start.wait();
            accept(&flow, client, at)
        }))
    };
    (0..flow.came.len()).map(start).collect()
}

fn publishers(flow: &Arc<Flow>, count: usize)
    -> Result<Vec<JoinHandle<Result<(u64, Times), Fault>>>, Fault> {
    let start = |at: usize| {
        let client = Client::open(&flow.options, &format!("load-p{at}"), true)?;
        let flow = flow.clone();
        Ok(thread::spawn(move || {
            flow.start.wait();
            publish(&flow, client, at)
        }))
    };
    (0..count).map(start).collect()
}

/// Ends the kept sessions of a flow's subscribers.
fn end_sessions(flow: &Flow) -> Result<(), Fault> {
    for at in 0..flow.came.len() {
        Client::open(&flow.options, &format!("load-s{at}"), true)?.stream.write_all(&[0xE0, 0])?;
    }
    Ok(())
}

fn flow(options: &Options) -> Result<String, Fault> {
    let (count, readers) =
        (options.get("publishers", 1) as usize, options.get("subscribers", 1) as usize);
    let flow = Arc::new(Flow {
        options: options.clone(),
        began: Instant::now(),
        start: Barrier::new(count + readers + 1),
        is_over: AtomicBool::new(false),
        came: (0..readers).map(|_| AtomicU64::new(0)).collect(),
        due: (0..readers).map(|_| AtomicU64::new(UNKNOWN)).collect(),
    });
    let idle = (0..options.get("idle", 0))
        .map(|at| Client::open(options, &format!("load-i{at}"), true));
    let _idle = idle.collect::<Result<Vec<_>, _>>()?;
    let accepting = subscribers(&flow)?;
    let publishing = publishers(&flow, count)?;
    flow.start.wait();
    let (began, before) = (Instant::now(), processor_seconds(options));
    thread::sleep(options.seconds());
    flow.is_over.store(true, Relaxed);
    let (took, spent) = (began.elapsed().as_secs_f64(), processor_seconds(options) - before);
    let resident = resident_mebibytes(options);
    let sent = joined(publishing)?;
    let all: u64 = sent.iter().map(|it| it.0).sum();
    for (at, due) in flow.due.iter().enumerate() {
        due.store(if flow.is_each() { sent[at].0 } else { all }, Relaxed);
    }
    let copies = if flow.is_each() { 1 } else { readers as u64 };
    let came = joined(accepting)?;
    end_sessions(&flow)?;
    let total = |of: fn(&Came) -> u64| came.iter().map(of).sum::<u64>();
    let (within, count) = (total(|it| it.within), total(|it| it.count));
    let (doubled, disordered) = (total(|it| it.doubled), total(|it| it.disordered));
    Ok(format!(
        "{{\"per_second\": {:.0}, \"sent\": {all}, \"missing\": {}, \
         \"doubled\": {doubled}, \"disordered\": {disordered}, \
         \"way_ms\": {}, \"answer_ms\": {}, \"processor_us\": {:.3}, \
         \"resident_mib\": {resident:.1}}}",
        within as f64 / took,
        (all * copies).saturating_sub(count),
        Times::of_all(came.into_iter().map(|it| it.times)).shares(),
        Times::of_all(sent.into_iter().map(|it| it.1)).shares(),
        spent * 1e6 / (within.max(1) as f64 / copies as f64),
    ))
}

// ---- connects and queues

fn connects(options: &Options) -> Result<String, Fault> {
    let until = Instant::now() + options.seconds();
    let start = |at: u64| {
        let options = options.clone();
        thread::spawn(move || -> Result<Times, Fault> {
            let mut times = Times::default();
            while Instant::now() < until {
                let began = Instant::now();
                let mut client = Client::open(&options, &format!("load-c{at}"), true)?;
                times.add(began.elapsed().as_nanos() as u64);
                client.stream.write_all(&[0xE0, 0])?;
                // (its end is seen, so that a next one of this name meets none)
                let _ = client.stream.read(&mut [0]);
            }
            Ok(times)
        })
    };
    let times = joined((0..options.get("parallel", 4)).map(start).collect())?;
    let times = Times::of_all(times.into_iter());
    let rate = times.kept.len() as f64 / options.seconds().as_secs_f64();
    Ok(format!("{{\"per_second\": {rate:.0}, \"answer_ms\": {}}}", times.shares()))
}

/// Publishes that many messages at QoS 1, 16 at a time, until the last is answered.
fn fill_queue(client: &mut Client, count: u64, payload: &[u8]) -> Result<(), Fault> {
    let (mut sent, mut answered, mut out) = (0, 0, Vec::new());
    while answered < count {
        while sent < count && sent < answered + 16 {
            put_publish(&mut out, "load/queue", 1, (sent % 60_000) as u16 + 1, payload);
            sent += 1;
        }
        client.stream.write_all(&out)?;
        out.clear();
        client.wait()?;
        answered += 1;
    }
    Ok(())
}

fn drain(options: &Options) -> Result<String, Fault> {
    let (count, payload) =
        (options.get("messages", 4000), vec![b'x'; options.get("size", 100) as usize]);
    let mut client = Client::open(options, "load-q", false)?;
    client.stream.write_all(&subscribe("load/queue", 1))?;
    client.wait()?;
    client.stream.write_all(&[0xE0, 0])?;
    let _ = client.stream.read(&mut [0]);
    let began = Instant::now();
    fill_queue(&mut Client::open(options, "load-p", true)?, count, &payload)?;
    let queued = count as f64 / began.elapsed().as_secs_f64();
    let began = Instant::now();
    let mut client = Client::open(options, "load-q", false)?;
    let (mut came, mut out) = (0, Vec::new());
    while came < count {
        let (first, body) = client.wait()?;
        if first >> 4 == 3 {
            put_answer(&mut out, 0x40, &body[2 + "load/queue".len()..]);
            came += 1;
        }
        if client.read == client.filled || came == count {
            client.stream.write_all(&out)?;
            out.clear();
        }
    }
    let drained = count as f64 / began.elapsed().as_secs_f64();
    Client::open(options, "load-q", true)?.stream.write_all(&[0xE0, 0])?;
    Ok(format!("{{\"per_second\": {drained:.0}, \"queued_per_second\": {queued:.0}}}"))
}

// ---- the broker's process

fn processor_seconds(options: &Options) -> f64 {
    let text = std::fs::read_to_string(format!("/proc/{}/stat", options.get("pid", 0)))
        .unwrap_or_default();
    let fields: Vec<&str> = text.rsplit(')').next().unwrap_or("").split_whitespace().collect();
    let ticks = |at: usize| fields.get(at).and_then(|it| it.parse::<f64>().ok()).unwrap_or(0.0);
    (ticks(11) + ticks(12)) / 100.0
}

fn resident_mebibytes(options: &Options) -> f64 {
    let text = std::fs::read_to_string(format!("/proc/{}/statm", options.get("pid", 0)))
        .unwrap_or_default();
    text.split_whitespace().nth(1).and_then(|it| it.parse::<f64>().ok()).unwrap_or(0.0) * 4.0
        / 1024.0
}

fn main() -> Result<(), Fault> {
    let words: Vec<String> = std::env::args().skip(1).collect();
    let (verb, rest) = words.split_first().ok_or("flow, connects or drain is missing")?;
    let options = Options::read(rest)?;
    let line = match verb.as_str() {
        "flow" => flow(&options)?,
        "connects" => connects(&options)?,
        "drain" => drain(&options)?,
        other => return Err(format!("{other} is none of flow, connects and drain").into()),
    };
    println!("{line}");
    Ok(())
}
