//! What `xds serve --replicas 1` does over its streams, as a plain program would do it: a peer for bench/load/fanout.py.
//!
//! It serves the framed JSON streams of docs/FORMATS.md by the protocol of docs/PROTOCOL.md: state of the world and
//! delta, all five types, the star and names, nonces, acceptances and refusals, one response under way a type and
//! stream, and no refused offer again. Its input has the lines `put 1 JSON` and `delete 1 TYPE NAME`, each applied
//! when it is read.
//!
//! How it is made: as many event loops (epoll) as there are processors share out the streams, and a stream belongs
//! to one loop, so that nothing of it is locked. Bodies are kept as text. A response to the star from behind its
//! nonce on is made once and shared by all streams that are told the same; it is let go of with the next change, or
//! once a second has passed. A response is written by one call with its head. All lines that one read brings are
//! applied together, and then the loops are woken. Each loop has an index of its streams by the names that they
//! want, and looks at those alone that a change concerns.
//!
//! What it leaves out, beside every proof: groups (`putin`), other replicas and merging, polls over HTTP, journals
//! and traces, `--streams`, numbers of refusals but `21 BadScript`, the node and the inside of `errorDetail`, the
//! limits of a counter, and any answer to a lack of memory but its end. A resource keeps the list of the times that
//! it was deleted and came again.
use crate::answer::{depth, is_whole};
use crate::catalogue::{Catalogue, Response, TYPES};
use crate::index::Index;
use crate::request;
use crate::session::Session;
use serde_json::Value;
use std::collections::{HashMap, VecDeque};
use std::io::{self, BufRead, ErrorKind, IoSlice, Read, Write};
use std::net::{TcpListener, TcpStream};
use std::os::fd::AsRawFd;
use std::os::unix::net::UnixStream;
use std::process::exit;
use std::sync::atomic::{AtomicBool, Ordering};
use std::sync::{Arc, Mutex, RwLock};
use std::thread;

/// The calls of the C library that the standard library has no words for.
mod poll {
    use std::io;

    #[derive(Clone, Copy)]
    #[cfg_attr(target_arch = "x86_64", repr(C, packed))]
    #[cfg_attr(not(target_arch = "x86_64"), repr(C))]
    pub struct Event {
        pub is: u32,
        pub of: u64,
    }

    extern "C" {
        fn epoll_create1(flags: i32) -> i32;
        fn epoll_ctl(poll: i32, what: i32, file: i32, event: *mut Event) -> i32;
        fn epoll_wait(poll: i32, events: *mut Event, most: i32, milliseconds: i32) -> i32;
        fn listen(socket: i32, most: i32) -> i32;
    }

    pub const IN: u32 = 1;
    pub const OUT: u32 = 4;
    const ADD: i32 = 1;
    const CHANGE: i32 = 3;

    pub struct Poll(i32);

    fn checked(answer: i32) -> i32 {
        assert!(answer >= 0, "{}", io::Error::last_os_error());
        answer
    }

    /// So many connections of a listener may wait to be accepted; of the standard library's it is 128.
    pub fn queue(listener: i32, most: i32) {
        // SAFETY: it takes no pointer.
        checked(unsafe { listen(listener, most) });
    }

    impl Poll {
        pub fn new() -> Self {
            // SAFETY: it takes no pointer.
            Self(checked(unsafe { epoll_create1(0) }))
        }

        pub fn add(&self, file: i32, of: u64) {
            self.control(ADD, file, Event { is: IN, of });
        }

        pub fn change(&self, file: i32, of: u64, is: u32) {
            self.control(CHANGE, file, Event { is, of });
        }

        fn control(&self, what: i32, file: i32, mut event: Event) {
            // SAFETY: the event is read while the call lasts.
            checked(unsafe { epoll_ctl(self.0, what, file, &mut event) });
        }

        /// How many events came.
        pub fn wait(&self, events: &mut [Event], milliseconds: i32) -> usize {
            // SAFETY: so many events are written at most.
            let count = unsafe { epoll_wait(self.0, events.as_mut_ptr(), events.len() as i32, milliseconds) };
            count.max(0) as usize
        }
    }
}

/// The longest text of a frame.
const LONGEST: usize = 16_777_215;

/// What all threads see.
struct Shared {
    catalogues: RwLock<Vec<Catalogue>>,
    doors: Vec<Door>,
}

/// How a loop is told that something changed, and handed new streams.
struct Door {
    sockets: Mutex<Vec<TcpStream>>,
    is_told: AtomicBool,
    bell: UnixStream,
}

impl Door {
    fn tell(&self) {
        if !self.is_told.swap(true, Ordering::SeqCst) {
            let _ = (&self.bell).write(&[0]);
        }
    }
}

/// A response that is being written.
struct Piece {
    head: Vec<u8>,
    body: Arc<Response>,
    written: usize,
}

struct Stream {
    socket: TcpStream,
    number: u64,
    /// What was read and is no whole frame yet.
    input: Vec<u8>,
    output: VecDeque<Piece>,
    waits: bool,
    is_delta: Option<bool>,
    nonces: u64,
    sessions: [Option<Box<Session>>; TYPES.len()],
}

/// The stream ends.
struct End;

impl Stream {
    fn new(socket: TcpStream, number: u64) -> Self {
        let (input, output) = (Vec::new(), VecDeque::new());
        Self { socket, number, input, output, waits: false, is_delta: None, nonces: 0, sessions: Default::default() }
    }

    /// Reads what there is, and takes each whole request.
    fn read(&mut self, shared: &Shared, indexes: &mut Indexes, buffer: &mut [u8]) -> Result<(), End> {
        match (&self.socket).read(buffer) {
            Ok(0) => Err(End),
            Ok(count) if self.input.is_empty() => {
                let used = self.take_all(shared, indexes, &buffer[..count])?;
                self.input.extend_from_slice(&buffer[used..count]);
                Ok(())
            }
            Ok(count) => {
                let mut input = std::mem::take(&mut self.input);
                input.extend_from_slice(&buffer[..count]);
                let used = self.take_all(shared, indexes, &input)?;
                if used < input.len() {
                    input.drain(..used);
                    self.input = input;
                }
                Ok(())
            }
            Err(fault) if matches!(fault.kind(), ErrorKind::WouldBlock | ErrorKind::Interrupted) => Ok(()),
            Err(_) => Err(End),
        }
    }

    /// Takes the whole frames of some bytes. Answers how many bytes they are.
    fn take_all(&mut self, shared: &Shared, indexes: &mut Indexes, bytes: &[u8]) -> Result<usize, End> {
        let mut used = 0;
        while let Some(head) = bytes.get(used..used + 4) {
            let length = u32::from_be_bytes([head[0], head[1], head[2], head[3]]) as usize;
            if length == 0 || length > LONGEST + 1 {
                return Err(End);
            }
            let Some(frame) = bytes.get(used + 4..used + 4 + length) else { break };
            self.take(shared, indexes, frame[0], &frame[1..])?;
            used += 4 + length;
        }
        Ok(used)
    }

    fn take(&mut self, shared: &Shared, indexes: &mut Indexes, kind: u8, text: &[u8]) -> Result<(), End> {
        let is_delta = match kind {
            1 => false,
            3 => true,
            _ => return Err(End),
        };
        let request = request::read(is_delta, text).ok_or(End)?;
        if *self.is_delta.get_or_insert(is_delta) != is_delta {
            return Err(End);
        }
        let Some(at) = request.kind else { return Ok(()) };
        let number = self.number;
        let session = self.sessions[at].get_or_insert_with(|| Box::new(Session::new(number, &TYPES[at], is_delta)));
        let catalogues = shared.catalogues.read().unwrap();
        session.take(&catalogues[at], &mut indexes[at], request);
        self.poll(&catalogues)
    }

    /// Puts all responses that are due behind those that are being written.
    fn poll(&mut self, catalogues: &[Catalogue]) -> Result<(), End> {
        let kind = if self.is_delta == Some(true) { 4 } else { 2 };
        for (at, session) in self.sessions.iter_mut().enumerate() {
            let Some(session) = session else { continue };
            let Some(body) = session.poll(&catalogues[at], self.nonces + 1) else { continue };
            self.nonces += 1;
            let nonce = format!("{{\"nonce\":\"{}\"", self.nonces);
            let length = nonce.len() + body.text.len();
            if length > LONGEST {
                return Err(End);
            }
            let mut head = Vec::with_capacity(5 + nonce.len());
            head.extend_from_slice(&(length as u32 + 1).to_be_bytes());
            head.push(kind);
            head.extend_from_slice(nonce.as_bytes());
            self.output.push_back(Piece { head, body, written: 0 });
        }
        Ok(())
    }

    /// Writes what the socket takes.
    fn write(&mut self, poll: &poll::Poll) -> Result<(), End> {
        while let Some(piece) = self.output.front_mut() {
            let (head, text) = (&piece.head, &piece.body.text);
            let (head_left, text_left) =
                (&head[piece.written.min(head.len())..], &text[piece.written.saturating_sub(head.len())..]);
            match (&self.socket).write_vectored(&[IoSlice::new(head_left), IoSlice::new(text_left)]) {
                Ok(count) => piece.written += count,
                Err(fault) if fault.kind() == ErrorKind::Interrupted => continue,
                Err(fault) if fault.kind() == ErrorKind::WouldBlock => break,
                Err(_) => return Err(End),
            }
            if piece.written == head.len() + text.len() {
                self.output.pop_front();
            }
        }
        let waits = !self.output.is_empty();
        if waits != self.waits {
            self.waits = waits;
            poll.change(self.socket.as_raw_fd(), self.number, if waits { poll::IN | poll::OUT } else { poll::IN });
        }
        Ok(())
    }
}

/// What an event is of, where it is of no stream.
const BELL: u64 = 0;

type Streams = HashMap<u64, Stream>;

/// By type.
type Indexes = [Index; TYPES.len()];

/// Lets go of a stream.
fn remove(streams: &mut Streams, indexes: &mut Indexes, number: u64) {
    let Some(stream) = streams.remove(&number) else { return };
    for (session, index) in stream.sessions.iter().zip(indexes) {
        session.iter().for_each(|session| session.leave(index));
    }
}

/// A loop over the streams that it was handed.
fn serve(shared: &Shared, door: &Door, mut bell: UnixStream) {
    let (poll, mut buffer) = (poll::Poll::new(), vec![0; 1 << 16]);
    let mut events = [poll::Event { is: 0, of: 0 }; 256];
    let (mut streams, mut indexes, mut last) = (Streams::new(), Indexes::default(), BELL);
    poll.add(bell.as_raw_fd(), BELL);
    let mut may_forget = false;
    loop {
        let count = poll.wait(&mut events, if may_forget { 1000 } else { -1 });
        if count == 0 && may_forget {
            shared.catalogues.read().unwrap().iter().for_each(Catalogue::forget);
        }
        may_forget = count > 0;
        for event in &events[..count] {
            let (is, of) = (event.is, event.of);
            if of == BELL {
                let _ = bell.read(&mut buffer);
                door.is_told.store(false, Ordering::SeqCst);
                for socket in door.sockets.lock().unwrap().drain(..) {
                    last += 1;
                    poll.add(socket.as_raw_fd(), last);
                    streams.insert(last, Stream::new(socket, last));
                }
                tell_concerned(shared, &poll, &mut streams, &mut indexes);
            } else if let Some(stream) = streams.get_mut(&of) {
                let had_all = is & !poll::OUT == 0 || stream.read(shared, &mut indexes, &mut buffer).is_ok();
                if !had_all || stream.write(&poll).is_err() {
                    let _ = stream.write(&poll);
                    remove(&mut streams, &mut indexes, of);
                }
            }
        }
    }
}

/// Makes the responses that are due on the streams that a change concerns, and then writes them.
fn tell_concerned(shared: &Shared, poll: &poll::Poll, streams: &mut Streams, indexes: &mut Indexes) {
    let (mut concerned, mut told) = (Vec::new(), Vec::new());
    let catalogues = shared.catalogues.read().unwrap();
    for (index, catalogue) in indexes.iter_mut().zip(catalogues.iter()) {
        index.add_concerned(catalogue, &mut concerned);
    }
    concerned.sort_unstable();
    concerned.dedup();
    for number in concerned {
        let Some(stream) = streams.get_mut(&number) else { continue };
        let had = stream.output.len();
        let polled = stream.poll(&catalogues);
        if polled.is_err() || stream.output.len() > had {
            told.push((number, polled));
        }
    }
    drop(catalogues);
    for (number, polled) in told {
        let Some(stream) = streams.get_mut(&number) else { continue };
        if stream.write(poll).and(polled).is_err() {
            remove(streams, indexes, number);
        }
    }
}

/// A line of the input: a put has its body.
struct Change {
    at: usize,
    name: String,
    body: Option<Box<str>>,
}

/// The change of a line, or none where it says nothing that this server knows. An answer of `None` within is of a
/// line that changes nothing.
fn change_of(line: &[u8]) -> Option<Option<Change>> {
    if line.is_empty() || line[0] == b'#' {
        return Some(None);
    }
    let line = std::str::from_utf8(line).ok()?;
    let (word, rest) = line.split_once(' ')?;
    let (replica, rest) = rest.split_once(' ')?;
    let number = replica.parse::<u16>().ok().filter(|it| *it > 0 && it.to_string() == replica)?;
    let change = match word {
        "put" => put_of(rest)?,
        "delete" => {
            let (word, name) = rest.split_once(' ')?;
            let at = TYPES.iter().position(|it| it.word == word)?;
            if name.is_empty() || name.contains(' ') {
                return None;
            }
            Change { at, name: name.to_string(), body: None }
        }
        _ => return None,
    };
    Some((number == 1).then_some(change))
}

fn put_of(text: &str) -> Option<Change> {
    let value: Value = serde_json::from_str(text).ok()?;
    let body = value.to_string();
    let url = value.get("@type")?.as_str()?;
    let at = TYPES.iter().position(|it| it.url == url)?;
    let [camel, snake] = TYPES[at].name;
    let name = value.get(camel).or_else(|| value.get(snake))?.as_str()?.to_string();
    let is_name = !name.is_empty() && name.len() <= 1024 && name != "*";
    let is_resource = is_name && body.len() <= 1_048_576 && depth(&value) <= 100 && is_whole(&value);
    is_resource.then(|| Change { at, name, body: Some(body.into_boxed_str()) })
}

/// Applies the lines of the standard input. Those that one read brought are applied together.
fn apply_input(shared: &Shared) {
    let mut input = io::BufReader::with_capacity(1 << 16, io::stdin().lock());
    let (mut line, mut number, mut changes) = (Vec::new(), 0, Vec::new());
    loop {
        line.clear();
        if input.read_until(b'\n', &mut line).unwrap_or(0) == 0 {
            return;
        }
        number += 1;
        let Some(change) = change_of(line.strip_suffix(b"\n").unwrap_or(&line)) else {
            eprintln!("line {number}: 21 BadScript");
            exit(1);
        };
        changes.extend(change);
        if input.buffer().contains(&b'\n') || changes.is_empty() {
            continue;
        }
        let mut catalogues = shared.catalogues.write().unwrap();
        for Change { at, name, body } in changes.drain(..) {
            match body {
                Some(body) => catalogues[at].put(&name, body),
                None => catalogues[at].delete(&name),
            }
        }
        drop(catalogues);
        shared.doors.iter().for_each(Door::tell);
    }
}

fn accept(shared: &Shared, listener: &TcpListener) {
    for turn in 0.. {
        match listener.accept() {
            Ok((socket, _)) => {
                let _ = socket.set_nonblocking(true);
                let _ = socket.set_nodelay(true);
                let door = &shared.doors[turn % shared.doors.len()];
                door.sockets.lock().unwrap().push(socket);
                door.tell();
            }
            // As without a descriptor left.
            Err(_) => thread::sleep(std::time::Duration::from_millis(10)),
        }
    }
}

fn value_of<'a>(words: &'a [String], option: &str, without: &'a str) -> &'a str {
    let at = words.iter().position(|it| it == option);
    at.map_or(without, |at| words.get(at + 1).map_or("", String::as_str))
}

/// Takes the words of `xds serve`, as `--replicas 1 --port 18000`; what polls have to do with is passed over.
pub fn main(words: &[String]) {
    let port = value_of(words, "--port", "18000").parse::<u16>().ok().filter(|it| *it > 0);
    let (Some(port), "1") = (port, value_of(words, "--replicas", "1")) else {
        eprintln!("plain serve [--replicas 1] [--port P] [--rest-port Q]");
        exit(2);
    };
    let Ok(listener) = TcpListener::bind(("127.0.0.1", port)) else {
        eprintln!("127.0.0.1:{port}: 19 Device");
        exit(1);
    };
    poll::queue(listener.as_raw_fd(), 1024);
    let loops = thread::available_parallelism().map_or(1, |it| it.get());
    let mut bells = Vec::new();
    let doors = (0..loops).map(|_| {
        let (bell, heard) = UnixStream::pair().unwrap();
        bell.set_nonblocking(true).unwrap();
        heard.set_nonblocking(true).unwrap();
        bells.push(heard);
        Door { sockets: Mutex::new(Vec::new()), is_told: AtomicBool::new(false), bell }
    });
    let doors = doors.collect();
    let catalogues = RwLock::new(TYPES.iter().map(Catalogue::new).collect());
    let shared = Shared { catalogues, doors };
    eprintln!("replica 1: streams on 127.0.0.1:{port}");
    thread::scope(|scope| {
        for (door, bell) in shared.doors.iter().zip(bells) {
            scope.spawn(|| serve(&shared, door, bell));
        }
        scope.spawn(|| accept(&shared, &listener));
        apply_input(&shared);
    });
}
