//! A log that threads share without a lock, and its sender and subscriber, for Rust: handles that are freed by `Drop` and go to other threads. The rules of
//! `pechvang.h` are kept by the types: a handle is used by one call at a time, and moved, never copied.
//!
//! `main` shows it: four publishers in threads of their own, a reader of frames that keeps the log, and who reads the messages.

use std::ffi::c_void;
use std::fmt;
use std::ptr::null_mut;
use std::thread;

/// The version of the library that this is written for.
pub const VERSION: &str = "0.2.0";

#[repr(C)]
struct Handle {
    at: *mut c_void,
    is_open: bool,
}

impl Handle {
    const EMPTY: Handle = Handle {
        at: null_mut(),
        is_open: false,
    };
}

// SAFETY: it is proved of the library that a handle may go to another thread.
unsafe impl Send for Handle {}

impl Drop for Handle {
    fn drop(&mut self) {
        // SAFETY: the handle is one of the library's, and no call uses it.
        unsafe { pv_free(self) }
    }
}

#[repr(C)]
#[derive(Clone, Copy, Debug)]
pub struct Config {
    pub term_length: u32,
    pub mtu: u32,
    pub initial_term_id: i32,
    pub session: i32,
    pub stream: i32,
    pub consumers: u32,
    pub start: u64,
}

#[repr(C)]
#[derive(Clone, Copy, Debug, Default)]
pub struct Frame {
    pub position: u64,
    pub length: usize,
    pub flags: u8,
    pub is_data: bool,
}

#[repr(C)]
#[derive(Clone, Copy, Debug)]
pub struct Subscription {
    pub receiver: i64,
    pub greatest: usize,
    pub session: i32,
    pub stream: i32,
    pub window: u32,
}

/// The code of a room that is shorter than what waits for it.
const ROOM_TOO_SMALL: i32 = -7;

extern "C" {
    fn pv_open(config: &Config, log: &mut Handle) -> i32;
    fn pv_take_publisher(log: &mut Handle, publisher: &mut Handle) -> i32;
    fn pv_take_reader(log: &mut Handle, reader: &mut Handle) -> i32;
    fn pv_take_keeper(log: &mut Handle, keeper: &mut Handle) -> i32;
    fn pv_offer(publisher: &mut Handle, message: *const u8, length: usize, position: &mut u64) -> i32;
    fn pv_claim(publisher: &mut Handle, length: usize, start: &mut u64) -> i32;
    fn pv_claim_write(publisher: &mut Handle, offset: usize, bytes: *const u8, length: usize) -> i32;
    fn pv_commit(publisher: &mut Handle, position: &mut u64) -> i32;
    fn pv_abort(publisher: &mut Handle, position: &mut u64) -> i32;
    fn pv_share(publisher: &mut Handle, share: &mut u64) -> i32;
    fn pv_next(reader: &mut Handle, room: *mut u8, size: usize, frame: &mut Frame) -> i32;
    fn pv_advance(reader: &mut Handle) -> i32;
    fn pv_open_messages(reader: &mut Handle, greatest: usize, messages: &mut Handle) -> i32;
    fn pv_next_message(messages: &mut Handle, room: *mut u8, size: usize, length: &mut usize) -> i32;
    fn pv_messages_position(messages: &mut Handle, position: &mut u64) -> i32;
    fn pv_clean_and_limit(keeper: &mut Handle, limit: &mut u64) -> i32;
    fn pv_set_connected(keeper: &mut Handle, connected: bool) -> i32;
    fn pv_set_closed(keeper: &mut Handle) -> i32;
    fn pv_join(keeper: &mut Handle, reader: &mut Handle) -> i32;
    fn pv_open_subscriber(config: &Subscription, subscriber: &mut Handle) -> i32;
    fn pv_receive(subscriber: &mut Handle, datagram: *const u8, length: usize, now: u64, outcomes: *mut i32, size: usize, frames: &mut usize) -> i32;
    fn pv_poll(subscriber: &mut Handle, room: *mut u8, size: usize, length: &mut usize) -> i32;
    fn pv_open_sender(reader: &mut Handle, group: u32, sender: &mut Handle) -> i32;
    fn pv_hear(sender: &mut Handle, datagram: *const u8, length: usize, now: u64, outcome: &mut i32) -> i32;
    fn pv_tick(core: &mut Handle, now: u64) -> i32;
    fn pv_next_datagram(core: &mut Handle, room: *mut u8, size: usize, length: &mut usize) -> i32;
    fn pv_free(handle: &mut Handle);
}

/// Why a call fails: the code that `pechvang.h` names.
#[derive(Clone, Copy, Debug, PartialEq, Eq)]
pub struct Fault(pub i32);

impl Fault {
    /// Whether the same call may be accepted later.
    pub fn may_pass(self) -> bool {
        (-3..=-1).contains(&self.0)
    }
}

impl fmt::Display for Fault {
    fn fmt(&self, f: &mut fmt::Formatter<'_>) -> fmt::Result {
        write!(f, "code {}", self.0)
    }
}

impl std::error::Error for Fault {}

fn answer<T>(code: i32, value: T) -> Result<T, Fault> {
    if code < 0 { Err(Fault(code)) } else { Ok(value) }
}

// SAFETY of all calls below: references are valid and don't overlap, and a slice's pointer has its length.

pub struct Log(Handle);
pub struct Publisher(Handle);
pub struct Reader(Handle);
pub struct Keeper(Handle);

impl Log {
    pub fn open(config: &Config) -> Result<Log, Fault> {
        let mut log = Handle::EMPTY;
        answer(unsafe { pv_open(config, &mut log) }, ())?;
        Ok(Log(log))
    }

    pub fn publisher(&mut self) -> Result<Publisher, Fault> {
        let mut taken = Handle::EMPTY;
        answer(unsafe { pv_take_publisher(&mut self.0, &mut taken) }, ())?;
        Ok(Publisher(taken))
    }

    pub fn reader(&mut self) -> Result<Reader, Fault> {
        let mut taken = Handle::EMPTY;
        answer(unsafe { pv_take_reader(&mut self.0, &mut taken) }, ())?;
        Ok(Reader(taken))
    }

    pub fn keeper(&mut self) -> Result<Keeper, Fault> {
        let mut taken = Handle::EMPTY;
        answer(unsafe { pv_take_keeper(&mut self.0, &mut taken) }, ())?;
        Ok(Keeper(taken))
    }
}

impl Publisher {
    /// The position behind the message.
    pub fn offer(&mut self, message: &[u8]) -> Result<u64, Fault> {
        let mut position = 0;
        let code = unsafe { pv_offer(&mut self.0, message.as_ptr(), message.len(), &mut position) };
        answer(code, position)
    }

    /// An open claim, which is aborted if it is dropped.
    pub fn claim(&mut self, length: usize) -> Result<Claim<'_>, Fault> {
        let mut start = 0;
        answer(unsafe { pv_claim(&mut self.0, length, &mut start) }, ())?;
        Ok(Claim(self))
    }

    /// How many bytes of the stream are its own.
    pub fn share(&mut self) -> Result<u64, Fault> {
        let mut share = 0;
        let code = unsafe { pv_share(&mut self.0, &mut share) };
        answer(code, share)
    }
}

pub struct Claim<'a>(&'a mut Publisher);

impl Claim<'_> {
    pub fn write(&mut self, offset: usize, bytes: &[u8]) -> Result<(), Fault> {
        let code = unsafe { pv_claim_write(&mut self.0.0, offset, bytes.as_ptr(), bytes.len()) };
        answer(code, ())
    }

    /// The position behind it.
    pub fn commit(self) -> Result<u64, Fault> {
        let mut position = 0;
        let code = unsafe { pv_commit(&mut self.0.0, &mut position) };
        answer(code, position)
    }
}

impl Drop for Claim<'_> {
    fn drop(&mut self) {
        // Where it was committed, this is a code and changes nothing.
        let mut position = 0;
        unsafe { pv_abort(&mut self.0.0, &mut position) };
    }
}

impl Reader {
    /// The frame where the reader stands, its payload at the front of the room.
    pub fn next(&mut self, room: &mut [u8]) -> Result<Option<Frame>, Fault> {
        let mut frame = Frame::default();
        let code = unsafe { pv_next(&mut self.0, room.as_mut_ptr(), room.len(), &mut frame) };
        answer(code, (code == 1).then_some(frame))
    }

    /// Goes behind the frame that was read. Whether one was.
    pub fn advance(&mut self) -> Result<bool, Fault> {
        let code = unsafe { pv_advance(&mut self.0) };
        answer(code, code == 1)
    }
}

/// Whole messages, in place of a reader's frames.
pub struct Messages(Handle);

impl Messages {
    /// Of a reader that has found no frame yet, from where it stands on, each of at most so many bytes. Where it is declined, the
    /// reader comes back.
    pub fn open(mut reader: Reader, greatest: usize) -> Result<Messages, (Fault, Reader)> {
        let mut opened = Handle::EMPTY;
        match answer(unsafe { pv_open_messages(&mut reader.0, greatest, &mut opened) }, ()) {
            Ok(()) => Ok(Messages(opened)),
            Err(fault) => Err((fault, reader)),
        }
    }

    /// The length of the next message, which stands at the front of the room. That grows where it is too short.
    pub fn next(&mut self, room: &mut Vec<u8>) -> Result<Option<usize>, Fault> {
        let mut length = 0;
        let mut code = unsafe { pv_next_message(&mut self.0, room.as_mut_ptr(), room.len(), &mut length) };
        if code == ROOM_TOO_SMALL {
            room.resize(length, 0);
            code = unsafe { pv_next_message(&mut self.0, room.as_mut_ptr(), room.len(), &mut length) };
        }
        answer(code, (code == 1).then_some(length))
    }

    /// Behind all that was given.
    pub fn position(&mut self) -> Result<u64, Fault> {
        let mut position = 0;
        let code = unsafe { pv_messages_position(&mut self.0, &mut position) };
        answer(code, position)
    }
}

impl Keeper {
    pub fn clean_and_limit(&mut self) -> Result<u64, Fault> {
        let mut limit = 0;
        let code = unsafe { pv_clean_and_limit(&mut self.0, &mut limit) };
        answer(code, limit)
    }

    pub fn set_connected(&mut self, connected: bool) -> Result<(), Fault> {
        answer(unsafe { pv_set_connected(&mut self.0, connected) }, ())
    }

    pub fn set_closed(&mut self) -> Result<(), Fault> {
        answer(unsafe { pv_set_closed(&mut self.0) }, ())
    }

    pub fn join(&mut self) -> Result<Reader, Fault> {
        let mut joined = Handle::EMPTY;
        answer(unsafe { pv_join(&mut self.0, &mut joined) }, ())?;
        Ok(Reader(joined))
    }
}

/// The next datagram that a core has to send stands at the front of the room. All have to be taken before the next moment.
fn next_datagram(core: &mut Handle, room: &mut [u8]) -> Result<Option<usize>, Fault> {
    let mut length = 0;
    let code = unsafe { pv_next_datagram(core, room.as_mut_ptr(), room.len(), &mut length) };
    answer(code, (code == 1).then_some(length))
}

pub struct Subscriber(Handle);

impl Subscriber {
    pub fn open(config: &Subscription) -> Result<Subscriber, Fault> {
        let mut opened = Handle::EMPTY;
        answer(unsafe { pv_open_subscriber(config, &mut opened) }, ())?;
        Ok(Subscriber(opened))
    }

    /// How many frames the datagram has; what became of them is written as far as there is room.
    pub fn receive(&mut self, datagram: &[u8], now: u64, outcomes: &mut [i32]) -> Result<usize, Fault> {
        let mut frames = 0;
        let code = unsafe { pv_receive(&mut self.0, datagram.as_ptr(), datagram.len(), now, outcomes.as_mut_ptr(), outcomes.len(), &mut frames) };
        answer(code, frames)
    }

    /// The message at the front of the room, which has to hold the greatest.
    pub fn poll(&mut self, room: &mut [u8]) -> Result<Option<usize>, Fault> {
        let mut length = 0;
        let code = unsafe { pv_poll(&mut self.0, room.as_mut_ptr(), room.len(), &mut length) };
        answer(code, (code == 1).then_some(length))
    }

    pub fn tick(&mut self, now: u64) -> Result<(), Fault> {
        answer(unsafe { pv_tick(&mut self.0, now) }, ())
    }

    pub fn next_datagram(&mut self, room: &mut [u8]) -> Result<Option<usize>, Fault> {
        next_datagram(&mut self.0, room)
    }
}

pub struct Sender(Handle);

impl Sender {
    /// To one receiver (0), or to a group. Where it is declined, the reader comes back.
    pub fn open(mut reader: Reader, group: u32) -> Result<Sender, (Fault, Reader)> {
        let mut opened = Handle::EMPTY;
        match answer(unsafe { pv_open_sender(&mut reader.0, group, &mut opened) }, ()) {
            Ok(()) => Ok(Sender(opened)),
            Err(fault) => Err((fault, reader)),
        }
    }

    /// What became of the datagram, as `pechvang.h` names it.
    pub fn hear(&mut self, datagram: &[u8], now: u64) -> Result<i32, Fault> {
        let mut outcome = 0;
        let code = unsafe { pv_hear(&mut self.0, datagram.as_ptr(), datagram.len(), now, &mut outcome) };
        answer(code, outcome)
    }

    pub fn tick(&mut self, now: u64) -> Result<(), Fault> {
        answer(unsafe { pv_tick(&mut self.0, now) }, ())
    }

    pub fn next_datagram(&mut self, room: &mut [u8]) -> Result<Option<usize>, Fault> {
        next_datagram(&mut self.0, room)
    }
}

/// A sender and a subscriber, with no network between them.
fn carry() -> Result<u32, Fault> {
    const COUNT: u32 = 2_000;
    let config = Config { term_length: 1 << 16, mtu: 1408, initial_term_id: 7, session: 1, stream: 1001, consumers: 1, start: 0 };
    let mut log = Log::open(&config)?;
    let (mut publisher, mut keeper) = (log.publisher()?, log.keeper()?);
    let (fault, reader) = Sender::open(log.reader()?, 9).err().expect("nine receivers");
    assert_eq!(fault, Fault(-25));
    let mut sender = Sender::open(reader, 0).map_err(|(fault, _)| fault)?;
    let mut subscriber = Subscriber::open(&Subscription { receiver: 3, greatest: 8192, session: 1, stream: 1001, window: 32768 })?;
    keeper.set_connected(true)?;
    let (mut datagram, mut answer, mut outcomes, mut room) = ([0; 1408], [0; 1408], [0; 44], [0; 8192]);
    let (mut offered, mut polled) = (0u32, 0u32);
    for now in (0..10_000_000_000).step_by(1_000_000) {
        keeper.clean_and_limit()?;
        if offered < COUNT && publisher.offer(&offered.to_le_bytes().repeat(500)).is_ok() {
            offered += 1;
        }
        sender.tick(now)?;
        while let Some(length) = sender.next_datagram(&mut datagram)? {
            subscriber.receive(&datagram[..length], now, &mut outcomes)?;
        }
        while let Ok(Some(length)) = subscriber.poll(&mut room) {
            assert_eq!(room[..length], polled.to_le_bytes().repeat(500));
            polled += 1;
        }
        subscriber.tick(now)?;
        while let Some(length) = subscriber.next_datagram(&mut datagram)? {
            sender.hear(&datagram[..length], now)?;
            while let Some(length) = sender.next_datagram(&mut answer)? {
                subscriber.receive(&answer[..length], now, &mut outcomes)?;
            }
        }
        if polled == COUNT {
            break;
        }
    }
    assert_eq!(polled, COUNT);
    Ok(polled)
}

fn publish(mut publisher: Publisher, number: u32, count: u32) -> Result<u64, Fault> {
    for k in 0..count {
        let mut message = [0; 8];
        message[..4].copy_from_slice(&number.to_le_bytes());
        message[4..].copy_from_slice(&k.to_le_bytes());
        loop {
            let sent = if number == 0 {
                publisher.claim(8).and_then(|mut claim| {
                    claim.write(0, &message)?;
                    claim.commit()
                })
            } else {
                publisher.offer(&message)
            };
            match sent {
                Ok(_) => break,
                Err(fault) if fault.may_pass() => thread::yield_now(),
                Err(fault) => return Err(fault),
            }
        }
    }
    publisher.share()
}

fn main() -> Result<(), Fault> {
    const EACH: u32 = 25_000;
    let config = Config { term_length: 1 << 16, mtu: 1408, initial_term_id: 7, session: 1, stream: 1001, consumers: 1, start: 0 };
    let mut log = Log::open(&config)?;
    let (mut reader, mut keeper) = (log.reader()?, log.keeper()?);
    let mut joined = Messages::open(keeper.join()?, 1 << 16).map_err(|(fault, _)| fault)?;
    keeper.set_connected(true)?;
    keeper.clean_and_limit()?;
    let mut threads = Vec::new();
    for number in 0..4 {
        let publisher = log.publisher()?;
        threads.push(thread::spawn(move || publish(publisher, number, EACH)));
    }
    let (mut room, mut other, mut next) = ([0; 1408], Vec::new(), [0; 4]);
    while next.iter().sum::<u32>() < 4 * EACH {
        let Some(frame) = reader.next(&mut room)? else {
            keeper.clean_and_limit()?;
            thread::yield_now();
            continue;
        };
        if frame.is_data {
            let same = joined.next(&mut other)?.expect("the same message");
            assert_eq!(other[..same], room[..frame.length]);
            assert_eq!(joined.position()?, frame.position + (frame.length as u64 + 63) / 32 * 32);
            let number = u32::from_le_bytes(room[..4].try_into().expect("four bytes")) as usize;
            assert_eq!(u32::from_le_bytes(room[4..8].try_into().expect("four bytes")), next[number]);
            next[number] += 1;
        }
        assert!(reader.advance()?);
    }
    keeper.set_closed()?;
    let mut shares = 0;
    for thread in threads {
        shares += thread.join().expect("a publisher")?;
    }
    println!("{} messages, {shares} bytes, {} carried", next.iter().sum::<u32>(), carry()?);
    Ok(())
}
