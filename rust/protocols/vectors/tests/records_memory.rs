//! Calls for which the allocator refuses memory fail with `OutOfMemory`, and change nothing or end a direction. Without that, a
//! `Vec` that grows ends the program.

use std::alloc::{GlobalAlloc, Layout, System};
use std::cell::Cell;
use std::fmt::Debug;

use deerlapse_protocols_vectors::tls::{client, client_secret, received, server, server_secret};
use records::ContentType::{ApplicationData, Handshake};
use records::connection::KeyUpdateRequest::{NotRequested, Requested};
use records::connection::{Connection, ReceiveError, Received};
use records::{AlertDescription, RecordError, Writer};

/// The system's allocator, which refuses one allocation of a thread.
struct Refusing;

thread_local! {
    /// How many allocations are made before one is refused, or `None` if none is.
    static GRANTED: Cell<Option<usize>> = const { Cell::new(None) };
}

// SAFETY: each call is one of the system's allocator or returns null, by which an allocator refuses.
unsafe impl GlobalAlloc for Refusing {
    unsafe fn alloc(&self, layout: Layout) -> *mut u8 {
        match GRANTED.get() {
            Some(0) => {
                GRANTED.set(None);
                return std::ptr::null_mut();
            }
            granted => GRANTED.set(granted.map(|count| count - 1)),
        }
        // SAFETY: the caller keeps to the contract of `alloc`, which is the same.
        unsafe { System.alloc(layout) }
    }

    unsafe fn dealloc(&self, at: *mut u8, layout: Layout) {
        // SAFETY: the block is of `alloc`, and so of the system's allocator.
        unsafe { System.dealloc(at, layout) }
    }
}

#[global_allocator]
static ALLOCATOR: Refusing = Refusing;

/// Makes a call after `granted` of whose allocations one is refused. Returns its result, and whether it made so many.
fn refusing<R>(granted: usize, call: impl FnOnce() -> R) -> (R, bool) {
    GRANTED.set(Some(granted));
    let result = call();
    (result, GRANTED.take().is_none())
}

/// What sends, by calls that append to a `Vec`.
trait Sends {
    /// What its calls change.
    type State: Debug + PartialEq;

    fn state(&self) -> Self::State;
}

impl Sends for Writer {
    type State = (u64, u64, usize);

    fn state(&self) -> Self::State {
        (self.number(), self.limit(), self.size_limit())
    }
}

impl Sends for Connection<'_> {
    type State = (u64, bool, bool, bool);

    fn state(&self) -> Self::State {
        let bits = (self.owes_update(), self.is_closed(), self.is_ended());
        (self.remaining(), bits.0, bits.1, bits.2)
    }
}

/// Refuses each allocation of a call in turn. Asserts that the call then changes nothing, and afterwards appends the same bytes as
/// without a refusal, and that it makes no allocation where there is room for these.
fn refuse_each<S: Sends>(
    new: impl Fn() -> S,
    call: impl Fn(&mut S, &mut Vec<u8>) -> Result<(), RecordError>,
) {
    let mut wanted = b"before".to_vec();
    assert_eq!(call(&mut new(), &mut wanted), Ok(()));

    let mut roomy = Vec::with_capacity(wanted.len());
    roomy.extend_from_slice(b"before");
    let mut sends = new();
    let (result, is_refused) = refusing(0, || call(&mut sends, &mut roomy));
    assert_eq!((result, is_refused), (Ok(()), false));
    assert_eq!(roomy, wanted);

    for granted in 0.. {
        let mut sends = new();
        let before = sends.state();
        let mut out = b"before".to_vec();
        let (result, is_refused) = refusing(granted, || call(&mut sends, &mut out));
        if !is_refused {
            assert_eq!(result, Ok(()));
            assert!(granted > 0, "the call allocates");
            break;
        }
        assert_eq!(result, Err(RecordError::OutOfMemory));
        assert_eq!(out, b"before");
        assert_eq!(sends.state(), before);
        assert_eq!(call(&mut sends, &mut out), Ok(()));
        assert_eq!(out, wanted);
    }
}

/// Returns a writer with a size limit of 64 bytes that has written a record.
fn writer() -> Writer {
    let mut writer = Writer::from_secret(client_secret()).with_limit(9);
    let written = writer
        .set_size_limit(64)
        .and_then(|()| writer.write(ApplicationData, b"first", 0, &mut Vec::new()));
    assert_eq!(written, Ok(()));
    writer
}

#[test]
fn a_writer_uses_no_number() {
    refuse_each(writer, |it, out| {
        it.write(ApplicationData, b"hello", 3, out)
    });
    refuse_each(writer, |it, out| it.write(ApplicationData, b"", 0, out));
    refuse_each(writer, |it, out| {
        it.write_content(ApplicationData, &[7; 200], 1, out)
    });
    refuse_each(writer, |it, out| {
        it.write_content(Handshake, &[7; 64], 0, out)
    });
    refuse_each(writer, |it, out| it.close_notify(out));
}

/// Returns a buffer for handshake messages, which is never freed.
fn buffer() -> &'static mut [u8] {
    Vec::leak(vec![0; 64])
}

/// Returns a client's end.
fn idle() -> Connection<'static> {
    client(buffer(), 1000)
}

/// Returns a client's end that owes a KeyUpdate.
fn owing() -> Connection<'static> {
    let mut client = idle();
    let mut record = Vec::new();
    let asked = server(buffer()).send_key_update(Requested, &mut record);
    assert_eq!(asked, Ok(()));
    assert!(received(&mut client, &mut record).is_ok() && client.owes_update());
    client
}

/// Returns a client's end that has only the two numbers left that it keeps.
fn at_its_limit() -> Connection<'static> {
    let mut client = client(buffer(), 3);
    assert_eq!(client.send(b"first", &mut Vec::new()), Ok(()));
    assert_eq!(client.remaining(), 0);
    client
}

#[test]
fn an_end_sends_nothing() {
    for new in [idle, owing, at_its_limit] {
        refuse_each(new, |it, out| it.send(b"hello", out));
        refuse_each(new, |it, out| it.send(b"", out));
        refuse_each(new, |it, out| it.send_padded(b"hello", 100, out));
        refuse_each(new, |it, out| it.send_key_update(NotRequested, out));
        refuse_each(new, |it, out| it.close(out));
        refuse_each(new, |it, out| it.abort(AlertDescription::DecodeError, out));
    }
    for new in [idle, owing] {
        refuse_each(new, |it, out| it.send(&[7; 40_000], out));
        refuse_each(new, |it, out| it.send_key_update(Requested, out));
    }
}

/// Two NewSessionTickets.
const TICKETS: [[u8; 6]; 2] = [[4, 0, 0, 2, 1, 1], [4, 0, 0, 2, 2, 2]];

#[test]
fn a_server_sends_no_ticket() {
    refuse_each(
        || server(buffer()),
        |it, out| it.send_handshake(&TICKETS[0], out),
    );
    refuse_each(
        || server(buffer()),
        |it, out| it.send_handshake(TICKETS.as_flattened(), out),
    );
}

/// What a server sends: the records, and the ends of each.
fn stream() -> Result<(Vec<u8>, Vec<usize>), RecordError> {
    let mut writer = Writer::from_secret(server_secret());
    let (mut bytes, mut ends) = (Vec::new(), Vec::new());
    for (content_type, content) in [
        (ApplicationData, &b"one"[..]),
        (Handshake, &[24, 0, 0, 1, 1]),
        (Handshake, TICKETS.as_flattened()),
        (ApplicationData, &[7; 100]),
        (Handshake, &TICKETS[0]),
    ] {
        writer.write(content_type, content, 0, &mut bytes)?;
        ends.push(bytes.len());
        if content.starts_with(&[24]) {
            writer.update()?;
        }
    }
    Ok((bytes, ends))
}

/// What a client has received when an item of the stream finds no memory: the length of the application data, the number of
/// messages, whether a KeyUpdate is owed, the record that has the item, and the reader's number after that record.
const RECEIVED: [(usize, usize, bool, usize, u64); 5] = [
    (0, 0, false, 0, 1),
    (3, 0, true, 2, 1),
    (3, 1, true, 2, 1),
    (3, 2, true, 3, 2),
    (103, 2, true, 4, 3),
];

/// An error ends the direction, with what came before it in `received`. Later records stay as they came.
#[test]
fn an_end_receives_what_came_before() -> Result<(), RecordError> {
    let (stream, ends) = stream()?;
    let mut items = Vec::new();
    for granted in 0.. {
        let mut client = idle();
        let mut bytes = stream.clone();
        let mut found = Received::new();
        let (result, is_refused) = refusing(granted, || client.receive(&mut bytes, &mut found));
        if !is_refused {
            assert_eq!(result, Ok(stream.len()));
            break;
        }
        assert_eq!(result, Err(ReceiveError::OutOfMemory));
        let state = (found.application_data.len(), found.messages.len());
        let item = RECEIVED.iter().position(|it| (it.0, it.1) == state);
        let item = item.expect("whole items");
        let (len, _, owes_update, record, number) = RECEIVED[item];
        assert_eq!(
            found.application_data,
            [&b"one"[..], &[7; 100]].concat()[..len]
        );
        assert!(found.messages.iter().eq(&TICKETS[..found.messages.len()]));
        assert_eq!(bytes[ends[record]..], stream[ends[record]..]);
        assert_eq!(client.owes_update(), owes_update);
        ends_with_an_alert(&mut client, &mut bytes, &mut found);
        assert_eq!(client.into_parts().reader.number(), number);
        items.push(item);
    }
    items.dedup();
    assert_eq!(items, [0, 1, 2, 3, 4]);
    Ok(())
}

/// Asserts that an end receives nothing more, and still sends the alert that the error calls for.
fn ends_with_an_alert(client: &mut Connection<'_>, bytes: &mut [u8], found: &mut Received) {
    assert!(client.is_ended());
    let before = (
        bytes.to_vec(),
        found.application_data.clone(),
        found.messages.clone(),
    );
    assert_eq!(client.receive(bytes, found), Err(ReceiveError::Ended));
    assert_eq!(bytes, before.0);
    assert_eq!(
        (&found.application_data, &found.messages),
        (&before.1, &before.2)
    );
    let alert = ReceiveError::OutOfMemory.alert();
    assert_eq!(alert, Some(AlertDescription::InternalError));
    assert_eq!(
        client.abort(AlertDescription::InternalError, &mut Vec::new()),
        Ok(())
    );
}

/// With room for the application data, nothing is asked of the allocator.
#[test]
fn an_end_receives_into_room() -> Result<(), RecordError> {
    let mut records = Vec::new();
    let mut server = server(buffer());
    server.send(&[7; 40_000], &mut records)?;
    server.send_key_update(NotRequested, &mut records)?;
    server.close(&mut records)?;
    let mut found = Received::new();
    found.application_data.reserve_exact(40_000);
    let mut client = idle();
    let (result, is_refused) = refusing(0, || client.receive(&mut records, &mut found));
    assert_eq!((result, is_refused), (Ok(records.len()), false));
    assert_eq!(found.application_data, [7; 40_000]);
    Ok(())
}
