// Written by tools/rust from crates/tls_messages/src/message_reader.rt. Don't edit.
//! Joining handshake messages from the contents of the records that they are cut into (RFC 8446 section 5.1).

use crate::message_error::MessageError;
use crate::message_type::{KEY_UPDATE, changes_keys};
use crate::stage::Stage;
use crate::{KEY_UPDATE_LEN, MESSAGE_HEADER_LEN};

/// Joins the handshake messages that records carry. A message may be cut over several records, and a record may have several
/// messages (RFC 8446 section 5.1).
///
/// If a record ends within a message, the reader keeps the part of the message. The caller lends it a buffer, whose length is
/// the most bytes that a message may have. An error ends the connection and closes the reader: every later call that can fail
/// returns `Closed`.
///
/// # Examples
///
/// A message that is cut over two records, and a KeyUpdate after it in the second record:
///
/// ```
/// use deerlapse::tls_messages::message_type::{KEY_UPDATE, NEW_SESSION_TICKET};
/// use deerlapse::tls_messages::{MessageError, MessageReader, Stage};
///
/// let mut buffer = [0; 4096];
/// let mut messages = MessageReader::new(&mut buffer, Stage::Client);
///
/// let mut content = &[NEW_SESSION_TICKET, 0, 0, 3, 1][..];
/// assert_eq!(messages.next(&mut content)?, None);
/// assert!(messages.is_cut());
///
/// let mut content = &[2, 3, KEY_UPDATE, 0, 0, 1, 0][..];
/// let ticket = [NEW_SESSION_TICKET, 0, 0, 3, 1, 2, 3];
/// assert_eq!(messages.next(&mut content)?, Some(&ticket[..]));
/// assert_eq!(messages.next(&mut content)?, Some(&[KEY_UPDATE, 0, 0, 1, 0][..]));
/// assert_eq!(messages.next(&mut content)?, None);
/// # Ok::<(), MessageError>(())
/// ```
///
/// <details><summary>Model</summary>
///
/// ```text
/// ghost Value = { Joining };
/// ghost view = { λ r. record {
///   message = cond r.is_whole (take r.filled r.buffer.now) [];
///   part = cond r.is_whole [] (take r.filled r.buffer.now);
///   bound = length r.buffer.now;
///   stage = r.stage;
///   is_closed = r.is_closed;
/// } };
/// ghost invariant = { λ r. (4 ≤ length r.buffer.now) × (r.filled ≤ length r.buffer.now)
///     × (IsFalse r.is_closed → IsPart (cond r.is_whole [] (take r.filled r.buffer.now))) };
/// ```
///
/// Definitions: [`Joining`](crate::specs::messages#Joining), [`IsPart`](crate::specs::messages#IsPart).
///
/// </details>
pub struct MessageReader<'b> {
    buffer: &'b mut [u8],
    filled: usize,
    is_whole: bool,
    stage: Stage,
    is_closed: bool,
}

impl<'b> MessageReader<'b> {
    /// Creates a reader that takes messages of at most as many bytes as the buffer has. The buffer must have at least
    /// [`MESSAGE_HEADER_LEN`] bytes. In Rust nothing checks this, and a later call may panic.
    ///
    /// <details><summary>Contract</summary>
    ///
    /// ```text
    /// requires { MESSAGE_HEADER_LEN ≤ length buffer.old }
    /// ensures { result ≡ record {
    ///   message = [];
    ///   part = [];
    ///   bound = length buffer.old;
    ///   stage = stage;
    ///   is_closed = false;
    /// } }
    /// ```
    ///
    /// </details>
    pub fn new(buffer: &'b mut [u8], stage: Stage) -> Self {
        MessageReader {
            buffer,
            filled: 0,
            is_whole: false,
            stage,
            is_closed: false,
        }
    }

    /// Sets which messages may come from now on (RFC 8446 sections 4 and 4.6), also if a message is cut. After the peer's
    /// Finished, for example, other messages may come than before.
    ///
    /// # Examples
    ///
    /// The Finished of a server ends the handshake:
    ///
    /// ```
    /// use deerlapse::tls_messages::message_type::FINISHED;
    /// use deerlapse::tls_messages::{MessageError, MessageReader, Stage};
    ///
    /// let mut buffer = [0; 4096];
    /// let mut messages = MessageReader::new(&mut buffer, Stage::Handshake);
    /// let mut content = &[FINISHED, 0, 0, 2, 7, 7][..];
    /// while let Some(message) = messages.next(&mut content)? {
    ///     if message[0] == FINISHED {
    ///         messages.set_stage(Stage::Client);
    ///     }
    /// }
    /// assert_eq!(messages.stage(), Stage::Client);
    /// # Ok::<(), MessageError>(())
    /// ```
    ///
    /// <details><summary>Contract</summary>
    ///
    /// ```text
    /// ensures { self.new ≡ record self.old { stage = stage } }
    /// ```
    ///
    /// </details>
    pub fn set_stage(&mut self, stage: Stage) {
        self.stage = stage;
    }

    /// Returns the `Stage` that decides which messages may come.
    ///
    /// <details><summary>Contract</summary>
    ///
    /// ```text
    /// ensures { result ≡ self.now.stage }
    /// ```
    ///
    /// </details>
    pub fn stage(&self) -> Stage {
        self.stage
    }

    /// Returns whether a message is cut: the reader has a part of it, and the rest is to come.
    ///
    /// <details><summary>Contract</summary>
    ///
    /// ```text
    /// ensures { IsFalse result ↔ (self.now.part ≡ []) }
    /// ```
    ///
    /// </details>
    pub fn is_cut(&self) -> bool {
        !self.is_whole && self.filled > 0
    }

    /// Returns whether the reader is closed, because it rejected a message.
    ///
    /// <details><summary>Contract</summary>
    ///
    /// ```text
    /// ensures { result ≡ self.now.is_closed }
    /// ```
    ///
    /// </details>
    pub fn is_closed(&self) -> bool {
        self.is_closed
    }

    /// Admits a record that is not a handshake record, unless a message is cut: no record of another type may come between its
    /// parts (RFC 8446 section 5.1). The caller calls this for each such record, also for an alert, but not for a
    /// ChangeCipherSpec that it drops (section 5).
    ///
    /// Fails with `Interrupted` if a message is cut, which closes the reader.
    ///
    /// <details><summary>Contract</summary>
    ///
    /// ```text
    /// ensures accepted { IsOk result ↔ (IsFalse self.old.is_closed × (self.old.part ≡ [])) }
    /// ensures closed { IsTrue self.old.is_closed → IsErrOf result MessageError.Closed }
    /// ensures interrupted { IsFalse self.old.is_closed
    ///     → IsOkUnless result MessageError.Interrupted }
    /// ensures kept { OnOk result (self.new ≡ self.old) }
    /// ensures closes { OnErr result (self.new ≡ record self.old { is_closed = true }) }
    /// ```
    ///
    /// </details>
    pub fn admit_other_record(&mut self) -> Result<(), MessageError> {
        if self.is_closed {
            return Err(MessageError::Closed);
        }
        if self.is_cut() {
            self.is_closed = true;
            return Err(MessageError::Interrupted);
        }
        Ok(())
    }

    /// Returns the next message, including its header, and takes its last bytes off the front of the content. Returns `None` if
    /// the content ends before the message does. The content is then used up, and the caller continues with the content of the
    /// next handshake record.
    ///
    /// As soon as the type and the length of a message are there, fails with `UnexpectedType` if a message of this type may not
    /// come (RFC 8446 sections 4.6.2 and 4.6.3, RFC 9001 sections 4.4, 6 and 8.3), with `KeyUpdateLength` if it is a KeyUpdate of
    /// another length, and with `TooLong` if it is longer than the buffer. When it is whole, fails with `KeyUpdateRequest` if it
    /// is a KeyUpdate whose byte is neither 0 nor 1, and with `DataAfterKeys` if the content continues after a ClientHello,
    /// ServerHello, EndOfEarlyData, Finished or KeyUpdate.
    ///
    /// <details><summary>Contract</summary>
    ///
    /// ```text
    /// ensures found { IfOk result (λ found. IfSome found (λ message. IsMessage message.now
    ///     × (messages_of (self.old.part ++ content.old.now) ≡ message.now ∷ messages_of content.new.now)
    ///     × (part_of (self.old.part ++ content.old.now) ≡ part_of content.new.now)
    ///     × (length content.new.now < length content.old.now))) }
    /// ensures taken { IfOk result (λ found. IfSome found (λ message. IsTaken message.now content.new.now
    ///     × IsExpected self.old.stage self.old.bound message.now)) }
    /// ensures ended { IfOk result (λ found. found ≡ None → (content.new.now ≡ [])
    ///     × (messages_of (self.old.part ++ content.old.now) ≡ [])) }
    /// ensures begins { IsOk result
    ///     → Begins self.old.stage self.old.bound (self.old.part ++ content.old.now) }
    /// ensures closed { IsTrue self.old.is_closed → IsErrOf result MessageError.Closed }
    /// ensures* leaves { sem 𝓛 (follows_so (the_row (record { mir = named 1; lft = [] }))
    ///     (the_row (record { mir = named 1; lft = [] }))
    ///     self.entry.ghost_name none (λ _ _. ⊤)
    ///     (λ now. Leaves self.old content.old.now result content.new.now now)) }
    /// ```
    ///
    /// Definitions: [`IsMessage`](crate::specs::messages#IsMessage),
    /// [`messages_of`](crate::specs::messages#messages_of), [`part_of`](crate::specs::messages#part_of),
    /// [`IsTaken`](crate::specs::messages#IsTaken), [`IsExpected`](crate::specs::messages#IsExpected),
    /// [`Begins`](crate::specs::messages#Begins), [`Leaves`](crate::specs::steps#Leaves).
    ///
    /// </details>
    pub fn next<'s>(&'s mut self, content: &mut &[u8]) -> Result<Option<&'s [u8]>, MessageError> {
        if !self.advance(content)? {
            return Ok(None);
        }
        Ok(Some(self.message()))
    }

    /// Moves bytes from the front of the content to the message that the reader is at, and returns whether the message is whole.
    // ensures rules { (self.new.bound ≡ self.old.bound) × (self.new.stage ≡ self.old.stage) }
    // ensures joined { IfErr result (λ error. IsFalse self.old.is_closed
    //     → self.old.part ++ content.old.now ≡ self.new.part ++ content.new.now) }
    // ensures found { IfOk result (λ found. IsTrue found → IsMessage self.new.message × (self.new.part ≡ [])
    //     × (messages_of (self.old.part ++ content.old.now) ≡ self.new.message ∷ messages_of content.new.now)
    //     × (part_of (self.old.part ++ content.old.now) ≡ part_of content.new.now)
    //     × (length content.new.now < length content.old.now)) }
    // ensures taken { IfOk result (λ found. IsTrue found → IsTaken self.new.message content.new.now
    //     × IsExpected self.old.stage self.old.bound self.new.message) }
    // ensures ended { IfOk result (λ found. IsFalse found → (self.new.message ≡ []) × (content.new.now ≡ [])
    //     × (messages_of (self.old.part ++ content.old.now) ≡ [])
    //     × (part_of (self.old.part ++ content.old.now) ≡ self.new.part)) }
    // ensures begins { IsOk result
    //     → Begins self.old.stage self.old.bound (self.old.part ++ content.old.now) }
    // ensures refused { IsFalse self.old.is_closed → IfErr result (λ error. (self.new.message ≡ [])
    //     × Refuses self.old.stage self.old.bound self.old.part self.new.part content.new.now error) }
    // ensures closed { IsTrue self.old.is_closed → IsErrOf result MessageError.Closed
    //     × (self.new ≡ self.old) × (content.new.now ≡ content.old.now) }
    // ensures closes { IsTrue self.new.is_closed ↔ IsErr result }
    fn advance(&mut self, content: &mut &[u8]) -> Result<bool, MessageError> {
        if self.is_closed {
            return Err(MessageError::Closed);
        }
        self.is_closed = true;
        if self.is_whole {
            self.filled = 0;
            self.is_whole = false;
        }
        let stage = self.stage;
        self.is_whole = next_message(stage, self.buffer, &mut self.filled, content)?;
        self.is_closed = false;
        Ok(self.is_whole)
    }

    /// Returns the message that was found last, or an empty slice if none was.
    // ensures { result.now ≡ self.now.message }
    fn message(&self) -> &[u8] {
        if self.is_whole {
            &self.buffer[..self.filled]
        } else {
            &[]
        }
    }
}

/// Moves bytes from the front of the content into the buffer, which has `filled` bytes of a message, until the message is whole,
/// and then checks the message. Returns whether it is whole.
// requires { (4 ≤ length buffer.old) × (filled.old ≤ length buffer.old) × IsPart (take filled.old buffer.old) }
// ensures within { filled.new ≤ length buffer.old }
// ensures joined { take filled.old buffer.old ++ content.old.now
//     ≡ take filled.new buffer.new ++ content.new.now }
// ensures found { IfOk result (λ found. IsTrue found → IsMessage (take filled.new buffer.new)
//     × (messages_of (take filled.old buffer.old ++ content.old.now)
//     ≡ take filled.new buffer.new ∷ messages_of content.new.now)
//     × (part_of (take filled.old buffer.old ++ content.old.now) ≡ part_of content.new.now)
//     × (length content.new.now < length content.old.now)) }
// ensures taken { IfOk result (λ found. IsTrue found → IsTaken (take filled.new buffer.new) content.new.now
//     × IsExpected stage (length buffer.old) (take filled.new buffer.new)) }
// ensures ended { IfOk result (λ found. IsFalse found → IsPart (take filled.new buffer.new)
//     × (content.new.now ≡ [])
//     × (messages_of (take filled.old buffer.old ++ content.old.now) ≡ [])
//     × (part_of (take filled.old buffer.old ++ content.old.now) ≡ take filled.new buffer.new)) }
// ensures begins { IsOk result → Begins stage (length buffer.old) (take filled.old buffer.old ++ content.old.now) }
// ensures refused { IfErr result (Refuses stage (length buffer.old) (take filled.old buffer.old)
//     (take filled.new buffer.new) content.new.now) }
fn next_message(
    stage: Stage,
    buffer: &mut [u8],
    filled: &mut usize,
    content: &mut &[u8],
) -> Result<bool, MessageError> {
    let is_whole = join(stage, buffer, filled, content)?;
    if is_whole {
        check_whole(&buffer[..*filled], content.is_empty())?;
    }
    Ok(is_whole)
}

/// Checks the byte of a KeyUpdate, and that a message that changes keys is the last of its record.
// requires { IsMessage message.now × (slice_index message.now 0 ≡ 24 → message_len message.now ≡ 5) }
// ensures accepted { IsOk result ↔ ((slice_index message.now 0 ≡ 24 → slice_index message.now 4 ≤ 1)
//     × (ChangesKeys message.now → IsTrue is_last)) }
// ensures refused { (rest : List ℕ) → (IsFalse is_last → rest ≢ [])
//     → IfErr result (RefusesMessage message.now rest) }
fn check_whole(message: &[u8], is_last: bool) -> Result<(), MessageError> {
    if message[0] == KEY_UPDATE && message[MESSAGE_HEADER_LEN] > 1 {
        return Err(MessageError::KeyUpdateRequest);
    }
    if changes_keys(message[0]) && !is_last {
        return Err(MessageError::DataAfterKeys);
    }
    Ok(())
}

/// Moves bytes from the front of the content into the buffer, which has `filled` bytes of a message, until the message is whole.
/// Returns whether it is whole.
// requires { (4 ≤ length buffer.old) × (filled.old ≤ length buffer.old) × IsPart (take filled.old buffer.old) }
// ensures within { filled.new ≤ length buffer.old }
// ensures joined { take filled.old buffer.old ++ content.old.now
//     ≡ take filled.new buffer.new ++ content.new.now }
// ensures found { IfOk result (λ found. IsTrue found → IsMessage (take filled.new buffer.new)
//     × (messages_of (take filled.old buffer.old ++ content.old.now)
//     ≡ take filled.new buffer.new ∷ messages_of content.new.now)
//     × (part_of (take filled.old buffer.old ++ content.old.now) ≡ part_of content.new.now)
//     × (length content.new.now < length content.old.now)) }
// ensures ended { IfOk result (λ found. IsFalse found → IsPart (take filled.new buffer.new)
//     × (content.new.now ≡ [])
//     × (messages_of (take filled.old buffer.old ++ content.old.now) ≡ [])
//     × (part_of (take filled.old buffer.old ++ content.old.now) ≡ take filled.new buffer.new)) }
// ensures accepted { IsOk result ↔ Begins stage (length buffer.old) (take filled.old buffer.old ++ content.old.now) }
// ensures refused { IfErr result (RefusesHeader stage (length buffer.old) (take filled.new buffer.new)) }
// ensures kept { OnErr result (length (take filled.new buffer.new) ≡ max 4 (length (take filled.old buffer.old))) }
fn join(
    stage: Stage,
    buffer: &mut [u8],
    filled: &mut usize,
    content: &mut &[u8],
) -> Result<bool, MessageError> {
    let header_end = MESSAGE_HEADER_LEN.max(*filled);
    *filled += fill(buffer, *filled, header_end, content);
    if *filled < MESSAGE_HEADER_LEN {
        return Ok(false);
    }
    let len = expected_len(stage, buffer)?;
    *filled += fill(buffer, *filled, len, content);
    Ok(*filled == len)
}

/// Returns the length of the message that begins with these bytes, if it may come and is no longer than they are.
// requires { 4 ≤ length start.now }
// ensures accepted { IsOk result ↔ IsExpected stage (length start.now) start.now }
// ensures len { IfOk result (λ n. n ≡ message_len start.now) }
// ensures refused { IfErr result (RefusesHeader stage (length start.now) start.now) }
fn expected_len(stage: Stage, start: &[u8]) -> Result<usize, MessageError> {
    let message_type = start[0];
    if !stage.allows(message_type) {
        return Err(MessageError::UnexpectedType(message_type));
    }
    let len = message_len(start);
    if message_type == KEY_UPDATE && len != KEY_UPDATE_LEN {
        return Err(MessageError::KeyUpdateLength);
    }
    if len > start.len() {
        return Err(MessageError::TooLong(len));
    }
    Ok(len)
}

/// Moves bytes from the front of the content into `buffer[at..end]`, as many as there are, and returns how many.
// requires { (at ≤ end) × (end ≤ length buffer.old) }
// ensures filled { take (at + result) buffer.new ++ content.new.now ≡ take at buffer.old ++ content.old.now }
// ensures within { at + result ≤ end }
// ensures used { at + result < end → content.new.now ≡ [] }
fn fill(buffer: &mut [u8], at: usize, end: usize, content: &mut &[u8]) -> usize {
    let count = (end - at).min(content.len());
    let (taken, rest) = content.split_at(count);
    buffer[at..at + count].copy_from_slice(taken);
    *content = rest;
    count
}

/// Returns the length of the message that begins with these bytes, including its header.
// requires { 4 ≤ length start.now }
// ensures { result ≡ message_len start.now }
pub(crate) fn message_len(start: &[u8]) -> usize {
    MESSAGE_HEADER_LEN
        + (65536 * usize::from(start[1]) + 256 * usize::from(start[2]) + usize::from(start[3]))
}
