//! What the relay has to know of the frames of a packet (RFC 9000 section 19).

/// What the frames of a packet say.
#[derive(Default)]
pub struct Frames {
    /// The largest number that the packet acknowledges.
    pub acknowledged: Option<u64>,
    /// Whether the packet has HANDSHAKE_DONE.
    pub is_handshake_done: bool,
    /// Whether the packet closes the connection.
    pub is_close: bool,
}

impl Frames {
    /// Reads the frames of a payload, or returns `None` if one isn't whole or isn't known.
    pub fn read(mut payload: &[u8]) -> Option<Self> {
        let mut frames = Frames::default();
        while !payload.is_empty() {
            frames.read_one(&mut payload)?;
        }
        Some(frames)
    }

    fn read_one(&mut self, rest: &mut &[u8]) -> Option<()> {
        match varint(rest)? {
            0x00 | 0x01 => {}
            frame_type @ (0x02 | 0x03) => self.read_ack(rest, frame_type == 0x03)?,
            0x04 => varints(rest, 3)?,
            0x05 | 0x11 | 0x15 => varints(rest, 2)?,
            0x06 => {
                varints(rest, 1)?;
                skip_sized(rest)?;
            }
            0x07 => skip_sized(rest)?,
            frame_type @ 0x08..=0x0f => skip_stream(rest, frame_type)?,
            0x10 | 0x12..=0x14 | 0x16 | 0x17 | 0x19 => varints(rest, 1)?,
            0x18 => {
                varints(rest, 2)?;
                let id_len = usize::from(*rest.first()?);
                skip(rest, 1 + id_len + 16)?;
            }
            0x1a | 0x1b => skip(rest, 8)?,
            frame_type @ (0x1c | 0x1d) => {
                self.is_close = true;
                varints(rest, if frame_type == 0x1c { 2 } else { 1 })?;
                skip_sized(rest)?;
            }
            0x1e => self.is_handshake_done = true,
            _ => return None,
        }
        Some(())
    }

    fn read_ack(&mut self, rest: &mut &[u8], has_counts: bool) -> Option<()> {
        self.acknowledged = Some(varint(rest)?);
        varints(rest, 1)?;
        let ranges = varint(rest)?;
        varints(rest, 1)?;
        for _ in 0..ranges {
            varints(rest, 2)?;
        }
        varints(rest, if has_counts { 3 } else { 0 })
    }
}

/// A variable-length integer (RFC 9000 section 16).
fn varint(rest: &mut &[u8]) -> Option<u64> {
    let first = u64::from(*rest.first()?);
    let (bytes, after) = rest.split_at_checked(1 << (first >> 6))?;
    *rest = after;
    let value = bytes[1..].iter();
    Some(value.fold(first & 0x3f, |value, byte| value << 8 | u64::from(*byte)))
}

fn varints(rest: &mut &[u8], count: usize) -> Option<()> {
    (0..count).try_for_each(|_| varint(rest).map(drop))
}

fn skip(rest: &mut &[u8], len: usize) -> Option<()> {
    (_, *rest) = rest.split_at_checked(len)?;
    Some(())
}

/// Skips a length and as many bytes.
fn skip_sized(rest: &mut &[u8]) -> Option<()> {
    let len = varint(rest)?;
    skip(rest, usize::try_from(len).ok()?)
}

/// Skips a STREAM frame, whose type says whether it has an offset and a length.
fn skip_stream(rest: &mut &[u8], frame_type: u64) -> Option<()> {
    varints(rest, if frame_type & 0x04 == 0 { 1 } else { 2 })?;
    if frame_type & 0x02 != 0 {
        return skip_sized(rest);
    }
    *rest = &[];
    Some(())
}
