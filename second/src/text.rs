//! The text line: frames in, frames out.

use crate::hex;

#[derive(Clone, Copy, Debug, PartialEq, Eq)]
pub enum Form {
    Raw,
    Ascii,
}

impl Form {
    /// The payload that switches to this form, and its echo.
    pub fn text(self) -> &'static [u8] {
        match self {
            Form::Raw => b"<cfg:raw/>",
            Form::Ascii => b"<cfg:ascii/>",
        }
    }
}

/// The tags around a payload.
pub const OPEN: &[u8] = b"<cmd>";
pub const CLOSE: &[u8] = b"</cmd>";
const REPLY_OPEN: &[u8] = b"<rsp>";
const REPLY_CLOSE: &[u8] = b"</rsp>\r\n";

/// The most received bytes between the tags.
pub const LONGEST_PAYLOAD: usize = 256;

/// What a read found; `place` is the place behind the closing tag.
#[derive(Debug, PartialEq, Eq)]
pub enum Read<'a> {
    Command { payload: &'a [u8], place: usize },
    Switch { form: Form, place: usize },
}

#[derive(Clone, Copy, Debug, PartialEq, Eq)]
pub enum Refusal {
    /// 10
    NoFrame,
    /// 11
    TooLong { place: usize },
    /// 12
    NotHex { place: usize },
    /// 13
    ScratchTooShort { place: usize },
}

/// 13 of a framing.
#[derive(Clone, Copy, Debug, PartialEq, Eq)]
pub struct Short;

/// The first frame in the received bytes. In raw form the payload is a part of
/// them, in ASCII form it is the start of the scratch buffer.
pub fn read<'a>(
    form: &mut Form,
    received: &'a [u8],
    scratch: &'a mut [u8],
) -> Result<Read<'a>, Refusal> {
    let (payload, place) = scan(received).ok_or(Refusal::NoFrame)?;
    if payload.len() > LONGEST_PAYLOAD {
        return Err(Refusal::TooLong { place });
    }
    for switched in [Form::Raw, Form::Ascii] {
        if payload == switched.text() {
            *form = switched;
            return Ok(Read::Switch { form: switched, place });
        }
    }
    match *form {
        Form::Raw => Ok(Read::Command { payload, place }),
        Form::Ascii => read_pairs(payload, place, scratch),
    }
}

/// The payload of a frame in ASCII form, decoded into the scratch buffer.
fn read_pairs<'a>(
    payload: &[u8],
    place: usize,
    scratch: &'a mut [u8],
) -> Result<Read<'a>, Refusal> {
    let length = hex::spaced_length(payload).ok_or(Refusal::NotHex { place })?;
    if scratch.len() < length {
        return Err(Refusal::ScratchTooShort { place });
    }
    hex::decode_spaced(payload, &mut scratch[..length]);
    Ok(Read::Command { payload: &scratch[..length], place })
}

/// The payload of the first frame and the place behind it.
fn scan(received: &[u8]) -> Option<(&[u8], usize)> {
    let start = find(received, OPEN)? + OPEN.len();
    let length = find(&received[start..], CLOSE)?;
    Some((&received[start..start + length], start + length + CLOSE.len()))
}

/// Where the tag first stands.
pub(crate) fn find(bytes: &[u8], tag: &[u8]) -> Option<usize> {
    bytes.windows(tag.len()).position(|window| window == tag)
}

/// Frames a reply in the given form and tells the bytes written.
pub fn frame(form: Form, reply: &[u8], out: &mut [u8]) -> Result<usize, Short> {
    match form {
        Form::Raw => {
            let body = open_frame(reply.len(), out)?;
            body.copy_from_slice(reply);
            Ok(framed(reply.len()))
        }
        Form::Ascii => {
            let length = hex::spaced_size(reply.len());
            let body = open_frame(length, out)?;
            hex::encode_spaced(reply, body);
            Ok(framed(length))
        }
    }
}

/// Frames the echo of a form switch, which is plain text in either form.
pub fn frame_echo(switched: Form, out: &mut [u8]) -> Result<usize, Short> {
    frame(Form::Raw, switched.text(), out)
}

/// The bytes of a reply frame around a body of this many.
fn framed(body: usize) -> usize {
    REPLY_OPEN.len() + body + REPLY_CLOSE.len()
}

/// Writes the tags around a body and hands back the room for it.
fn open_frame(body: usize, out: &mut [u8]) -> Result<&mut [u8], Short> {
    let out = out.get_mut(..framed(body)).ok_or(Short)?;
    let (head, rest) = out.split_at_mut(REPLY_OPEN.len());
    let (body, tail) = rest.split_at_mut(body);
    head.copy_from_slice(REPLY_OPEN);
    tail.copy_from_slice(REPLY_CLOSE);
    Ok(body)
}
