//! Text lines: frames whole and broken, payloads good and bad, framings.

use crate::author::{hex, Author};
use crate::commands;
use crate::rng::Rng;
use second::text::{Form, CLOSE, OPEN};

/// A payload between its tags.
pub fn framed(payload: &[u8]) -> Vec<u8> {
    [OPEN, payload, CLOSE].concat()
}

/// A read of these bytes with a scratch buffer of this size.
pub fn receive(author: &mut Author, scratch: usize, received: &[u8]) {
    author.say(&format!("L {scratch:04X} {}", hex(received)));
}

/// A read that switches to the form.
pub fn switch(author: &mut Author, form: Form) {
    let scratch = author.rng.below(3);
    receive(author, scratch, &framed(form.text()));
}

/// A read that switches to either form.
pub fn switch_by_lot(author: &mut Author) {
    let form = author.either_form();
    switch(author, form);
}

/// A read that switches to the form that the profile does not have.
pub fn switch_away(author: &mut Author) {
    let form = match author.board().form_of_profile() {
        Form::Raw => Form::Ascii,
        Form::Ascii => Form::Raw,
    };
    switch(author, form);
}

/// Bytes in ASCII form, digits of either case.
pub fn spaced(bytes: &[u8], rng: &mut Rng) -> Vec<u8> {
    let pairs: Vec<String> = bytes
        .iter()
        .map(|byte| if rng.once_in(2) { format!("{byte:02x}") } else { format!("{byte:02X}") })
        .collect();
    pairs.join(" ").into_bytes()
}

/// Received bytes without a complete frame.
fn broken(rng: &mut Rng) -> Vec<u8> {
    let frames: [&[u8]; 14] = [
        b"",
        b"<",
        b"<cmd",
        b"<cmd>",
        b"<cmd>11 07",
        b"</cmd>",
        b"</cmd><cmd>",
        b"<cmd></cmd",
        b"<cmd</cmd>",
        b"<CMD>11</CMD>",
        b"<cmd >11</cmd>",
        b"cmd>11</cmd>",
        b"11 07</cmd><cmd>02",
        b"<rsp>11</rsp>\r\n",
    ];
    rng.pick(&frames).to_vec()
}

/// Payloads that hold tags or parts of them.
fn tagged(rng: &mut Rng) -> Vec<u8> {
    let payloads: [&[u8]; 12] = [
        b"<cmd>",
        b"<cmd>11 07",
        b"</cmd",
        b"<",
        b"<</cm",
        b"<cmd><cfg:raw/>",
        b"<cfg:raw/",
        b"<cfg:ascii>",
        b" <cfg:ascii/>",
        b"<CFG:RAW/>",
        b"<cfg:raw/> ",
        b"<cfg:ascii/",
    ];
    rng.pick(&payloads).to_vec()
}

/// Payloads that are nearly of the ASCII form.
fn bad_hex(rng: &mut Rng) -> Vec<u8> {
    let payloads: [&[u8]; 27] = [
        b"",
        b" ",
        b"1",
        b"11 ",
        b" 11",
        b"11  07",
        b"1107",
        b"11 0",
        b"11 0g",
        b"1 107",
        b"11\t07",
        b"0x11",
        b"11 07 ",
        b"11 7",
        b"111 07",
        b"11 07 2",
        b"11 :0",
        b"11 0@",
        b"11 0G",
        b"11 0`",
        b"/1 07",
        b"11,07",
        b"11\n07",
        b"  ",
        b"11 07  02",
        b"gg",
        b"1 1 ",
    ];
    rng.pick(&payloads).to_vec()
}

/// Something to receive, whatever the form in force is.
fn anything(author: &mut Author) -> Vec<u8> {
    let (board, rng) = author.board_and_rng();
    let command = commands::any(board, rng);
    let payload = match rng.below(10) {
        0 => return broken(rng),
        1 => tagged(rng),
        2 => bad_hex(rng),
        3 => sized(rng),
        4 => Form::Raw.text().to_vec(),
        5 => Form::Ascii.text().to_vec(),
        6 => command,
        _ => spaced(&command, rng),
    };
    let mut received = framed(&payload);
    match rng.below(6) {
        0 => received = [&b"</cmd>\r\n"[..], &received].concat(),
        1 => received.extend_from_slice(b"\r\n<cmd><cfg:raw/></cmd>"),
        2 => received = [&b"<cm<"[..], &received, b"</cmd>"].concat(),
        _ => {}
    }
    received
}

/// Payloads around the limit, raw bytes or hex.
fn sized(rng: &mut Rng) -> Vec<u8> {
    let length = rng.pick(&[253, 254, 255, 256, 257, 258, 400]);
    if rng.once_in(2) {
        (0..length).map(|_| rng.byte()).collect()
    } else {
        let bytes: Vec<u8> = (0..length / 3 + 1).map(|_| rng.byte()).collect();
        let mut text = spaced(&bytes, rng);
        text.resize(length, b'0');
        text
    }
}

/// One read and what a framing makes of it.
pub fn random(author: &mut Author) {
    let received = anything(author);
    let scratch = match author.rng.below(4) {
        0 => author.rng.below(10),
        1 => author.rng.pick(&[84, 85, 86, 0x200]),
        _ => author.rng.pick(&[4, 5, 6, 7, 8, 12]),
    };
    receive(author, scratch, &received);
    if author.rng.once_in(3) {
        commands::random(author);
    }
    frame(author);
}

/// Room around what the reply or an echo takes in either form.
fn frame(author: &mut Author) {
    let reply = author.board().waiting_reply().len();
    let raw = reply + 13;
    let ascii = 3 * reply + 12;
    let rooms =
        [0, 1, raw - 1, raw, raw + 1, ascii - 1, ascii, ascii + 1, 22, 23, 24, 25, 26, 0x400];
    for _ in 0..2 {
        let room = author.rng.pick(&rooms);
        author.say(&format!("F {room:04X}"));
    }
}

/// Some of each in both forms, short enough for every mode. It ends in the ASCII form.
pub fn some(author: &mut Author) {
    for form in [Form::Raw, Form::Ascii] {
        let noop = author.command(0x02, &[]);
        let text = spaced(&noop, &mut author.rng);
        for scratch in [0, 3, 4, 6] {
            receive(author, scratch, &framed(&text));
        }
        receive(author, 4, &framed(b"1107"));
        receive(author, 4, &framed(b""));
        receive(author, 2, &framed(&[b'1'; 257]));
        receive(author, 2, b"<cmd>11 07");
        author.say("F 0020");
        switch(author, form);
        author.say("F 0016");
        author.say("F 001A");
        author.give(0x02, &[]);
        for room in [0, 0x11, 0x12, 0x1A, 0x1B] {
            author.say(&format!("F {room:04X}"));
        }
        for length in [0, 4, 5, 7] {
            author.say(&format!("R {length:04X}"));
        }
        author.idle();
        author.say("F 0003");
        author.say("R 0006");
        if !author.is_brief() {
            author.show();
        }
    }
}

/// Every kind of read and framing in both forms.
pub fn all(author: &mut Author) {
    for form in [Form::Raw, Form::Ascii] {
        switch(author, form);
        switch(author, form);
        frames_of_each(author);
        reads_of_each(author);
        switch(author, if form == Form::Raw { Form::Ascii } else { Form::Raw });
        frames_of_each(author);
    }
}

/// Framings of an echo, of nothing, and of replies of every size.
fn frames_of_each(author: &mut Author) {
    for room in [0, 1, 22, 23, 24, 25, 26] {
        author.say(&format!("F {room:04X}"));
    }
    author.idle();
    for room in [0, 1, 18] {
        author.say(&format!("F {room:04X}"));
    }
    for code in [0x02, 0x42, 0x50, 0x52, 0x03] {
        if code == 0x52 && author.is_brief() {
            continue;
        }
        author.give(code, &[]);
        let reply = author.board().waiting_reply().len();
        for room in [0, reply + 12, reply + 13, reply + 14, 3 * reply + 11, 3 * reply + 12] {
            if code == 0x50 && author.skips() {
                continue;
            }
            author.say(&format!("F {room:04X}"));
        }
    }
    author.say("F 0400");
}

/// Reads without a frame, with odd payloads, and with payloads around each limit.
fn reads_of_each(author: &mut Author) {
    for seed in 0..90 {
        let mut rng = Rng::new(seed);
        let received = match seed % 3 {
            0 => broken(&mut rng),
            1 => framed(&tagged(&mut rng)),
            _ => framed(&bad_hex(&mut rng)),
        };
        receive(author, 3, &received);
    }
    let brief = author.is_brief();
    let lengths = [254, 256, 257, 253, 255, 258, 300];
    for length in lengths.into_iter().take(if brief { 3 } else { 7 }) {
        receive(author, 0x56, &framed(&vec![b'A'; length]));
        let bytes = vec![0x5A; length / 3 + 1];
        let mut text = spaced(&bytes, &mut author.rng);
        text.truncate(length);
        for scratch in [84, 85, 86].into_iter().take(if brief { 2 } else { 3 }) {
            receive(author, scratch, &framed(&text));
        }
    }
    let text = spaced(&[0x11, 0x07, 0xAB, 0x9f], &mut author.rng);
    for scratch in [0, 1, 3, 4, 5] {
        receive(author, scratch, &framed(&text));
        receive(author, scratch, &[b"</cmd>", &framed(&text)[..], b"</cmd>"].concat());
    }
    let whole = [vec![b'x'; 589], framed(b"")].concat();
    receive(author, 0, &whole);
    receive(author, 1, &[b"x<cmd>3", &framed(b"<cmd>11")[..]].concat());
}
