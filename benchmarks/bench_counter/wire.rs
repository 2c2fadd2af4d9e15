//! Streams that are split into messages, and what these ask for.

ghost use Rattle.std.specs.Prelude.{⊤};

use anyhow::Result;
use ee_io::Source;
use ee_wire_calls::decode;
use ee_wire_framing::{Buffer, Next, WireEnd, next_message};
use std::alloc::{AllocError, Global};
use std::io::{self, Read};
use std::time::Instant;

/// A request and a query.
const STREAM: &[u8] =
    b"POST /rates HTTP/1.1\r\nContent-Length: 55\r\n\r\n{\"number\":1,\"rates\":[{\"from\":\"2010-11\",\"rate\":\"3.50\"}]}GET /value/50/2010-11/2012-02 HTTP/1.1\r\n\r\n";

/// A text again and again, at most `step` bytes a read.
#[derive(Drop)]
struct Rounds<'a> {
    text: &'a [u8],
    at: usize,
    later: u64,
    step: usize,
}

impl<'a> Rounds<'a> {
    fn of(text: &'a [u8], rounds: u64, step: usize) -> Rounds<'a> {
        Rounds {
            text,
            at: 0,
            later: rounds.saturating_sub(1),
            step,
        }
    }
}

impl<'a> Read for Rounds<'a> {
    fn read(&mut self, buf: &mut [u8]) -> io::Result<usize> {
        if self.at >= self.text.len() {
            if self.later == 0 {
                return Ok(0);
            }
            self.later -= 1;
            self.at = 0;
        }
        let rest = &self.text[self.at..];
        let count = rest.len().min(buf.len()).min(self.step);
        buf[..count].copy_from_slice(&rest[..count]);
        self.at += count;
        Ok(count)
    }
}

impl<'a> Source for Rounds<'a> {
    ghost may_have_failed = { λ _. ⊤ };

    fn read_once(&mut self, buf: &mut [u8]) -> io::Result<usize> {
        self.read(buf)
    }
}

/// What a stream had: messages, calls among them, bytes of bodies, and how it ended.
#[derive(Drop)]
struct Counts {
    messages: u64,
    calls: u64,
    bytes: u64,
    end: Result<Next, WireEnd>,
}

fn split(alloc: Global, reader: &mut Rounds) -> Counts {
    let mut buffer = Buffer::new(alloc);
    let mut counts = Counts {
        messages: 0,
        calls: 0,
        bytes: 0,
        end: Ok(Next::End),
    };
    for _ in 0..u64::MAX {
        let next = next_message(reader, &mut buffer);
        let Ok(Next::Message(message)) = next else {
            counts.end = next;
            return counts;
        };
        let body = buffer.part(message.body);
        counts.messages = counts.messages.wrapping_add(1);
        counts.bytes = counts.bytes.wrapping_add(body.len() as u64);
        let call = decode(
            alloc,
            buffer.part(message.target),
            buffer.part(message.method),
            body,
        );
        if call.is_ok() {
            counts.calls = counts.calls.wrapping_add(1);
        }
    }
    counts
}

/// A head with a line feed at every third byte, and never ended, with this number of lines: at most 5,456 within the
/// limit.
fn worst_head(alloc: Global, lines: usize) -> Result<Vec<u8>, AllocError> {
    let mut head = Vec::new(alloc);
    head.extend_from_slice(b"GET / HTTP/1.1\n")?;
    for _ in 0..lines {
        head.extend_from_slice(b"a:\n")?;
    }
    Ok(head)
}

/// Empty lines, as many as a head can begin with.
fn empty_lines(alloc: Global) -> Result<Vec<u8>, AllocError> {
    let mut head = Vec::new(alloc);
    for _ in 0..16_383 {
        head.push(b'\n')?;
    }
    Ok(head)
}

/// A request whose body has a million bytes.
fn long_body(alloc: Global) -> Result<Vec<u8>, AllocError> {
    let mut text = Vec::new(alloc);
    text.extend_from_slice(b"POST /rates HTTP/1.1\r\nContent-Length: 1000000\r\n\r\n")?;
    for _ in 0..1_000_000 {
        text.push(b' ')?;
    }
    Ok(text)
}

/// Splits the text a number of times, in pieces of one size, and prints what it had.
fn time(rt: &HostRuntime, name: &str, text: &[u8], rounds: u64, step: usize) -> Result<()> {
    let start = Instant::now(rt)?;
    let counts = split(rt.alloc(), &mut Rounds::of(text, rounds, step));
    let nanos = start.elapsed(rt)?.as_nanos();
    let bytes = u128::from(rounds).wrapping_mul(text.len() as u128).max(1);
    let rate = u128::from(counts.messages).wrapping_mul(1_000_000_000) / nanos.max(1);
    eprintln!(rt;
        "{name} in pieces of {step}: {} us, {} ns a byte, {rate} messages a second",
        nanos / 1000,
        nanos / bytes
    )?;
    print(rt, name, step, counts)
}

/// Prints what a stream had.
fn print(rt: &HostRuntime, name: &str, step: usize, counts: Counts) -> Result<()> {
    let Counts {
        messages,
        calls,
        bytes,
        end,
    } = counts;
    println!(rt;
        "{name} in pieces of {step}: {messages} messages, {calls} calls, {bytes} bytes of bodies, {end:?}"
    )?;
    Ok(())
}

/// The heads and the body that are split once.
#[derive(Clone, Copy)]
enum Long {
    QuarterHead,
    HalfHead,
    WorstHead,
    EmptyLines,
    Body,
}

impl Long {
    const EACH: [Long; 5] = [
        Long::QuarterHead,
        Long::HalfHead,
        Long::WorstHead,
        Long::EmptyLines,
        Long::Body,
    ];

    fn name(self) -> &'static str {
        match self {
            Long::QuarterHead => "a quarter of the worst head",
            Long::HalfHead => "half of the worst head",
            Long::WorstHead => "the worst head",
            Long::EmptyLines => "empty lines",
            Long::Body => "a long body",
        }
    }

    fn text(self, alloc: Global) -> Result<Vec<u8>, AllocError> {
        match self {
            Long::QuarterHead => worst_head(alloc, 1_364),
            Long::HalfHead => worst_head(alloc, 2_728),
            Long::WorstHead => worst_head(alloc, 5_456),
            Long::EmptyLines => empty_lines(alloc),
            Long::Body => long_body(alloc),
        }
    }

    /// Splits it once, in pieces of one size.
    fn time(self, rt: &HostRuntime, step: usize) -> Result<()> {
        let text = self.text(rt.alloc())?;
        time(rt, self.name(), &text, 1, step)
    }
}

/// The argument is the number of rounds of the stream of two messages, 2,000 without one.
pub fn bench(rt: &HostRuntime, arguments: &[String]) -> Result<()> {
    let rounds = match arguments.first() {
        Some(text) => text.parse()?,
        None => 2_000,
    };
    for step in [1, 64, 4_096] {
        time(rt, "two messages", STREAM, rounds, step)?;
        for long in Long::EACH {
            long.time(rt, step)?;
        }
    }
    Ok(())
}
