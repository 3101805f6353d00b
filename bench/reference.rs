//! What `pciids tidy` does, in plain Rust with std alone and without proofs: the yardstick of
//! bench/run. It keeps slices of the text in an ordered map, with one search an entry, and prints
//! into one buffer.

use std::collections::btree_map::Entry;
use std::collections::BTreeMap;
use std::io::{self, Read, Write};
use std::process::ExitCode;

const MOST_BYTES: usize = 4_194_304;
const MOST_ENTRIES: usize = 100_000;
const LONGEST_NAME: usize = 1_000;

/// A path as a number, ordered as the texts of paths are: the kind, and the numbers of its levels.
/// A bit before the second and one before the third say that they are there.
#[derive(Clone, Copy, PartialEq, Eq, PartialOrd, Ord)]
struct Key(u128);

impl Key {
    const VENDOR: u128 = 0;
    const CLASS: u128 = 1;
    const GENERIC: u128 = 2;

    fn top(kind: u128, number: u16) -> Key {
        Key(kind << 66 | (number as u128) << 50)
    }

    fn below(self, number: u16) -> Key {
        Key(self.0 | 1 << 49 | (number as u128) << 33)
    }

    fn lowest(self, number: u32) -> Key {
        Key(self.0 | 1 << 32 | number as u128)
    }

    fn kind(self) -> u128 {
        self.0 >> 66
    }

    fn first(self) -> u16 {
        (self.0 >> 50) as u16
    }

    fn second(self) -> Option<u16> {
        (self.0 >> 49 & 1 == 1).then_some((self.0 >> 33) as u16)
    }

    fn third(self) -> Option<u32> {
        (self.0 >> 32 & 1 == 1).then_some(self.0 as u32)
    }
}

/// What the lines below belong to: nothing yet, a block that is skipped, or one with its head and
/// its open entry of depth 1.
#[derive(Clone, Copy)]
enum Open {
    Nothing,
    Skipped,
    Block { head: Key, middle: Option<Key> },
}

type Items<'a> = BTreeMap<Key, &'a [u8]>;

fn digit(byte: u8) -> Option<u16> {
    match byte {
        b'0'..=b'9' => Some((byte - b'0') as u16),
        b'a'..=b'f' => Some((byte - b'a') as u16 + 10),
        b'A'..=b'F' => Some((byte - b'A') as u16 + 10),
        _ => None,
    }
}

/// The number of WIDTH digits in front, and what comes after it.
fn number<const WIDTH: usize>(bytes: &[u8]) -> Option<(u16, &[u8])> {
    let (digits, rest) = bytes.split_first_chunk::<WIDTH>()?;
    let mut value = 0;
    for byte in digits {
        value = value << 4 | digit(*byte)?;
    }
    Some((value, rest))
}

/// The number of WIDTH digits in front, before a blank, and what comes after that.
fn id<const WIDTH: usize>(bytes: &[u8]) -> Result<(u16, &[u8]), &'static str> {
    match number::<WIDTH>(bytes) {
        Some((value, [b' ' | b'\t', rest @ ..])) => Ok((value, rest)),
        _ => Err("4 BadId"),
    }
}

fn trimmed(bytes: &[u8]) -> &[u8] {
    let blanks = bytes.iter().take_while(|b| matches!(b, b' ' | b'\t')).count();
    &bytes[blanks..]
}

fn name(bytes: &[u8]) -> Result<&[u8], &'static str> {
    let name = trimmed(bytes);
    if name.is_empty() {
        return Err("5 NoName");
    }
    if name.len() > LONGEST_NAME || name.iter().any(|b| (*b < 32 && *b != b'\t') || *b == 127) {
        return Err("6 BadName");
    }
    Ok(name)
}

/// The key and the name of an entry; none where the line is no entry.
fn entry<'a>(
    line: &'a [u8],
    open: &mut Open,
    items: &Items,
) -> Result<Option<(Key, &'a [u8])>, &'static str> {
    if matches!(trimmed(line), [] | [b'#', ..]) {
        return Ok(None);
    }
    let depth = line.iter().take_while(|b| **b == b'\t').count();
    let body = &line[depth..];
    let (key, rest) = match (depth, *open) {
        (0, _) => match top(body, items)? {
            (Open::Block { head, .. }, Some(rest)) => (head, rest),
            (opened, _) => {
                *open = opened;
                return Ok(None);
            }
        },
        (_, Open::Skipped) => return Ok(None),
        (1, Open::Block { head, .. }) => {
            let (number, rest) = if head.kind() == Key::CLASS {
                id::<2>(body)?
            } else {
                id::<4>(body)?
            };
            (head.below(number), rest)
        }
        (
            2,
            Open::Block {
                head,
                middle: Some(middle),
            },
        ) if head.kind() == Key::CLASS => {
            let (number, rest) = id::<2>(body)?;
            (middle.lowest(number as u32), rest)
        }
        (
            2,
            Open::Block {
                head,
                middle: Some(middle),
            },
        ) if head.kind() == Key::VENDOR => {
            let (vendor, rest) = id::<4>(body)?;
            let (device, rest) = id::<4>(rest)?;
            (middle.lowest((vendor as u32) << 16 | device as u32), rest)
        }
        (2, Open::Block { head, .. }) if head.kind() == Key::GENERIC => return Err("2 TooDeep"),
        (1 | 2, _) => return Err("3 NoParent"),
        _ => return Err("2 TooDeep"),
    };
    let name = name(rest)?;
    match open {
        Open::Block { middle, .. } if depth == 1 => *middle = Some(key),
        _ if depth == 0 => {
            *open = Open::Block {
                head: key,
                middle: None,
            }
        }
        _ => {}
    }
    Ok(Some((key, name)))
}

/// The block that a line of depth 0 opens, and for an entry what comes after its number.
fn top<'a>(body: &'a [u8], items: &Items) -> Result<(Open, Option<&'a [u8]>), &'static str> {
    let block = |kind, number| Open::Block {
        head: Key::top(kind, number),
        middle: None,
    };
    match body {
        [b'C', b' ', body @ ..] => {
            let (class, rest) = id::<2>(body)?;
            Ok((block(Key::CLASS, class), Some(rest)))
        }
        [b'S', b' ', body @ ..] => {
            let (vendor, rest) = number::<4>(body).ok_or("4 BadId")?;
            if !trimmed(rest).is_empty() {
                return Err("4 BadId");
            }
            if !items.contains_key(&Key::top(Key::VENDOR, vendor)) {
                return Err("8 VendorMissing");
            }
            Ok((block(Key::GENERIC, vendor), None))
        }
        [b'A'..=b'Z', b' ', ..] => Ok((Open::Skipped, None)),
        body => {
            let (vendor, rest) = id::<4>(body)?;
            Ok((block(Key::VENDOR, vendor), Some(rest)))
        }
    }
}

fn read(text: &[u8]) -> Result<Items<'_>, String> {
    let utf8 = match std::str::from_utf8(text) {
        Ok(_) => text.len(),
        Err(error) => error.valid_up_to(),
    };
    let mut items = Items::new();
    let mut open = Open::Nothing;
    let mut end = 0;
    for (at, line) in text.split(|b| *b == b'\n').enumerate() {
        let fault = |what: &str| format!("line {}: {what}", at + 1);
        end += line.len();
        if end > utf8 {
            return Err(fault("1 NotUtf8"));
        }
        end += 1;
        let line = line.strip_suffix(b"\r").unwrap_or(line);
        let Some((key, name)) = entry(line, &mut open, &items).map_err(fault)? else {
            continue;
        };
        let is_full = items.len() == MOST_ENTRIES;
        match items.entry(key) {
            Entry::Occupied(_) => return Err(fault("7 Duplicate")),
            Entry::Vacant(_) if is_full => return Err("too many entries".into()),
            Entry::Vacant(place) => place.insert(name),
        };
    }
    Ok(items)
}

fn push_hex<const WIDTH: usize>(out: &mut Vec<u8>, number: u32) {
    let digit = |at| number >> (4 * (WIDTH - 1 - at)) & 15;
    let digits: [u8; WIDTH] =
        std::array::from_fn(|at| b"0123456789abcdef"[digit(at) as usize]);
    out.extend_from_slice(&digits);
}

fn print(items: &Items, size: usize) -> Vec<u8> {
    let mut out = Vec::with_capacity(size);
    out.extend_from_slice(b"# PCI ID registry\n");
    let mut block = None;
    for (key, name) in items {
        let first = key.first() as u32;
        if key.kind() == Key::GENERIC && block != Some(first) {
            out.extend_from_slice(b"S ");
            push_hex::<4>(&mut out, first);
            out.push(b'\n');
            block = Some(first);
        }
        match (key.kind() == Key::CLASS, key.second(), key.third()) {
            (false, None, _) => push_hex::<4>(&mut out, first),
            (true, None, _) => {
                out.extend_from_slice(b"C ");
                push_hex::<2>(&mut out, first);
            }
            (false, Some(second), None) => {
                out.push(b'\t');
                push_hex::<4>(&mut out, second as u32);
            }
            (true, Some(second), None) => {
                out.push(b'\t');
                push_hex::<2>(&mut out, second as u32);
            }
            (false, _, Some(third)) => {
                out.extend_from_slice(b"\t\t");
                push_hex::<4>(&mut out, third >> 16);
                out.push(b' ');
                push_hex::<4>(&mut out, third & 0xffff);
            }
            (true, _, Some(third)) => {
                out.extend_from_slice(b"\t\t");
                push_hex::<2>(&mut out, third);
            }
        }
        out.extend_from_slice(b"  ");
        out.extend_from_slice(name);
        out.push(b'\n');
    }
    out
}

fn main() -> ExitCode {
    let mut text = Vec::new();
    if io::stdin()
        .lock()
        .take(MOST_BYTES as u64 + 1)
        .read_to_end(&mut text)
        .is_err()
    {
        eprintln!("file: failed");
        return ExitCode::from(3);
    }
    if text.len() > MOST_BYTES {
        eprintln!("too large");
        return ExitCode::from(1);
    }
    match read(&text) {
        Ok(items) => match io::stdout().write_all(&print(&items, text.len() + 64)) {
            Ok(()) => ExitCode::SUCCESS,
            Err(_) => ExitCode::from(3),
        },
        Err(fault) => {
            eprintln!("{fault}");
            ExitCode::from(1)
        }
    }
}
