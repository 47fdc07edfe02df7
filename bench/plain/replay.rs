//! `replay` of plain records, plain and unproved, written for speed: what the proved program is timed beside.
//!
//! * One sorted array of keys per ring, of the members of the view; a monitor is one binary search.
//! * A step looks at the rings and members that it touches, never at all that is kept.
//! * The due queue is a plain queue, since all accusations have one timeout; an entry whose
//!   accusation fell meanwhile is skipped. A `tick` line goes from one due time to the next.
//! * A good line is read in one pass; only a line that this pass does not take is judged by the
//!   table of bad words. Nothing is allocated per line.

use std::collections::VecDeque;
use std::ffi::OsStr;
use std::fs::File;
use std::io::{self, ErrorKind, Read, Write};
use std::os::fd::{AsFd, BorrowedFd};
use std::process::{ExitCode, exit};

const OK: u8 = 0;
const USAGE: u8 = 2;
const BAD_INPUT: u8 = 3;
const READ_FAULT: u8 = 5;
const WRITE_FAULT: u8 = 6;

const MEMBERS: usize = 1024;
const MAX_T: u64 = 31;
const MAX_RINGS: usize = 63;
const MAX_TIMEOUT: u64 = 10_000;
const MAX_LINE: usize = 65_600;
const MAX_LINES: usize = 100_000;
const MAX_TICK: u64 = 10_000;
const MAX_TICKS: u64 = 1_000_000;

const INPUT: usize = 1 << 17; // more than the longest line with its line feed
const OUTPUT: usize = 1 << 16;

/// Standard input in a window that can hold any line.
struct Input {
    file: File,
    bytes: Vec<u8>,
    at: usize,
    end: usize,
    over: bool,
}

impl Input {
    /// Reads more behind the rest, or finds the end of the input.
    fn refill(&mut self) -> io::Result<()> {
        self.bytes.copy_within(self.at..self.end, 0);
        self.end -= self.at;
        self.at = 0;
        let n = loop {
            match self.file.read(&mut self.bytes[self.end..]) {
                Err(error) if error.kind() == ErrorKind::Interrupted => {}
                result => break result?,
            }
        };
        self.end += n;
        self.over = n == 0;
        Ok(())
    }
}

/// The decimal digits of 0 to 1,023, each at the beginning of its four bytes.
static DECIMAL: [[u8; 4]; MEMBERS] = decimals();

const fn decimals() -> [[u8; 4]; MEMBERS] {
    let mut table = [[0; 4]; MEMBERS];
    let mut n = 0;
    while n < MEMBERS {
        table[n] = table[n / 10];
        table[n][decimal_length(n) - 1] = b'0' + (n % 10) as u8;
        n += 1;
    }
    table
}

const fn decimal_length(n: usize) -> usize {
    1 + (n > 9) as usize + (n > 99) as usize + (n > 999) as usize
}

/// Appends a number below 1,024.
#[inline]
fn put_small(bytes: &mut Vec<u8>, n: usize) {
    let length = bytes.len() + decimal_length(n);
    bytes.extend_from_slice(&DECIMAL[n]);
    bytes.truncate(length);
}

/// Standard output behind a buffer. A failed write ends the process.
struct Output {
    file: File,
    bytes: Vec<u8>,
}

impl Output {
    fn flush(&mut self) {
        if self.file.write_all(&self.bytes).is_err() {
            exit(WRITE_FAULT.into());
        }
        self.bytes.clear();
    }

    #[inline]
    fn text(&mut self, text: &[u8]) {
        self.bytes.extend_from_slice(text);
    }

    #[inline]
    fn end_line(&mut self) {
        self.bytes.push(b'\n');
        if self.bytes.len() >= OUTPUT {
            self.flush();
        }
    }

    /// A verdict, or the rest of one, and the end of its line.
    #[inline]
    fn verdict(&mut self, text: &[u8]) {
        self.text(text);
        self.end_line();
    }

    /// A space and a number below 1,024.
    #[inline]
    fn small(&mut self, n: usize) {
        self.bytes.push(b' ');
        put_small(&mut self.bytes, n);
    }

    /// A space and a number.
    fn number(&mut self, mut n: u64) {
        if n < MEMBERS as u64 {
            return self.small(n as usize);
        }
        let mut digits = [b' '; 21];
        let mut at = digits.len();
        while n > 0 {
            at -= 1;
            digits[at] = b'0' + (n % 10) as u8;
            n /= 10;
        }
        self.text(&digits[at - 1..]);
    }

    fn event(&mut self, now: u32, what: &[u8]) {
        self.text(b"at");
        self.number(now.into());
        self.text(what);
    }

    /// The event `expired` or `fell`.
    fn accusation(&mut self, now: u32, what: &[u8], kept: Kept, epoch: u64) {
        self.event(now, what);
        self.small(kept.accuser.into());
        self.small(kept.accused.into());
        self.number(epoch);
        self.small(kept.ring.into());
        self.end_line();
    }
}

/// What follows a line's first word.
struct Words<'a> {
    text: &'a [u8],
    rest: &'a [u8],
}

impl<'a> Words<'a> {
    #[inline(always)]
    fn after(text: &'a [u8], word: &[u8]) -> Option<Words<'a>> {
        Some(Words { text, rest: text.strip_prefix(word)? })
    }

    /// One space and a number within the range; what ends it is left for the next call.
    #[inline(always)]
    fn number(&mut self, low: u64, high: u64) -> Option<u64> {
        let [b' ', digits @ ..] = self.rest else { return None };
        let (mut value, mut length) = (0u64, 0);
        while let Some(&byte @ b'0'..=b'9') = digits.get(length) {
            value = value.wrapping_mul(10).wrapping_add((byte - b'0').into());
            length += 1;
        }
        if length > 19 {
            value = number(&digits[..length])?;
        } else if length == 0 || (digits[0] == b'0' && length > 1) {
            return None;
        }
        self.rest = &digits[length..];
        (low <= value && value <= high).then_some(value)
    }

    #[inline(always)]
    fn member(&mut self) -> Option<usize> {
        self.number(0, MEMBERS as u64 - 1).map(|m| m as usize)
    }

    #[inline(always)]
    fn place(&mut self) -> Option<u32> {
        self.number(0, u32::MAX.into()).map(|n| n as u32)
    }

    /// Writes the line back where nothing is left of it; answers its length with its line feed.
    #[inline(always)]
    fn end(self, out: &mut Output) -> Option<usize> {
        let length = self.text.len() - self.rest.len();
        self.rest.first().filter(|&&byte| byte == b'\n')?;
        out.text(&self.text[..length]);
        Some(length + 1)
    }
}

/// A word that is spelled as a number.
#[cold]
fn number(word: &[u8]) -> Option<u64> {
    let digits = word.iter().all(u8::is_ascii_digit);
    let zero = word.len() > 1 && word[0] == b'0';
    str::from_utf8(word).ok().filter(|_| digits && !zero)?.parse().ok()
}

#[derive(Clone, Copy, Default)]
struct Member {
    epoch: u64,   // of the newest note, 0 for none
    gone: u64,    // the greatest epoch of an expired accusation, 0 for none
    mask: u64,    // of the newest note, 0 where the member has left
    against: u64, // the rings with a kept accusation against this member
    joined: bool,
}

impl Member {
    #[inline]
    fn in_view(&self) -> bool {
        self.mask != 0 && self.epoch > self.gone
    }
}

/// A kept accusation, in the order of the events. Its epoch is that of the newest note.
#[derive(Clone, Copy, Default, PartialEq, Eq, PartialOrd, Ord)]
struct Kept {
    accused: u16,
    ring: u8,
    accuser: u16,
    since: u32,
}

fn member_of(key: u64) -> usize {
    (key & (MEMBERS as u64 - 1)) as usize
}

/// The places of the set bits.
fn bits(mut set: u64) -> impl Iterator<Item = usize> {
    std::iter::from_fn(move || {
        let bit = set.trailing_zeros();
        set &= set.wrapping_sub(1);
        (bit < 64).then_some(bit as usize)
    })
}

#[derive(Default)]
struct Membership {
    t: u32,
    k: usize,
    timeout: u32,
    lives: u64,
    now: u32,
    members: Vec<Member>,
    keys: Vec<u64>,       // by member, then ring: the place, then the member
    rings: Vec<Vec<u64>>, // by ring: the keys of the members of the view in order
    kept: Vec<Kept>,      // by accused, then ring; it counts where `against` has the ring
    due: VecDeque<Kept>,
    view: [u64; MEMBERS / 64],
    view_text: Vec<u8>, // ` M` for each member of the view; empty where it has to be made anew
    expired: Vec<Kept>,
    fell: Vec<Kept>,
}

impl Membership {
    fn new(t: u32, timeout: u32) -> Membership {
        let k = 2 * t as usize + 1;
        Membership {
            t,
            k,
            timeout,
            lives: 1,
            members: vec![Member::default(); MEMBERS],
            keys: vec![0; MEMBERS * k],
            rings: (0..k).map(|_| Vec::with_capacity(MEMBERS)).collect(),
            kept: vec![Kept::default(); MEMBERS * k],
            ..Membership::default()
        }
    }

    /// Where the member's key is or would be on the ring.
    #[inline]
    fn search(&self, ring: usize, m: usize) -> usize {
        let key = self.keys[m * self.k + ring];
        self.rings[ring].partition_point(|&other| other < key)
    }

    /// The same on all rings; these searches do not wait for each other.
    fn search_all(&self, m: usize) -> [usize; MAX_RINGS] {
        let mut found = [0; MAX_RINGS];
        for (ring, at) in found[..self.k].iter_mut().enumerate() {
            *at = self.search(ring, m);
        }
        found
    }

    #[inline]
    fn monitor(&self, ring: usize, m: usize) -> Option<usize> {
        let row = &self.rings[ring];
        let at = self.search(ring, m);
        let before = if at > 0 { row[at - 1] } else { *row.last()? };
        Some(member_of(before)).filter(|&monitor| monitor != m)
    }

    /// Whether what was accepted once is still kept.
    fn is_kept(&self, due: Kept) -> bool {
        self.members[usize::from(due.accused)].against >> due.ring & 1 == 1
            && self.kept[usize::from(due.accused) * self.k + usize::from(due.ring)] == due
    }

    /// Takes a kept accusation away.
    fn drop_kept(&mut self, accused: usize, ring: usize) -> Kept {
        self.members[accused].against &= !(1 << ring);
        self.kept[accused * self.k + ring]
    }

    fn write_fell(&mut self, out: &mut Output) {
        self.fell.sort_unstable();
        for kept in self.fell.drain(..) {
            let epoch = self.members[usize::from(kept.accused)].epoch;
            out.accusation(self.now, b" fell", kept, epoch);
        }
    }

    fn join(&mut self, m: usize, places: &[u32; MAX_RINGS], out: &mut Output) {
        if self.members[m].joined {
            return out.verdict(b" : refused already-member");
        }
        self.members[m].joined = true;
        for (key, &place) in self.keys[m * self.k..][..self.k].iter_mut().zip(places) {
            *key = u64::from(place) << 10 | m as u64;
        }
        out.verdict(b" : joined");
    }

    fn note(&mut self, m: usize, epoch: u64, mask: u64, out: &mut Output) {
        let old = self.members[m];
        let newest = (old.epoch, old.mask);
        let good_mask = mask == 0 || mask >> self.k == 0 && mask.count_ones() > self.t;
        match old.joined {
            false => return out.verdict(b" : refused unknown-member"),
            true if !good_mask => return out.verdict(b" : refused bad-mask"),
            true if (epoch, mask) == newest => return out.verdict(b" : refused known"),
            true if (epoch, mask) < newest => {
                out.text(b" : refused older");
                out.number(old.epoch);
                out.number(old.mask);
                return out.end_line();
            }
            true => out.verdict(b" : accepted"),
        }
        if mask == 0 && old.in_view() {
            self.write_removed(m, out);
            self.take_out(m);
            self.write_fell(out);
        }
        let still = if epoch == old.epoch { mask } else { 0 };
        for ring in bits(self.members[m].against & !still) {
            let kept = self.drop_kept(m, ring);
            out.accusation(self.now, b" fell", kept, old.epoch);
        }
        let member = &mut self.members[m];
        (member.epoch, member.mask) = (epoch, mask);
        if member.in_view() && !old.in_view() {
            self.enter(m, out);
        }
    }

    /// Brings a member into the view; on each ring it becomes the monitor of the next one.
    fn enter(&mut self, m: usize, out: &mut Output) {
        out.event(self.now, b" entered");
        out.small(m);
        out.end_line();
        self.view[m / 64] |= 1 << (m % 64);
        self.view_text.clear();
        for (ring, &at) in self.search_all(m)[..self.k].iter().enumerate() {
            let row = &mut self.rings[ring];
            let next = row.get(at).or(row.first()).copied();
            row.insert(at, self.keys[m * self.k + ring]);
            if let Some(accused) = next.map(member_of)
                && self.members[accused].against >> ring & 1 == 1
            {
                let kept = self.drop_kept(accused, ring);
                self.fell.push(kept);
            }
        }
        self.write_fell(out);
    }

    fn accuse(&mut self, pair: (usize, usize), epoch: u64, ring: usize, out: &mut Output) {
        let (accuser, accused) = pair;
        let member = self.members[accused];
        let verdict: &[u8] = match self.members[accuser].joined && member.joined {
            false => b" : refused unknown-member",
            true if accuser == accused => b" : refused self-accusation",
            true if ring >= self.k => b" : refused bad-ring",
            true if member.epoch == 0 => b" : refused no-note",
            true if member.epoch != epoch => {
                out.text(b" : refused other-epoch");
                out.number(member.epoch);
                return out.end_line();
            }
            true if !member.in_view() => b" : refused not-in-view",
            true if member.mask >> ring & 1 == 0 => b" : refused ring-disabled",
            true => match self.monitor(ring, accused) {
                None => b" : refused not-monitor none",
                Some(monitor) if monitor != accuser => {
                    out.text(b" : refused not-monitor");
                    out.small(monitor);
                    return out.end_line();
                }
                Some(_) if member.against >> ring & 1 == 1 => b" : refused standing",
                Some(_) => {
                    let (accused, accuser) = (accused as u16, accuser as u16);
                    self.keep(Kept { accused, ring: ring as u8, accuser, since: self.now });
                    b" : accepted"
                }
            },
        };
        out.verdict(verdict);
    }

    fn keep(&mut self, kept: Kept) {
        let (accused, ring) = (usize::from(kept.accused), usize::from(kept.ring));
        self.members[accused].against |= 1 << ring;
        self.kept[accused * self.k + ring] = kept;
        self.due.push_back(kept);
    }

    fn tick(&mut self, n: u32, out: &mut Output) {
        out.end_line();
        let target = self.now + n;
        while let Some(&due) = self.due.front() {
            if !self.is_kept(due) {
                self.due.pop_front();
            } else if due.since + self.timeout <= target {
                self.now = due.since + self.timeout;
                self.expire(out);
            } else {
                break;
            }
        }
        self.now = target;
    }

    /// What the tick does that brought `now` to where an accusation expires.
    fn expire(&mut self, out: &mut Output) {
        let mut expired = std::mem::take(&mut self.expired);
        while let Some(due) = self.due.pop_front_if(|due| due.since + self.timeout <= self.now) {
            if self.is_kept(due) {
                expired.push(self.drop_kept(due.accused.into(), due.ring.into()));
            }
        }
        expired.sort_unstable();
        for &kept in &expired {
            let epoch = self.members[usize::from(kept.accused)].epoch;
            out.accusation(self.now, b" expired", kept, epoch);
        }
        for kept in expired.drain(..) {
            let m = usize::from(kept.accused);
            if self.members[m].in_view() {
                self.write_removed(m, out);
                self.members[m].gone = self.members[m].epoch;
                self.take_out(m);
            }
        }
        self.expired = expired;
        self.write_fell(out);
    }

    fn write_removed(&self, m: usize, out: &mut Output) {
        out.event(self.now, b" removed");
        out.small(m);
        out.end_line();
    }

    /// Takes a member out of the view; what falls with it is added to `fell`.
    fn take_out(&mut self, m: usize) {
        self.view[m / 64] &= !(1 << (m % 64));
        self.view_text.clear();
        for ring in bits(self.members[m].against) {
            let kept = self.drop_kept(m, ring);
            self.fell.push(kept);
        }
        for (ring, &at) in self.search_all(m)[..self.k].iter().enumerate() {
            let row = &mut self.rings[ring];
            row.remove(at);
            if let Some(accused) = row.get(at).or(row.first()).map(|&key| member_of(key))
                && self.members[accused].against >> ring & 1 == 1
                && usize::from(self.kept[accused * self.k + ring].accuser) == m
            {
                let kept = self.drop_kept(accused, ring);
                self.fell.push(kept);
            }
        }
    }

    fn view(&mut self, out: &mut Output) {
        out.text(b" :");
        if self.view_text.is_empty() {
            for (i, &word) in self.view.iter().enumerate() {
                for bit in bits(word) {
                    self.view_text.push(b' ');
                    put_small(&mut self.view_text, 64 * i + bit);
                }
            }
            if self.view_text.is_empty() {
                self.view_text.extend_from_slice(b" nobody");
            }
        }
        out.verdict(&self.view_text);
    }

    fn monitor_line(&self, ring: usize, m: usize, out: &mut Output) {
        if !self.members[m].joined {
            return out.verdict(b" : refused unknown-member");
        }
        out.text(b" :");
        match self.monitor(ring, m) {
            Some(monitor) => out.small(monitor),
            None => out.text(b" none"),
        }
        out.end_line();
    }

    fn new_life(&mut self, out: &mut Output) {
        self.lives += 1;
        self.now = 0;
        for member in &mut self.members {
            *member = Member { joined: member.joined, ..Member::default() };
        }
        self.rings.iter_mut().for_each(Vec::clear);
        self.due.clear();
        self.view = [0; MEMBERS / 64];
        self.view_text.clear();
        out.text(b" :");
        out.number(self.lives);
        out.end_line();
    }
}

/// The lines so far: how many, what they say about the next one, and the membership.
struct Replay {
    lines: usize,
    ticks_left: u64,
    ended: bool,
    state: Membership,
}

impl Replay {
    /// Plays the line at the beginning of the text where it is whole and good; answers its length.
    #[inline]
    fn play(&mut self, text: &[u8], out: &mut Output) -> Option<usize> {
        let state = &mut self.state;
        let length;
        match text.first()? {
            b'f' if self.lines == 0 => {
                length = Words::after(text, b"fireflies 1 direct")?.end(out)?;
                out.end_line();
            }
            b'g' if self.lines == 1 => {
                let mut words = Words::after(text, b"group")?;
                let t = words.number(1, MAX_T)?;
                let timeout = words.number(1, MAX_TIMEOUT)?;
                length = words.end(out)?;
                out.end_line();
                *state = Membership::new(t as u32, timeout as u32);
            }
            _ if self.lines < 2 || self.lines >= MAX_LINES => return None,
            b'n' => {
                let mut words = Words::after(text, b"note")?;
                let m = words.member()?;
                let epoch = words.number(1, u64::MAX)?;
                let mask = words.number(0, u64::MAX)?;
                length = words.end(out)?;
                state.note(m, epoch, mask, out);
            }
            b'a' => {
                let mut words = Words::after(text, b"accuse")?;
                let accuser = words.member()?;
                let accused = words.member()?;
                let epoch = words.number(1, u64::MAX)?;
                let ring = words.number(0, 255)? as usize;
                length = words.end(out)?;
                state.accuse((accuser, accused), epoch, ring, out);
            }
            b'm' if text.get(1) == Some(&b'o') => {
                let mut words = Words::after(text, b"monitor")?;
                let ring = words.number(0, state.k as u64 - 1)? as usize;
                let m = words.member()?;
                length = words.end(out)?;
                state.monitor_line(ring, m, out);
            }
            b'm' => {
                let mut words = Words::after(text, b"member")?;
                let m = words.member()?;
                let mut places = [0; MAX_RINGS];
                for place in &mut places[..state.k] {
                    *place = words.place()?;
                }
                length = words.end(out)?;
                state.join(m, &places, out);
            }
            b't' => {
                let mut words = Words::after(text, b"tick")?;
                let n = words.number(1, self.ticks_left.min(MAX_TICK))?;
                length = words.end(out)?;
                self.ticks_left -= n;
                state.tick(n as u32, out);
            }
            b'v' => {
                length = Words::after(text, b"view")?.end(out)?;
                state.view(out);
            }
            b'l' => {
                length = Words::after(text, b"life")?.end(out)?;
                state.new_life(out);
            }
            b'e' => {
                length = Words::after(text, b"end")?.end(out)?;
                out.end_line();
                self.ended = true;
            }
            _ => return None,
        }
        self.lines += 1;
        Some(length)
    }

    /// The bad word of a line that `play` does not take; `fed` where its line feed is there.
    #[cold]
    fn bad_word(&self, line: &[u8], fed: bool) -> &'static str {
        const MEMBER: (u64, u64) = (0, MEMBERS as u64 - 1);
        const EPOCH: (u64, u64) = (1, u64::MAX);
        const PLACE: (u64, u64) = (0, u32::MAX as u64);
        const MASK: (u64, u64) = (0, u64::MAX);
        if line.len() > MAX_LINE {
            return "long";
        }
        if !fed {
            return if line.is_empty() { "end" } else { "line-feed" };
        }
        if self.lines >= MAX_LINES {
            return "lines";
        }
        let words: Vec<&[u8]> = line.split(|&byte| byte == b' ').collect();
        if !words.iter().all(|w| !w.is_empty() && w.iter().all(|b| (0x21..=0x7e).contains(b))) {
            return "spaces";
        }
        if self.lines == 0 {
            return if line == b"fireflies 1 world" { "not-built" } else { "header" };
        }
        let k = self.state.k;
        let ranges = match words[0] {
            b"group" => vec![(1, MAX_T), (1, MAX_TIMEOUT)],
            b"member" => [vec![MEMBER], vec![PLACE; k]].concat(),
            b"note" => vec![MEMBER, EPOCH, MASK],
            b"accuse" => vec![MEMBER, MEMBER, EPOCH, (0, 255)],
            b"tick" => vec![(1, self.ticks_left.min(MAX_TICK))],
            b"monitor" => vec![(0, k.saturating_sub(1) as u64), MEMBER],
            b"view" | b"life" | b"end" => vec![],
            _ => return "word",
        };
        if (words[0] == b"group") != (self.lines == 1) {
            return "order";
        }
        if words.len() != ranges.len() + 1 {
            return "count";
        }
        for (word, (low, high)) in words[1..].iter().zip(ranges) {
            match number(word) {
                None => return "number",
                Some(value) if value < low || value > high => return "limit",
                Some(_) => {}
            }
        }
        unreachable!("a good line is played before it comes here")
    }
}

/// Answers the status; what was written last is still to be flushed. With BY_LINE set, each line's trace is
/// written before the next is played, as the program must do.
fn replay(input: &mut Input, out: &mut Output) -> io::Result<u8> {
    let state = Membership::default();
    let mut replay = Replay { lines: 0, ticks_left: MAX_TICKS, ended: false, state };
    let by_line = std::env::var_os("BY_LINE").is_some();
    let bad_word = loop {
        let text = &input.bytes[input.at..input.end];
        if replay.ended && !text.is_empty() {
            break "after-end";
        } else if let Some(length) = replay.play(text, out) {
            input.at += length;
            if by_line {
                out.flush();
            }
            continue;
        }
        let feed = text.iter().position(|&byte| byte == b'\n');
        if feed.is_none() && text.len() <= MAX_LINE && !input.over {
            out.flush();
            input.refill()?;
        } else if replay.ended {
            return Ok(OK);
        } else {
            break replay.bad_word(&text[..feed.unwrap_or(text.len())], feed.is_some());
        }
    };
    out.text(b"bad");
    out.number(replay.lines as u64 + 1);
    out.text(b" ");
    out.verdict(bad_word.as_bytes());
    Ok(BAD_INPUT)
}

fn main() -> ExitCode {
    let mut words = std::env::args_os().skip(1);
    if words.next().as_deref() != Some(OsStr::new("replay")) || words.next().is_some() {
        return ExitCode::from(USAGE);
    }
    let file = |stream: BorrowedFd| stream.try_clone_to_owned().map(File::from);
    let Ok(stdout) = file(io::stdout().as_fd()) else { return ExitCode::from(WRITE_FAULT) };
    let mut out = Output { file: stdout, bytes: Vec::with_capacity(OUTPUT + OUTPUT / 4) };
    let input = |file| Input { file, bytes: vec![0; INPUT], at: 0, end: 0, over: false };
    let status = file(io::stdin().as_fd()).and_then(|file| replay(&mut input(file), &mut out));
    let status = status.unwrap_or_else(|_| {
        out.verdict(b"read fault");
        READ_FAULT
    });
    out.flush();
    ExitCode::from(status)
}
