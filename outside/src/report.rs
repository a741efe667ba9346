//! The lines that the program prints, and whether a printed line is right.

use crate::host::{Host, Manner, NoRoom, Reply};
use crate::journal::{Entry, Journal, Line};
use crate::pile::Pile;

pub fn meaning(number: u8) -> &'static str {
    match number {
        9 => "no such unit number",
        10 => "the unit stands already",
        11 => "text too long",
        12 => "grammar",
        13 => "declaration",
        14 => "clash",
        15 => "too many variables",
        16 => "too many words",
        17 => "too many indirect calls",
        18 => "nothing stands",
        19 => "settled already",
        20 => "no room",
        21 => "not settled",
        22 => "first is no place",
        23 => "second is unknown",
        24 => "no such call",
        25 => "buffer too short",
        _ => unreachable!("no call of a journal is refused with {number}"),
    }
}

/// A room fault's text up to its pair.
fn no_room_stem(fault: &NoRoom) -> String {
    let NoRoom { unit, line, position, depth, .. } = fault;
    format!("refused 20 (no room) at unit {unit}, line {line}: position {position}, depth {depth}, pair ")
}

fn targets_text(list: &[u8]) -> String {
    let mut text = format!("{} bytes", list.len());
    for (i, name) in list.split(|&b| b == b'\n').filter(|name| !name.is_empty()).enumerate() {
        text += if i == 0 { ": " } else { " " };
        text += std::str::from_utf8(name).expect("names are ASCII");
    }
    text
}

pub fn reply_text(reply: &Reply) -> String {
    match reply {
        Reply::Loaded => "loaded".into(),
        Reply::Unloaded => "unloaded".into(),
        Reply::Settled => "settled".into(),
        Reply::Answer(yes) => if *yes { "yes" } else { "no" }.into(),
        Reply::Targets(list) => targets_text(list),
        Reply::Refused(number) => format!("refused {number} ({})", meaning(*number)),
        Reply::RefusedAt { number, offset, line } => {
            format!("refused {number} ({}) at offset {offset}, line {line}", meaning(*number))
        }
        Reply::NoRoom(fault) => {
            let (v, o) = fault.smallest.first_pair().expect("a list that does not fit has a pair");
            format!("{}({v}, {o})", no_room_stem(fault))
        }
    }
}

pub fn call_line(line: &Line, reply: &Reply) -> String {
    format!("{}: {}", line.text, reply_text(reply))
}

fn pair_of(text: &str) -> Option<(usize, usize)> {
    let (v, o) = text.strip_prefix('(')?.strip_suffix(')')?.split_once(", ")?;
    Some((v.parse().ok()?, o.parse().ok()?))
}

/// Whether a printed line is the one that the reply calls for; a room fault's pair may be any that holds.
pub fn is_right(line: &Line, reply: &Reply, printed: &str) -> bool {
    match reply {
        Reply::NoRoom(fault) => {
            let stem = format!("{}: {}", line.text, no_room_stem(fault));
            let pair = printed.strip_prefix(&stem).and_then(pair_of);
            pair.is_some_and(|(v, o)| fault.smallest.holds(v, o))
        }
        _ => printed == call_line(line, reply),
    }
}

pub fn counts_line(replies: &[Reply]) -> String {
    let refused = replies.iter().filter(|r| r.number() > 0).count();
    format!("{} calls, {} answered, {refused} refused", replies.len(), replies.len() - refused)
}

/// What the audit at the end found.
pub struct Audit {
    pub units: usize,
    pub asked: usize,
    pub differ: usize,
}

/// The audit's own lines. Nothing compares them: only whether the audit agreed counts.
pub fn audit_lines(audit: &Audit) -> String {
    let Audit { units, asked, differ } = audit;
    format!("audit: {units} units loaded afresh, {asked} calls made of both, {differ} differ")
}

/// The loads whose texts stand after a journal, by rising unit number.
pub fn standing_loads<'a>(journal: &'a Journal, replies: &[Reply]) -> Vec<&'a Line> {
    let mut standing = [None; 8];
    for (line, reply) in journal.lines.iter().zip(replies) {
        match (&line.entry, reply) {
            (Entry::Load { unit, .. }, Reply::Loaded) => standing[*unit as usize] = Some(line),
            (Entry::Unload { unit }, Reply::Unloaded) => standing[*unit as usize] = None,
            _ => {}
        }
    }
    standing.into_iter().flatten().collect()
}

/// Loads the texts that stand into a fresh host, settles it if the other is settled, and asks both every
/// points and alias of the journal again.
pub fn audit(journal: &Journal, host: &mut Host, replies: &[Reply], witness: &Pile, manner: Manner) -> Audit {
    let mut fresh = Host::new(witness, manner);
    let loads = standing_loads(journal, replies);
    for load in &loads {
        fresh.call(&load.entry, journal);
    }
    if host.is_settled() {
        fresh.call(&Entry::Settle, journal);
    }
    let mut audit = Audit { units: loads.len(), asked: 0, differ: 0 };
    for line in &journal.lines {
        if matches!(line.entry, Entry::Points { .. } | Entry::Alias { .. }) {
            let texts = [&mut *host, &mut fresh].map(|h| reply_text(&h.call(&line.entry, journal)));
            audit.asked += 1;
            audit.differ += usize::from(texts[0] != texts[1]);
        }
    }
    audit
}

#[cfg(test)]
mod tests {
    use super::*;
    use crate::host::replay;
    use crate::journal::read_lines;
    use std::rc::Rc;

    pub const VALVES: &str = "fun open 1; fun shut 1; var v; var h; var x; h = &open; h = &shut; x = (*h)(v);";

    fn printed(text: &str, pile: &str) -> Vec<String> {
        let files = [("valves", VALVES), ("bad", "var p")];
        let files = files.map(|(n, t)| (n.to_string(), Rc::new(t.as_bytes().to_vec())));
        let journal = Journal { lines: read_lines(text).unwrap(), files: files.into(), noisy: false };
        let (_, replies) = replay(&journal, &Pile::parse(pile).unwrap(), Manner::Plain);
        assert!(journal.lines.iter().zip(&replies).all(|(l, r)| is_right(l, r, &call_line(l, r))));
        replies.iter().map(reply_text).collect()
    }

    #[test]
    fn valves() {
        let text = "load 0 valves\nload 1 bad\nunload 3\nsettle\nsettle\npoints h open\nalias v x\ntargets 0 0\n\
                    targets 0 0 9\ntargets 0 1\npoints h.r open\npoints h open.r\nalias open.1 h";
        let expected = [
            "loaded",
            "refused 12 (grammar) at offset 5, line 1",
            "refused 18 (nothing stands)",
            "settled",
            "refused 19 (settled already)",
            "yes",
            "no",
            "10 bytes: open shut",
            "refused 25 (buffer too short)",
            "refused 24 (no such call)",
            "refused 22 (first is no place)",
            "refused 23 (second is unknown)",
            "no",
        ];
        assert_eq!(printed(text, "hu+hvn+difference/bits"), expected);
    }

    #[test]
    fn a_refused_settle_leaves_the_host_unsettled() {
        let text = "load 0 valves\nsettle\npoints h open\nunload 0\nsettle\ntargets 8 0\ntargets 0 0";
        let expected = [
            "loaded",
            "refused 20 (no room) at unit 0, line 1: position 1, depth 1, pair (7, 0)",
            "refused 21 (not settled)",
            "unloaded",
            "settled",
            "refused 9 (no such unit number)",
            "refused 18 (nothing stands)",
        ];
        assert_eq!(printed(text, "hvn+worklist/chains:1"), expected);
    }
}
