//! A small kinyandoma_profile in Rust, over the stand-in for measure, with faults that can be planted in it.

use crate::faults::{planted, Fault};
use crate::trees::stand_in::{packed, rendered};
use model::grammar::{Class, Slot, CMD, LIST, RUN};
use model::outline::{outline, Node};
use model::profile::{ALTER_TABLE, BROKEN, DEEPEST, STATEMENTS};
use model::record::Record;
use std::slice::from_raw_parts;
use tokens::encoding::Refusal;

/// A statement that is none of the five.
const DROP_VIEW: u16 = 48;

/// # Safety
/// The two parts must be valid for their lengths.
pub unsafe extern "C" fn kinyandoma_profile(
    options: u32,
    tree: *const u8,
    tree_len: usize,
    text: *const u8,
    text_len: usize,
) -> u64 {
    let tree = from_raw_parts(tree, tree_len);
    let text = from_raw_parts(text, text_len);
    packed(profile(options, tree, text))
}

/// Measure's refusal, then the first break, else the length.
fn profile(options: u32, tree: &[u8], text: &[u8]) -> Refusal {
    let options = match planted(Fault::ProfileWithoutOptions) {
        true => 0,
        false => options,
    };
    let broken_root = |record: Record| !statement(record.kind) && !root(&record);
    let early = planted(Fault::BreakBeforeRefusals);
    let early = early && Record::read(tree, 0).is_some_and(broken_root);
    let length = match rendered(options, tree, text) {
        Err(_) if early => return (BROKEN, 0),
        Err(refusal) => return refusal,
        Ok(bytes) => bytes.len() as u32,
    };
    let nodes = outline(tree);
    let mut broken = nodes.iter().filter(|node| breaks(tree, node));
    let told = match planted(Fault::LastBreakTold) {
        true => broken.next_back(),
        false => broken.next(),
    };
    let longer = u32::from(planted(Fault::ProfileLengthOneMore));
    told.map_or((0, length + longer), |node| (BROKEN, place(node)))
}

fn place(node: &Node) -> u32 {
    let index = match (node.above, planted(Fault::PlaceOfRecordAbove)) {
        (Some(above), true) => above.index,
        _ => node.index,
    };
    index as u32
}

fn breaks(tree: &[u8], node: &Node) -> bool {
    let record = |index| Record::read(tree, index).expect("an admitted tree");
    let in_cmd = record(0).kind == CMD;
    let wrong_statement = match node.above {
        None => !statement(record(0).kind) && !root(&record(0)),
        Some(above) if above.kind == CMD => !below_cmd(record(node.index).kind),
        _ => false,
    };
    let run = record(node.index).kind == RUN;
    let not_counted = usize::from(in_cmd && planted(Fault::CmdNotCounted));
    wrong_statement || run && refused_run(node) || node.depth - not_counted > deepest()
}

fn deepest() -> usize {
    let more = usize::from(planted(Fault::NestingOf25Taken));
    let less = usize::from(planted(Fault::NestingOf24Refused));
    DEEPEST + more - less
}

/// Whether it is one of the five.
fn statement(kind: u16) -> bool {
    match kind {
        DROP_VIEW => planted(Fault::DropViewTaken),
        ALTER_TABLE => !planted(Fault::AlterTableRefused),
        _ => STATEMENTS.contains(&kind),
    }
}

fn below_cmd(kind: u16) -> bool {
    statement(kind) || kind == RUN && planted(Fault::RunInCmdTaken)
}

/// Whether what is no statement may be the root.
fn root(record: &Record) -> bool {
    match record.kind {
        CMD if planted(Fault::CmdRefused) => false,
        CMD => record.flags == 0 || planted(Fault::CmdFlagsTaken),
        LIST => planted(Fault::RootListTaken),
        _ => false,
    }
}

/// Whether a RUN may not stand there.
fn refused_run(node: &Node) -> bool {
    let Slot { class, optional } = node.slot;
    let above = node.above.map(|above| above.kind);
    match () {
        _ if planted(Fault::EveryRunRefused) => true,
        _ if planted(Fault::RunForNodeTaken) => false,
        _ if planted(Fault::RunForElementTaken) && above == Some(LIST) => false,
        _ if planted(Fault::RunForOptionalTaken) && *optional => false,
        _ if planted(Fault::RunInCmdTaken) && above == Some(CMD) => false,
        _ => matches!(class, Class::Kinds(..) | Class::Root | Class::RootElement),
    }
}
