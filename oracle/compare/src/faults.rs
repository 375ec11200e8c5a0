//! Plants each fault in the stand-ins and sees that the comparison finds it.

use crate::trees::stand_in::{exchange, faulty_entries};
use crate::{
    compare_all, cut, editions, encoding, fuzz, jobs, lexemes, named, numbers, profile, sources,
    trees, Extent,
};
use model::record::Record;
use model::samples::Judged;
use model::texts;
use std::sync::atomic::{AtomicUsize, Ordering};

macro_rules! faults {
    ($($list:ident: $($name:ident)*;)*) => {
        /// What can be planted.
        #[derive(Clone, Copy, Debug)]
        pub enum Fault { $($($name,)*)* }

        $(const $list: &[Fault] = &[$(Fault::$name,)*];)*
    };
}

faults! {
    STREAM:
        SpaceBeforeBracket
        SpaceLeavesBit
        BlobClearsBit
        EmptyIsNotBlank
        VerticalTabIsBlank;
    APPEND:
        OneByteMore
        ExactRoomRefused
        RefusalMarksRecord
        RefusalWrites
        LongerRecord
        AnyFirstByte
        ShortCount
        OneMoreToken
        ValueWithoutBit
        ValueBeforeToken
        LongerValue
        SurrogateTaken
        PlaceOneLater;
    POSITION:
        ColumnRunsOn
        LineOnceForTwo
        ColumnInCharacters
        ReturnIsNewline
        LinePastCount
        ColumnPastCount
        LongValueNotHeld
        SumHeldToCount
        RefusalMovesColumn
        CountAndLineExchanged
        NineBytesTaken;
    TREES:
        LengthOneMore
        LastByteMissing
        OneByteBeyond
        OneBytePastRoom
        RoomTestStrict
        RoomAsPlace
        NoRoomWrites
        RefusedTreeWrites
        TreeTouched
        RootListWithoutCommas
        DepthOneLess
        LongestTextRefused
        LongestTreeRefused
        WrongMarkTaken
        PlaceInBytes
        WhiteIsBlank
        NoBreakSpaceIsNotWhite
        ZeroWidthSpaceIsWhite
        CommentOutsideLiteralsOnly
        OperatorQuotesDoubled;
    ENCODING:
        CutOffIsNotUtf8
        OverlongIsCutOff
        MiddleIsCutOff
        PlaceOfLastByte;
    SOURCES:
        BlockClosedByItsOpening
        OpenBlockTaken
        QuoteInBlockOpens
        LineInBlockOpens
        NewlineEndsBlock
        QuoteInLineOpens
        BlockInLineOpens
        LineRefused
        ReturnEndsLine
        LineInQuoteOpens
        BlockInQuoteOpens
        AnyQuoteCloses
        BacktickIsNoQuote
        LastSourceOnly
        RowidLookedAt
        OperatorLookedAt
        ExpressionLookedAt
        PlaceOfCheck
        SourceBeforePart
        SourceBeforeAll
        SourceAfterDepth
        SourceAfterCount
        SourceAfterAll
        SwitchAlwaysOn
        SwitchNeverOn
        SwitchInRenderOnly
        OtherBitIsSwitch
        OtherBitsTurnItOff;
    EDITIONS:
        CommaWithOne
        NoComma
        CommaInCrate
        QuoteLeftSingle
        FirstQuoteOnly
        PairLeftAsItIs
        EachQuoteDoubled
        SecondInCapitals
        LowercaseRefused
        MixedCaseRefused
        DotlessTaken
        TwoSpacesRefused
        AsciiWhiteOnly
        OnePartTaken
        ThreePartsTaken
        EmptyTaken
        ZeroPartTaken
        AnyFirstTaken
        AnySecondTaken
        BeginningTaken
        NoneRefused
        SecondLookedAt
        LastRowidOnly
        PlaceOfBody
        TenInCrate
        TenNever
        TenBeforePart
        TenBeforeNine
        TenBeforeAll
        TenAfterDepth
        TenAfterCount
        TenAfterNine
        TenAfterAll
        EditionNeverOn
        EditionInRenderOnly
        SwitchIsEdition
        EditionIsSwitch
        OtherBitIsEdition
        OtherBitsTurnEditionOff;
    NAMED:
        ByteBehindPart
        ByteBeforePart
        FirstByteOfTextCounts
        OnlyPartsChecked;
    JOBS:
        RefusedEndsWalk
        NoRoomEndsWalk
        RefusedStartsAtZero
        NextOneLater
        OutsidePlaceIsStart
        OutsideAfterText
        SumWraps
        LowHalfOnly
        WrittenPastRoom
        CutAtRoom
        RoomFromStart
        PlaceAndRefusalExchanged
        RefusedIsCounted
        JobPartTouched
        TextOfFirstJobOnly
        JobsWithoutOptions
        ByteBehindLast;
    PROFILE:
        NestingOf25Taken
        NestingOf24Refused
        CmdNotCounted
        RunForNodeTaken
        RunForElementTaken
        RunForOptionalTaken
        RunInCmdTaken
        EveryRunRefused
        LastBreakTold
        DropViewTaken
        AlterTableRefused
        CmdFlagsTaken
        CmdRefused
        RootListTaken
        BreakBeforeRefusals
        PlaceOfRecordAbove
        ProfileLengthOneMore
        ProfileWithoutOptions;
    LEXEMES:
        BlanksBehindSkipped
        TabSkipped
        NewlineKept
        StartAtBlanks
        DoubledQuoteCloses
        OtherQuoteCloses
        UnclosedQuoteTaken
        BlobIsWord
        LowercaseBlobIsWord
        OpenBlobIsWord
        BlobQuotesDoubled
        BlobDigitsTested
        DotWithoutDigitTaken
        NoFraction
        DollarEndsWord
        WideByteFails
        QuestionTakesDigits
        LoneVariableFails
        OperatorOfOneByte
        SquareBracketFails
        MarkRestOneLater
        KindsExchanged
        FailureAtEnd
        StopRestAtEnd
        EndAtBlanks
        EndLeavesStart
        LongTextStops
        TextTouched
        ByteBehindStart;
    PRINTED:
        LengthIsEnd
        StopWithLength
        StopWithoutPlace
        EndPrinted
        KindsPrintedExchanged
        LastLineOpen
        LongestTextNotCut
        LongerTextCut
        LinesBeforeTooLong
        UnreadableIsEmpty;
    NUMBERS:
        OneSubtractionTooFew
        PowerLeftOut
        ZeroInFront
        LowestOneLess;
}

const NONE: usize = usize::MAX;
static PLANTED: AtomicUsize = AtomicUsize::new(NONE);

/// Random values besides the list, for the faults of the whole-tree calls.
const VALUES: u64 = 2_000;
const SEED: u64 = 1;
/// Numbers, for each fault of their texts: the edges are more.
const DECIMALS: u64 = 1;
/// Random texts, for each fault in telling how a text is broken.
const BROKEN: u64 = 20_000;
/// Random trees, for each fault of the switch that refuses open CHECK sources.
const STRICT: u64 = 20_000;
/// Random trees, for each fault of the SQLite edition.
const IN_EDITIONS: u64 = 20_000;
/// Random trees, for each fault that looks at bytes that nobody named.
const WITH_UNNAMED: u64 = 20_000;
/// Random lists, for each fault of many trees at once.
const LISTS: u64 = 20_000;
/// Random trees, for each fault of the field profile.
const PROFILED: u64 = 20_000;
/// Random texts, for each fault of the reader's call.
const TO_CUT: u64 = 50_000;
/// Random texts, for each fault of what the reader prints.
const TO_PRINT: u64 = 100;
/// Calls of the fuzz run, for each fault.
const FUZZED: u64 = 1_000_000;

/// Whether the fault is to be made now.
pub fn planted(fault: Fault) -> bool {
    PLANTED.load(Ordering::Relaxed) == fault as usize
}

/// Whether every fault is found and the stand-ins without a fault pass.
pub fn try_all(whole: bool) -> bool {
    let mut listed = texts::all();
    let entries = entries_found(&listed);
    listed.extend(texts::limits());
    let by_append = [STREAM, APPEND, POSITION, ENCODING].concat();
    let append = all_found(&by_append, whole, &difference_in_append);
    let in_trees = |fault| difference_in_trees(fault, &listed);
    let trees = all_found(&[STREAM, TREES, ENCODING].concat(), whole, &in_trees);
    let numbers = all_found(NUMBERS, whole, &difference_in_numbers);
    let encoding = all_found(ENCODING, whole, &difference_in_encoding);
    let sources = all_found(SOURCES, whole, &difference_in_sources);
    let by_editions = [EDITIONS, &[Fault::OperatorQuotesDoubled]].concat();
    let editions = all_found(&by_editions, whole, &difference_in_editions);
    let named = all_found(NAMED, whole, &difference_in_named);
    let jobs = all_found(JOBS, whole, &difference_in_jobs);
    let listed = all_found(PROFILE, whole, &difference_in_listed_profile);
    let profile = listed && all_found(PROFILE, whole, &difference_in_profile);
    let reader = reader_found(whole);
    let by_fuzz = [
        STREAM, APPEND, POSITION, TREES, ENCODING, SOURCES, EDITIONS, NAMED, JOBS, PROFILE, LEXEMES,
    ];
    let fuzzed = all_found(&by_fuzz.concat(), whole, &difference_in_fuzz);
    let of_trees = trees && entries && numbers && encoding && sources && editions && named;
    append && of_trees && jobs && profile && reader && fuzzed
}

/// The call by the fixed list alone and by the random texts alone, and what the program prints.
fn reader_found(whole: bool) -> bool {
    let listed = all_found(LEXEMES, whole, &difference_in_listed_lexemes);
    let drawn = all_found(LEXEMES, whole, &difference_in_lexemes);
    let printed = all_found(PRINTED, whole, &difference_in_printed);
    listed && drawn && printed
}

/// The difference that is found with a fault, if any is.
type Compared<'a> = &'a dyn Fn(usize) -> Option<String>;

fn all_found(faults: &[Fault], whole: bool, compared: Compared) -> bool {
    let missed = faults
        .iter()
        .filter(|&&fault| !found(fault, whole, compared));
    let missed = missed.count();
    let none = compared(NONE);
    println!("no fault: {}", none.as_deref().unwrap_or("0 differences"));
    missed == 0 && none.is_none()
}

fn found(fault: Fault, whole: bool, compared: Compared) -> bool {
    let difference = compared(fault as usize);
    let told = match &difference {
        None => "NOT FOUND",
        Some(text) if whole => text,
        Some(text) => text.lines().next().unwrap_or(""),
    };
    println!("{fault:?}: {told}");
    difference.is_some()
}

fn difference_in_append(fault: usize) -> Option<String> {
    PLANTED.store(fault, Ordering::Relaxed);
    let extent = Extent {
        tokens: 100_000,
        refused: 100_000,
        seed: SEED,
    };
    let compared = compare_all(&extent, false);
    compared.err().map(|difference| difference.to_string())
}

fn difference_in_trees(fault: usize, listed: &[Judged]) -> Option<String> {
    PLANTED.store(fault, Ordering::Relaxed);
    let compared = trees::compare_with(listed, VALUES, SEED);
    compared.err().map(|difference| difference.to_string())
}

fn difference_in_numbers(fault: usize) -> Option<String> {
    PLANTED.store(fault, Ordering::Relaxed);
    numbers::compare(DECIMALS, SEED).err()
}

fn difference_in_encoding(fault: usize) -> Option<String> {
    PLANTED.store(fault, Ordering::Relaxed);
    encoding::compare_few(BROKEN, SEED).err()
}

fn difference_in_sources(fault: usize) -> Option<String> {
    PLANTED.store(fault, Ordering::Relaxed);
    sources::compare_few(STRICT, SEED).err()
}

fn difference_in_editions(fault: usize) -> Option<String> {
    PLANTED.store(fault, Ordering::Relaxed);
    editions::compare_few(IN_EDITIONS, SEED).err()
}

fn difference_in_named(fault: usize) -> Option<String> {
    PLANTED.store(fault, Ordering::Relaxed);
    named::compare(WITH_UNNAMED, SEED).err()
}

fn difference_in_jobs(fault: usize) -> Option<String> {
    PLANTED.store(fault, Ordering::Relaxed);
    jobs::compare(LISTS, SEED).err()
}

fn difference_in_profile(fault: usize) -> Option<String> {
    PLANTED.store(fault, Ordering::Relaxed);
    profile::compare_drawn(PROFILED, SEED, &mut profile::Counts::default()).err()
}

/// By the fixed list alone.
fn difference_in_listed_profile(fault: usize) -> Option<String> {
    PLANTED.store(fault, Ordering::Relaxed);
    profile::compare_listed(SEED, &mut profile::Counts::default()).err()
}

/// By the fixed list alone.
fn difference_in_listed_lexemes(fault: usize) -> Option<String> {
    PLANTED.store(fault, Ordering::Relaxed);
    lexemes::compare_listed(SEED, &mut lexemes::Counts::default()).err()
}

/// By random texts alone.
fn difference_in_lexemes(fault: usize) -> Option<String> {
    PLANTED.store(fault, Ordering::Relaxed);
    lexemes::compare_drawn(TO_CUT, SEED, &mut lexemes::Counts::default()).err()
}

fn difference_in_printed(fault: usize) -> Option<String> {
    PLANTED.store(fault, Ordering::Relaxed);
    cut::compare_stand_in(TO_PRINT, SEED).err()
}

fn difference_in_fuzz(fault: usize) -> Option<String> {
    PLANTED.store(fault, Ordering::Relaxed);
    fuzz::compare(FUZZED, SEED).err()
}

/// Whether the stored list alone finds each fault of each entry.
fn entries_found(listed: &[Judged]) -> bool {
    let faulty = faulty_entries();
    let planted = faulty.len();
    let mut missed = 0;
    for (kind, shape) in faulty {
        let told = format!("{shape:?}");
        let before = exchange(kind, shape);
        let with_kind = listed.iter().filter(|judged| has_kind(judged, kind));
        if trees::compare_with(with_kind, 0, SEED).is_ok() {
            missed += 1;
            println!("NOT FOUND in kind {kind}: {told}");
        }
        exchange(kind, before);
    }
    println!(
        "faults of entries: {planted}, found by the list: {}",
        planted - missed
    );
    missed == 0
}

fn has_kind(judged: &Judged, kind: u16) -> bool {
    let record = |index| Record::read(&judged.case.tree, index);
    (0..).map_while(record).any(|record| record.kind == kind)
}
