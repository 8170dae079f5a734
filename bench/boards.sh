#!/usr/bin/env bash
# Times events on a board of 20,000 paragraphs of 100 bytes, and prints a table: the microseconds (processor time) of one event, and
# the most memory. One byte of the paragraph in the middle is replaced, again and again; each paragraph is claimed, and on another
# board each is finished, by a share of one check, since all texts are equal; and the dictionary is loaded again and again. Each event
# is one on the board that the one before made, with its share of what the program does for it: a finish looks at its paragraph and
# compares its text. No program of the repository has such boards, so one is made, proved and built in a temporary folder, beside
# copies of the crates that it stands on: a minute, and ten and more where these are not proved yet. It is timed with events and with
# none, the least of three runs each; an event takes the difference by their number. Needs rt.
set -euo pipefail
top=$(cd "$(dirname "$0")/.." && pwd)
work=$(mktemp -d)
trap 'rm -rf "$work"' EXIT

mkdir -p "$work/crates/board_times/src"
cp "$top/HANDLES" "$work"
grep -E '^[a-z_]+:' "$top/crates.txt" | grep -vE '^(console_lang|work_maker|document_report|input_lines|console_board):' > "$work/crates.txt"
cut -d : -f 1 "$work/crates.txt" | while read -r crate; do
    tar -c --exclude out -C "$top/crates" "$crate" | tar -x -C "$work/crates"
done
echo 'board_times: lists outside text_lines spell_types mark_types aff_reader dic_reader word_verdict paragraph_marks paragraph_text edit_core' >> "$work/crates.txt"
cat > "$work/crates/board_times/src/main.rt" << 'RT'
//! Makes a board of so many paragraphs and gives it events of a kind, `replace COUNT EVENTS`, `claim COUNT EVENTS`, `finish COUNT EVENTS`
//! or `load COUNT EVENTS`, and prints how many there were, and how many paragraphs are finished.
#![tactic(auto)]

ghost use Rattle.std.specs.Prelude.{◌≡◌, true, IfOk, OnOk};
ghost use Rattle.std.specs.Arc.{arc_value};
ghost use Rattle.edit_core.specs.Events.{event_of};
ghost use Rattle.edit_core.specs.Runs.{is_quiet};
ghost use Rattle.edit_core.specs.Steps.{IsFit};

use aff_reader::read_aff;
use dic_reader::read_dic;
use edit_core::{Board, Event, Progress, Refusal, checks_are_fit, quiet};
use lists::NoMemory;
use paragraph_marks::{Checked, Checking, Plain};
use paragraph_text::Edit;
use std::alloc::Global;
use std::env::{self, Env};
use std::io;
use std::sync::Arc;
use text_lines::Text;
use word_verdict::Speller;

const AFF: &[u8] = b"SET UTF-8\n";

const DIC: &[u8] = b"1\nparagraph\n";

/// 100 bytes.
const WORDS: &str =
    "paragraph paragraph paragraph paragraph paragraph paragraph paragraph paragraph paragraph paragraph ";

fn speller_of(alloc: Global) -> Result<Arc<Speller>, NoMemory> {
    let affixes = read_aff(alloc, AFF).map_err(|_| NoMemory)?;
    let entries = read_dic(alloc, &affixes, DIC).map_err(|_| NoMemory)?;
    let speller = Speller::build(alloc, affixes, entries)?;
    Ok(Arc::new(alloc, speller)?)
}

fn texts_of(alloc: Global, count: u64) -> Result<Vec<Text>, NoMemory> {
    let mut texts = Vec::new(alloc);
    for _ in 0..count {
        texts.push(Text::from_str(alloc, WORDS)?)?;
    }
    Ok(texts)
}

fn opening(alloc: Global, judge: &Arc<Speller>, count: u64) -> Result<Board<Speller>, NoMemory>
    ensures { IfOk result (λ board. board.lexicon ≡ arc_value judge.now) }
{
    let texts = texts_of(alloc, count)?;
    Board::opening(alloc, Arc::try_clone(judge)?, texts).map_err(|_| NoMemory)
}

/// The board with one byte of a paragraph replaced, which the event before touched.
fn with_byte(
    alloc: Global,
    board: &Board<Speller>,
    id: u64,
    rev: u64,
) -> Result<Board<Speller>, Refusal> {
    let edit = Edit::Replace {
        id,
        rev,
        from: 50,
        to: 51,
        text: Text::from_str(alloc, "x")?,
    };
    board.next(alloc, Event::Edit { session: 0, edit })
}

fn replaced(
    alloc: Global,
    opened: Board<Speller>,
    id: u64,
    events: u64,
) -> Result<Board<Speller>, Refusal> {
    let mut board = opened;
    for rev in 0..events {
        board = with_byte(alloc, &board, id, rev)?;
    }
    Ok(board)
}

fn with_claim(alloc: Global, board: &Board<Speller>, id: u64) -> Result<Board<Speller>, Refusal> {
    board.next(
        alloc,
        Event::Claim {
            worker: 0,
            id,
            rev: 0,
        },
    )
}

fn claimed(alloc: Global, opened: Board<Speller>, events: u64) -> Result<Board<Speller>, Refusal> {
    let mut board = opened;
    for id in 0..events {
        board = with_claim(alloc, &board, id)?;
    }
    Ok(board)
}

fn with_load(alloc: Global, board: &Board<Speller>) -> Result<Board<Speller>, Refusal> {
    let judge = Arc::try_clone(board.judge())?;
    board.next(alloc, Event::Load { judge })
}

fn loaded(alloc: Global, opened: Board<Speller>, events: u64) -> Result<Board<Speller>, Refusal> {
    let mut board = opened;
    for _ in 0..events {
        board = with_load(alloc, &board)?;
    }
    Ok(board)
}

/// The words, checked by a judge.
fn checked_by(
    alloc: Global,
    judge: &Arc<Speller>,
    text: &Arc<Text>,
) -> Result<Checked<Speller>, NoMemory>
    ensures judge { IfOk result (λ checked. checked.judge ≡ arc_value judge.now) }
    ensures text { IfOk result (λ checked. checked.text ≡ arc_value text.now) }
{
    if text.as_str().len() > 100 {
        return Err(NoMemory);
    }
    let mut asker = Plain::new(Arc::try_clone(judge)?);
    let mut checking = Checking::start(alloc, Arc::try_clone(judge)?, Arc::try_clone(text)?)?;
    checking.step(alloc, &mut asker, u32::MAX)?;
    checking.done().map_err(|_| NoMemory)
}

/// Whether two texts are equal.
fn check_same(text: &Text, other: &Text) -> Result<(), NoMemory>
    ensures { OnOk result (text.now ≡ other.now) }
{
    if text.as_str() == other.as_str() {
        Ok(())
    } else {
        Err(NoMemory)
    }
}

/// A finish of the paragraph with a place, which has this text, by a check of it.
fn finish_of(
    board: &Board<Speller>,
    place: usize,
    text: &Text,
    checked: &Checked<Speller>,
) -> Result<Event<Speller>, Refusal>
    requires text { checked.now.text ≡ text.now }
    requires judge { checked.now.judge ≡ board.now.lexicon }
    ensures fit { IfOk result (λ event. IsFit board.now (event_of (λ speller. speller) event)) }
    ensures quiet { IfOk result (λ event. is_quiet (event_of (λ speller. speller) event) ≡ true) }
{
    checks_are_fit();
    let Some(view) = board.para(place) else {
        return Err(Refusal::NoMemory);
    };
    check_same(view.text, text)?;
    // Its contract tells that the board is valid.
    let _judge = board.judge();
    Ok(Event::Finish {
        worker: 0,
        id: view.id,
        rev: view.rev,
        dict: 0,
        checked: checked.share()?,
    })
}

/// The board with the paragraph with a place finished, by a check of an equal text.
fn with_finish(
    alloc: Global,
    board: &Board<Speller>,
    place: usize,
    text: &Text,
    checked: &Checked<Speller>,
) -> Result<Board<Speller>, Refusal>
    requires text { checked.now.text ≡ text.now }
    requires judge { checked.now.judge ≡ board.now.lexicon }
    ensures { IfOk result (λ after. after.lexicon ≡ board.now.lexicon) }
{
    quiet();
    let event = finish_of(board, place, text, checked)?;
    board.next(alloc, event)
}

fn all_finished(
    alloc: Global,
    opened: Board<Speller>,
    events: usize,
    text: &Text,
    checked: &Checked<Speller>,
) -> Result<Board<Speller>, Refusal>
    requires text { checked.now.text ≡ text.now }
    requires judge { checked.now.judge ≡ opened.lexicon }
{
    let mut board = opened;
    for place in 0..events {
        board = with_finish(alloc, &board, place, text, checked)?;
    }
    Ok(board)
}

fn shared_words(alloc: Global) -> Result<Arc<Text>, NoMemory> {
    Ok(Arc::new(alloc, Text::from_str(alloc, WORDS)?)?)
}

/// The text is checked once.
fn finished(alloc: Global, opened: Board<Speller>, events: u64) -> Result<Board<Speller>, Refusal> {
    let text = shared_words(alloc)?;
    let checked = checked_by(alloc, opened.judge(), &text)?;
    all_finished(alloc, opened, events as usize, &text, &checked)
}

fn word(words: &[String], place: usize) -> &str {
    words.get(place).map_or("", |word| word.as_str())
}

/// The arguments without the program's name.
fn words_of<R: Env + AllocGlobal>(rt: &R) -> io::Result<Vec<String>> {
    let words: Vec<String> = env::args(rt)?.skip(1).collect(rt.alloc())?;
    Ok(words)
}

/// The board behind all events.
fn last_board(
    alloc: Global,
    opened: Board<Speller>,
    kind: &str,
    middle: u64,
    events: u64,
) -> Result<Board<Speller>, Refusal> {
    match kind {
        "replace" => replaced(alloc, opened, middle, events),
        "claim" => claimed(alloc, opened, events),
        "finish" => finished(alloc, opened, events),
        _ => loaded(alloc, opened, events),
    }
}

fn progress_of(alloc: Global, words: &[String]) -> Result<Progress, Refusal> {
    let count = word(words, 1).parse().unwrap_or(0);
    let events = word(words, 2).parse().unwrap_or(0);
    let judge = speller_of(alloc)?;
    let opened = opening(alloc, &judge, count)?;
    let board = last_board(alloc, opened, word(words, 0), count / 2, events)?;
    Ok(board.progress())
}

fn main(rt: HostRuntime) -> io::Result<()> {
    let words = words_of(&rt)?;
    match progress_of(rt.alloc(), &words) {
        Ok(progress) => println!(rt; "{} {}", progress.point, progress.finished),
        Err(refusal) => println!(rt; "{refusal:?}"),
    }
}
RT
mkdir -p "$work/crates/board_times/proofs/all_finished" "$work/crates/board_times/proofs/finish_of"
cat > "$work/crates/board_times/proofs/all_finished/Invariants.antt" << 'ANTT'
use Rattle.std.specs.Prelude.{◌≡◌}
use Rattle.board_times.proofs.all_finished.Given as goal

abbrev pub invariant-loop-place : goal.invariant-loop-place
invariant-loop-place l = l.board.lexicon ≡ l.fn.opened.lexicon
ANTT
cat > "$work/crates/board_times/proofs/finish_of/Answers.antt" << 'ANTT'
-- The check is of a text equal to that of the paragraph that the board shows at the place.
use Rattle.std.proofs.Common.{◌∙◌, ap, subst, sym}
use Rattle.edit_core.specs.Steps.{IsAt}
use Rattle.board_times.proofs.finish_of.Goals as goal

pub returns-clause-fit : goal.returns-clause-fit
returns-clause-fit c = λ place paragraph stands here rev-is dict-is.
    let shows = c.in-Some.ensures.some in
    let own = c.checks_are_fit.ensures.own c.args.board.now c.args.place c.in-Some.view.rev 0 shows.paragraph c.judge-judge.ensures.valid shows.at
    place paragraph stands (subst (λ id. IsAt c.args.board.now id place paragraph stands) shows.id here) rev-is dict-is in (
      ap (λ checked. checked.text) c.in_ok-share.ensures ∙ c.requires.text ∙ sym c.in_ok-check_same.ensures ∙ c.deref.ensures ∙ shows.text ∙ own.0,
      ap (λ checked. checked.judge) c.in_ok-share.ensures ∙ c.requires.judge,
    )
ANTT
(cd "$work/crates/board_times" && rt run -- finish 2 2) > "$work/log" 2>&1 || { cat "$work/log" >&2; exit 1; }
program=$work/crates/board_times/out/board_times

# measure SAYS ARGUMENTS..: the least processor seconds of three runs and the memory in kB. Each has to print what it says.
measure() {
    local says=$1
    shift
    rm -f "$work/said"
    for _ in 1 2 3; do
        /usr/bin/time -q -a -o "$work/said" -f '%U %S %M' "$program" "$@" > "$work/out"
        if [ "$(cat "$work/out")" != "$says" ]; then
            echo "boards: $* gave $(cat "$work/out") in place of $says" >&2
            exit 1
        fi
    done
    awk '{ print $1 + $2, $3 }' "$work/said" | sort -n | head -n 1
}
# row NAME KIND EVENTS FINISHED: so many paragraphs of the last board are finished.
row() {
    local none some
    none=$(measure '0 0' "$2" 20000 0)
    some=$(measure "$3 $4" "$2" 20000 "$3")
    echo "$none $some" | awk -v "name=$1" -v "events=$3" '{ printf "| %s | %d | %.1f μs | %.1f MB |\n", name, events, ($3 - $1) / events * 1000000, $4 / 1024 }'
}
echo '| event | events | one event | memory |'
echo '|---|---|---|---|'
row 'Replace, one byte of the paragraph in the middle' replace 50000 0
row 'Claim, each paragraph' claim 20000 0
row 'Finish, each paragraph' finish 20000 20000
row 'Load' load 2000 0
for count in 0 20000; do
    measure '0 0' claim "$count" 0 | awk -v "count=$count" '{ printf "| a board of %d, without events | | | %.1f MB |\n", count, $2 / 1024 }'
done
