#!/usr/bin/env bash
# Times edits of lists of paragraphs of 100 bytes, and prints a table: the microseconds (processor time) of one edit, and the most
# memory. One byte of a paragraph is replaced, again and again, in the middle of a list and in its last one, and paragraphs are put
# at the front; each edit is made on the list that the one before made. No program of the repository edits paragraphs, so one is
# made, proved and built in a temporary folder, beside copies of the crates that it stands on: a minute, and more where these are
# not proved yet. It is timed with edits and with none, the least of three runs each; an edit takes the difference by their
# number. Needs rt.
set -euo pipefail
top=$(cd "$(dirname "$0")/.." && pwd)
work=$(mktemp -d)
trap 'rm -rf "$work"' EXIT

mkdir -p "$work/crates/paragraph_times/src"
cp "$top/HANDLES" "$work"
for crate in lists text_lines paragraph_text; do
    tar -c --exclude out -C "$top/crates" "$crate" | tar -x -C "$work/crates"
    grep "^$crate:" "$top/crates.txt"
done > "$work/crates.txt"
echo 'paragraph_times: lists text_lines paragraph_text' >> "$work/crates.txt"
cat > "$work/crates/paragraph_times/src/main.rt" << 'RT'
//! Edits a list of so many paragraphs so often, `middle COUNT EDITS`, `last COUNT EDITS` or `front COUNT EDITS`, and prints how long
//! the last list is.
#![tactic(auto)]

use lists::NoMemory;
use paragraph_text::{Edit, EditRefusal, Paragraphs, apply};
use std::alloc::Global;
use std::env::{self, Env};
use std::io;
use text_lines::Text;

/// 100 bytes.
const WORDS: &str =
    "paragraph paragraph paragraph paragraph paragraph paragraph paragraph paragraph paragraph paragraph ";

fn opening(alloc: Global, count: u64) -> Result<Paragraphs, NoMemory> {
    let mut texts = Vec::new(alloc);
    for _ in 0..count {
        texts.push(Text::from_str(alloc, WORDS)?)?;
    }
    Paragraphs::from_texts(alloc, texts)
}

/// The list with one byte of a paragraph replaced, which the version before touched.
fn with_byte(
    alloc: Global,
    paragraphs: &Paragraphs,
    id: u64,
    rev: u64,
) -> Result<Paragraphs, EditRefusal> {
    let edit = Edit::Replace {
        id,
        rev,
        from: 50,
        to: 51,
        text: Text::from_str(alloc, "x")?,
    };
    apply(alloc, paragraphs, rev.wrapping_add(1), 0, &edit)
}

fn edited_inside(alloc: Global, count: u64, edits: u64, id: u64) -> Result<usize, EditRefusal> {
    let mut paragraphs = opening(alloc, count)?;
    for rev in 0..edits {
        paragraphs = with_byte(alloc, &paragraphs, id, rev)?;
    }
    Ok(paragraphs.len())
}

/// The list with a paragraph put before the first one.
fn with_front(alloc: Global, paragraphs: &Paragraphs, id: u64) -> Result<Paragraphs, EditRefusal> {
    let edit = Edit::Insert {
        before: paragraphs.get(0).map(|para| para.id),
        text: Text::from_str(alloc, WORDS)?,
    };
    apply(alloc, paragraphs, id, id, &edit)
}

fn edited_at_the_front(alloc: Global, count: u64, edits: u64) -> Result<usize, EditRefusal> {
    let mut paragraphs = opening(alloc, count)?;
    for edit in 0..edits {
        paragraphs = with_front(alloc, &paragraphs, count.wrapping_add(edit))?;
    }
    Ok(paragraphs.len())
}

fn word(words: &[String], place: usize) -> &str {
    words.get(place).map_or("", |word| word.as_str())
}

fn edited(alloc: Global, words: &[String]) -> Result<usize, EditRefusal> {
    let count = word(words, 1).parse().unwrap_or(0);
    let edits = word(words, 2).parse().unwrap_or(0);
    match word(words, 0) {
        "front" => edited_at_the_front(alloc, count, edits),
        "last" => edited_inside(alloc, count, edits, count.wrapping_sub(1)),
        _ => edited_inside(alloc, count, edits, count / 2),
    }
}

/// The arguments without the program's name.
fn words_of<R: Env + AllocGlobal>(rt: &R) -> io::Result<Vec<String>> {
    let words: Vec<String> = env::args(rt)?.skip(1).collect(rt.alloc())?;
    Ok(words)
}

fn main(rt: HostRuntime) -> io::Result<()> {
    let words = words_of(&rt)?;
    match edited(rt.alloc(), &words) {
        Ok(length) => println!(rt; "{length}"),
        Err(refusal) => println!(rt; "{refusal:?}"),
    }
}
RT
(cd "$work/crates/paragraph_times" && rt run -- middle 1 1) > "$work/log" 2>&1 || { cat "$work/log" >&2; exit 1; }
program=$work/crates/paragraph_times/out/paragraph_times

# measure LENGTH ARGUMENTS..: the least processor seconds of three runs and the memory in kB. Each has to print that length.
measure() {
    local length=$1
    shift
    rm -f "$work/said"
    for _ in 1 2 3; do
        /usr/bin/time -q -a -o "$work/said" -f '%U %S %M' "$program" "$@" > "$work/out"
        if [ "$(cat "$work/out")" != "$length" ]; then
            echo "paragraphs: $* gave $(cat "$work/out") in place of $length" >&2
            exit 1
        fi
    done
    awk '{ print $1 + $2, $3 }' "$work/said" | sort -n | head -n 1
}
# row NAME LENGTH PLACE COUNT EDITS: the length is that of the last list.
row() {
    local none some
    none=$(measure "$4" "$3" "$4" 0)
    some=$(measure "$2" "$3" "$4" "$5")
    echo "$none $some" | awk -v "name=$1" -v "edits=$5" '{ printf "| %s | %d | %.2f μs | %.1f MB |\n", name, edits, ($3 - $1) / edits * 1000000, $4 / 1024 }'
}
echo '| what is edited | edits | an edit | memory |'
echo '|---|---|---|---|'
row 'one byte of the only paragraph' 1 middle 1 1000000
row 'of the one in the middle of 1,000' 1000 middle 1000 100000
row 'of the one in the middle of 20,000' 20000 middle 20000 100000
row 'of the last of 20,000' 20000 last 20000 100000
row 'a paragraph put at the front, from none to 20,000' 20000 front 0 20000
for count in 0 20000; do
    measure "$count" middle "$count" 0 | awk -v "count=$count" '{ printf "| a list of %d, without edits | | | %.1f MB |\n", count, $2 / 1024 }'
done
