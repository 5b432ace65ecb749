// Listings read back: from the text to the numbers in it. The form is taken strictly: each line in its place,
// fields parted by one blank, numbers without needless digits, a line feed at the end of each line.

use crate::region::OVER;
use crate::table::LARGEST_CONSTANT;

/// A region line: location, block, and each clock's integer part and rank, as an entry has them.
#[derive(Debug)]
pub struct RegionLine {
    pub location: u8,
    pub block: u32,
    pub clocks: Vec<(u8, u8)>,
}

/// A step line: the action, and each block landed in with its share.
#[derive(Debug)]
pub struct StepLine {
    pub action: u8,
    pub shares: Vec<(u32, u64)>,
}

/// The lines of a block: label, size, the other blocks reached by delay, the steps.
#[derive(Debug)]
pub struct BlockLines {
    pub label: u8,
    pub size: usize,
    pub delay: Option<Vec<u32>>,
    pub steps: Vec<StepLine>,
}

/// What a line of the totals counts.
#[derive(Clone, Copy, PartialEq, Eq, Debug)]
pub struct Counts {
    pub regions: usize,
    pub blocks: usize,
}

/// A whole listing. The totals are those of each label that has a line, line by line, and those of all.
#[derive(Debug)]
pub struct Listing {
    pub rounds: usize,
    pub regions: Vec<RegionLine>,
    pub blocks: Vec<BlockLines>,
    pub labels: Vec<(u8, Counts)>,
    pub all: Counts,
}

/// The lines that are left to read, each as its fields.
struct Lines<'a> {
    left: Vec<Vec<&'a str>>,
}

impl<'a> Lines<'a> {
    /// All lines of a text. Each, the last too, ends with a line feed.
    fn of(text: &'a str) -> Option<Lines<'a>> {
        let lines = text.strip_suffix('\n')?.split('\n');
        Some(Lines { left: lines.rev().map(|line| line.split(' ').collect()).collect() })
    }

    /// The fields after the word of the next line, if it begins with this word.
    fn next_of(&mut self, word: &str) -> Option<Vec<&'a str>> {
        if self.left.last()?[0] != word {
            return None;
        }
        self.left.pop().map(|fields| fields[1..].to_vec())
    }
}

/// A number as it is printed: digits only, none of them needless.
fn number(field: &str) -> Option<usize> {
    let number: usize = field.parse().ok()?;
    (number.to_string() == field).then_some(number)
}

fn byte(field: &str) -> Option<u8> {
    number(field).and_then(|number| u8::try_from(number).ok())
}

fn block(field: &str) -> Option<u32> {
    number(field).and_then(|number| u32::try_from(number).ok())
}

/// Whether a field is this number.
fn is(field: &str, wanted: usize) -> Option<()> {
    (number(field)? == wanted).then_some(())
}

/// Reads a listing back; none if its form is not that of a listing.
pub fn parse(text: &str) -> Option<Listing> {
    let mut lines = Lines::of(text)?;
    let [regions, "blocks", blocks, "rounds", rounds] = lines.next_of("regions")?[..] else {
        return None;
    };
    let rounds = number(rounds)?;
    let regions: Option<Vec<RegionLine>> =
        (0..number(regions)?).map(|index| region_line(index, &lines.next_of("region")?)).collect();
    let regions = regions?;
    let blocks: Option<Vec<BlockLines>> =
        (0..number(blocks)?).map(|index| block_lines(index, &mut lines)).collect();
    let blocks = blocks?;
    let mut labels = Vec::new();
    while let Some(fields) = lines.next_of("label") {
        labels.push((byte(fields.first()?)?, counts(&fields[1..])?));
    }
    let all = counts(&lines.next_of("all")?)?;
    lines.left.is_empty().then_some(Listing { rounds, regions, blocks, labels, all })
}

/// The counts of a line of the totals.
fn counts(fields: &[&str]) -> Option<Counts> {
    let ["regions", regions, "blocks", blocks] = fields else {
        return None;
    };
    Some(Counts { regions: number(regions)?, blocks: number(blocks)? })
}

fn region_line(index: usize, fields: &[&str]) -> Option<RegionLine> {
    let [place, location, of, clocks @ ..] = fields else {
        return None;
    };
    is(place, index)?;
    let clocks: Option<Vec<(u8, u8)>> = clocks.iter().map(|field| clock(field)).collect();
    Some(RegionLine { location: byte(location)?, block: block(of)?, clocks: clocks? })
}

/// A clock: over, an integer part, or an integer part and a rank that is not 0.
fn clock(field: &str) -> Option<(u8, u8)> {
    match field.split_once('+') {
        None if field == ">" => Some((OVER, 0)),
        None => whole_part(field).map(|whole| (whole, 0)),
        Some((whole, rank)) => Some((whole_part(whole)?, byte(rank).filter(|&rank| rank > 0)?)),
    }
}

/// An integer part: 15 at most, as no constant exceeds that.
fn whole_part(field: &str) -> Option<u8> {
    byte(field).filter(|&whole| whole <= LARGEST_CONSTANT)
}

fn block_lines(index: usize, lines: &mut Lines) -> Option<BlockLines> {
    let [place, label, size] = lines.next_of("block")?[..] else {
        return None;
    };
    is(place, index)?;
    let mut delay = None;
    if let Some(fields) = lines.next_of("delay") {
        is(fields.first()?, index)?;
        let reached: Option<Vec<u32>> = fields[1..].iter().map(|field| block(field)).collect();
        delay = Some(reached?);
    }
    let mut steps = Vec::new();
    while let Some(fields) = lines.next_of("step") {
        steps.push(step_line(index, &fields)?);
    }
    Some(BlockLines { label: byte(label)?, size: number(size)?, delay, steps })
}

fn step_line(index: usize, fields: &[&str]) -> Option<StepLine> {
    let [place, action, shares @ ..] = fields else {
        return None;
    };
    is(place, index)?;
    let share = |field: &&str| -> Option<(u32, u64)> {
        let (target, parts) = field.split_once(':')?;
        Some((block(target)?, number(parts)? as u64))
    };
    let shares: Option<Vec<(u32, u64)>> = shares.iter().map(share).collect();
    Some(StepLine { action: byte(action)?, shares: shares? })
}

/// A listing must be read back, and no text that differs from it in form only.
pub fn check_strictness(text: &str) {
    assert!(parse(text).is_some(), "a listing is read back");
    let lines: Vec<&str> = text.lines().collect();
    let mut others = vec![text.trim_end().to_string(), format!("{text}\n"), text.replace('\n', "\r\n")];
    others.extend(with_another_end(&lines));
    for (index, line) in lines.iter().enumerate() {
        let fields: Vec<&str> = line.split(' ').collect();
        let longer = [format!("{line} "), format!(" {line}"), line.replacen(' ', "  ", 1)];
        let zero =
            fields[1..].iter().map(|field| line.replacen(&format!(" {field}"), &format!(" 0{field}"), 1));
        for other in longer.into_iter().chain(zero) {
            let mut changed: Vec<&str> = lines.clone();
            changed[index] = &other;
            others.push(changed.join("\n") + "\n");
        }
    }
    for other in others {
        assert!(parse(&other).is_none(), "{other:?} has not the form of a listing");
    }
}

/// The lines of a listing with an end that none has: without the last line, with it twice, with one more line of a
/// label after it, and with it before the last line of a label.
fn with_another_end(lines: &[&str]) -> Vec<String> {
    let (all, before) = lines.split_last().expect("a listing has lines");
    let (label, above) = before.split_last().expect("a label is borne");
    let ends: [(&[&str], &[&str]); 4] =
        [(before, &[]), (lines, &[all]), (lines, &[label]), (above, &[all, label])];
    ends.iter().map(|(kept, more)| [*kept, *more].concat().join("\n") + "\n").collect()
}
