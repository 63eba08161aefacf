//! The words of the command line.
use crate::failure::Failure;
use crate::help::{
    page, usage, CARD_FORM, COORDINATE_FORM, FILE_NAMES, FRAME_FORM, JSON_FORM, MASK, PICTURE_FORM, PLAN_FORM,
    POINT_FORM, POINT_USAGE, START, STATUS, TLV_FORM,
};
use crate::number::Number;
use clap::{Args, Parser, Subcommand};
use std::path::{Path, PathBuf};

/// Codes TS or TLV packets into ISDB-S3 frames, makes their signal points, and reads frames back
///
/// The work on slots is done by functions that are proved against the Ministry's technical conditions: BCH, dispersal, LDPC
/// parity, symbols and points, and every check on the way back.
#[derive(Parser)]
#[command(name = "s3frame", version, after_long_help = page(&[
    "EXAMPLE\n  printf '4 7 115\\n2 3 5\\n' >plan.txt\n  s3frame plan plan.txt\n  \
     s3frame code --plan plan.txt --mask 0x1234567 --start 1 sent.ts -o frames\n  \
     s3frame monitor --plan plan.txt --mask 0x1234567 --start 1 frames -o back.ts\n  s3frame compare sent.ts back.ts\n  \
     s3frame points --plan plan.txt --group 2 --in-phase i.txt --quadrature q.txt frames -o points.cf32\n\n  \
     truncate -s 32768 card\n  s3frame settings set card 0 --plan plan.txt --mask 0x1234567 --start 1 \\\n      \
     --tmcc-mask 0x4001 --tmcc-start 1\n  s3frame code --settings card --block 0 sent.ts -o frames",
    STATUS,
]))]
pub struct Words {
    #[command(subcommand)]
    pub job: Job,
}

#[derive(Subcommand)]
pub enum Job {
    Plan(PlanWords),
    Code(CodeWords),
    Monitor(MonitorWords),
    Compare(CompareWords),
    Points(PointWords),
    Settings(CardWords),
}

impl Job {
    /// The words that name it.
    pub fn name(&self) -> &'static str {
        match self {
            Job::Plan(_) => "plan",
            Job::Code(_) => "code",
            Job::Monitor(_) => "monitor",
            Job::Compare(_) => "compare",
            Job::Points(_) => "points",
            Job::Settings(words) => words.job.name(),
        }
    }
}

/// Lists the slots of a plan
///
/// Writes a line of column names; for each group the run of its data slots and the run of its dummies, as first slot, last
/// slot, modulation, rate and kind; the sums of both; and how many packets a frame carries.
#[derive(Args)]
#[command(after_long_help = page(&[PLAN_FORM, STATUS, "EXAMPLE\n  s3frame plan plan.txt --svg plan.svg"]))]
pub struct PlanWords {
    /// The plan's file; - is standard input
    pub plan: PathBuf,
    /// Draws the 120 slots into this file, data and dummies by group
    #[arg(long, value_name = "FILE")]
    pub svg: Option<PathBuf>,
}

/// What coding and reading frames have in common: a setting, said in words or kept on a card.
#[derive(Args)]
pub struct SettingWords {
    /// The plan's file
    #[arg(long)]
    plan: Option<PathBuf>,
    #[arg(long, value_name = "M", help = MASK)]
    mask: Option<Number>,
    #[arg(long, value_name = "S", help = START)]
    start: Option<Number>,
    /// A card's file, in place of --plan, --mask and --start; the TMCC blocks' register is not used
    #[arg(long, value_name = "CARD")]
    settings: Option<PathBuf>,
    /// The number of the card's block, from 0; `s3frame settings --help` says what a card is
    #[arg(long, value_name = "N")]
    block: Option<Number>,
}

/// Where plan and register come from.
#[derive(Debug)]
pub enum Setting<'a> {
    Said { plan: &'a Path, mask: &'a Number, start: &'a Number },
    Kept { card: &'a Path, block: usize },
}

impl SettingWords {
    /// The setting; words for both kinds, or for a part of one, are wrong use.
    pub fn setting(&self) -> Result<Setting<'_>, Failure> {
        let SettingWords { plan, mask, start, settings, block } = self;
        match (plan, mask, start, settings, block) {
            (Some(plan), Some(mask), Some(start), None, None) => Ok(Setting::Said { plan, mask, start }),
            (None, None, None, Some(card), Some(block)) => Ok(Setting::Kept { card, block: block.value as usize }),
            _ => Err(Failure::new("settings", "name either --plan, --mask and --start, or --settings and --block")),
        }
    }
}

/// Codes TS or TLV packets into frames
///
/// Puts the packets into the data slots of as many frames as they need. Null packets fill the last frame, dummies are zeros.
/// The last line says how many frames there are, how many packets they carry, and how many null packets behind these; for
/// TLV packets instead how many octets the packets have, and how many octets of empty null packets fill up behind them.
///
/// A packet that does not begin 0x47, or a TLV packet of another form, is refused. Where the packets end inside one, what
/// came before it is coded.
#[derive(Args)]
#[command(override_usage = usage("code"), after_long_help = page(&[PLAN_FORM, FRAME_FORM, FILE_NAMES, TLV_FORM, STATUS,
    "EXAMPLE\n  s3frame code --plan plan.txt --mask 0x1234567 --start 1 sent.ts -o frames\n  \
     s3frame code --tlv --plan one-group.txt --mask 0x1234567 --start 1 sent.tlv -o frames\n  \
     s3frame code --settings card --block 0 sent.ts -o frames"]))]
pub struct CodeWords {
    #[command(flatten)]
    pub settings: SettingWords,
    /// The packets are TLV packets
    #[arg(long)]
    pub tlv: bool,
    /// Writes the reports of the slots into this file; without it their name is OUTPUT's with .begins behind
    #[arg(long, value_name = "FILE", requires = "tlv")]
    pub begins: Option<PathBuf>,
    /// The headers of the data slots; without it they are zeros
    #[arg(long, value_name = "FILE")]
    pub headers: Option<PathBuf>,
    /// The packets; standard input without it
    pub input: Option<PathBuf>,
    /// The frames; standard output without it
    #[arg(short, long)]
    pub output: Option<PathBuf>,
}

/// Reads frames, writes their packets, and reports what became of every slot
///
/// Writes the packets of the slots that are accepted. The report has a line for each slot that is refused, with number and
/// word, 8 parity or 9 BCH, and how many packets it lost; a line for each frame with its slots by answer and its packets:
/// those that the plan carries, those that were written, those of refused slots, each counted for itself, and the null
/// packets among those written; and such a line for all frames. Frames and slots are counted from 1.
///
/// The line of a slot that is refused 8 ends with where its parity broke, as `slot 2 refused 8 parity lost 23 position 4711`:
/// the lowest position that fails, counted from 0 among the slot's parity bits, which are 29,546 at rate 1/3 and 4,114 at rate
/// 9/10.
///
/// A slot is accepted whatever its six stuff bits are. Slots where they are not all ones, as some makers send them, count as
/// accepted, and in other_stuff besides. Lines before the frame's say which bits they were, as `stuff 62 slots 5,7-9`: the
/// bits as a number from 0 to 63, the first bit the highest, and the slots that have them.
///
/// Of TLV packets these lines have how many were written, their octets, the data octets of refused slots, and the octets so
/// far of a packet that goes on in the next frame. Behind the last frame such a packet is not written; an empty null packet
/// that is cut there does not count.
///
/// Where the frames end inside one, those before it are read.
#[derive(Args)]
#[command(override_usage = usage("monitor"), after_long_help = page(&[PLAN_FORM, FRAME_FORM, FILE_NAMES, TLV_FORM, JSON_FORM,
    PICTURE_FORM, STATUS,
    "EXAMPLE\n  s3frame monitor --plan plan.txt --mask 0x1234567 --start 1 frames -o back.ts --svg slots.svg\n  \
     s3frame monitor --tlv --plan one-group.txt --mask 0x1234567 --start 1 frames -o back.tlv\n  \
     s3frame monitor --settings card --block 0 frames -o back.ts"]))]
pub struct MonitorWords {
    #[command(flatten)]
    pub settings: SettingWords,
    /// The packets are TLV packets
    #[arg(long)]
    pub tlv: bool,
    /// Reads the reports of the slots from this file; without it their name is INPUT's with .begins behind
    #[arg(long, value_name = "FILE", requires = "tlv")]
    pub begins: Option<PathBuf>,
    /// The frames; standard input without it
    pub input: Option<PathBuf>,
    /// The packets; standard output without it
    #[arg(short, long, value_name = "PACKETS")]
    pub output: Option<PathBuf>,
    /// Writes the headers of accepted slots into this file
    #[arg(long, value_name = "FILE")]
    pub headers: Option<PathBuf>,
    /// Writes the report for programs into this file
    #[arg(long, value_name = "FILE")]
    pub json: Option<PathBuf>,
    /// Draws frames against slots into this file, coloured by answer, and slots against failing parity positions
    #[arg(long, value_name = "FILE")]
    pub svg: Option<PathBuf>,
}

/// Compares two lists of TS packets
///
/// Says how many packets each list has, how many agree from the front and, behind those, from the end; and then which
/// packets between are in one list only, as runs with their numbers, counted from 0, and how many of them are null packets:
/// those that fill the last frame come back behind the packets that were sent.
///
/// Packets that do not begin 0x47 are compared as they are. Packets between are told apart by digests of 128 bits.
#[derive(Args)]
#[command(after_long_help = page(&[STATUS, "EXAMPLE\n  s3frame compare sent.ts back.ts"]))]
pub struct CompareWords {
    /// The packets that were sent, 188 octets each; - is standard input
    pub sent: PathBuf,
    /// The packets that came back; - is standard input
    pub received: PathBuf,
}

/// Makes the signal points of coded slots, for a modulator
///
/// Writes in-phase and quadrature coordinate of each symbol, by the points that two texts give for the labels. Points belong
/// to one modulation: the slots lie end to end, all of one modulation and rate, or in frames, of which the data slots of one
/// group are used; slots of other groups and dummies are left out. With π/2-shift BPSK the points of even symbols are turned
/// by 90 degrees anticlockwise, which makes (I, Q) into (-Q, I).
///
/// The last line says how many slots and points there were, and before these how many frames, where the slots lie in frames.
///
/// Where the input ends inside a slot or a frame, the points of those before it are made.
#[derive(Args)]
#[command(override_usage = POINT_USAGE, after_long_help = page(&[POINT_FORM, FILE_NAMES, COORDINATE_FORM, PLAN_FORM,
    STATUS,
    "EXAMPLE\n  printf '3 6 120\\n' >one-group.txt\n  \
     s3frame code --plan one-group.txt --mask 0x1234567 --start 1 sent.ts -o frames\n  \
     s3frame points --plan one-group.txt --in-phase examples/points/8psk-in-phase.txt \\\n      \
     --quadrature examples/points/8psk-quadrature.txt frames -o points.cf32 --svg points.svg"]))]
pub struct PointWords {
    /// The modulation of slots that lie end to end, a number as in a plan
    #[arg(long, value_name = "M")]
    modulation: Option<Number>,
    /// The rate of slots that lie end to end, a number as in a plan
    #[arg(long, value_name = "R")]
    rate: Option<Number>,
    /// The plan's file, where the slots lie in frames
    #[arg(long)]
    plan: Option<PathBuf>,
    /// Which group of the plan, from 1, where it has several
    #[arg(long, value_name = "N")]
    group: Option<Number>,
    /// The in-phase coordinates of the labels; - is standard input
    #[arg(long, value_name = "FILE")]
    pub in_phase: PathBuf,
    /// The quadrature coordinates of the labels; - is standard input
    #[arg(long, value_name = "FILE")]
    pub quadrature: PathBuf,
    /// The number in the frame, from 1, of the first symbol; it counts for π/2-shift BPSK alone. All slots begin alike, since
    /// each has an even number of such symbols
    #[arg(long, value_name = "N", default_value = "1")]
    pub symbol: Number,
    /// The slots or frames; standard input without it
    pub input: Option<PathBuf>,
    /// The points; standard output without it
    #[arg(short, long)]
    pub output: Option<PathBuf>,
    /// Draws the points that were sent into this file, each with its labels and how many symbols had it
    #[arg(long, value_name = "FILE")]
    pub svg: Option<PathBuf>,
}

/// Where the slots lie whose points are made.
#[derive(Debug)]
pub enum Slots<'a> {
    Alone { modulation: &'a Number, rate: &'a Number },
    InFrames { plan: &'a Path, group: Option<&'a Number> },
}

impl PointWords {
    /// Where the slots lie; words for both, or for a part of one, are wrong use.
    pub fn slots(&self) -> Result<Slots<'_>, Failure> {
        let PointWords { modulation, rate, plan, group, .. } = self;
        match (modulation, rate, plan, group) {
            (Some(modulation), Some(rate), None, None) => Ok(Slots::Alone { modulation, rate }),
            (None, None, Some(plan), group) => Ok(Slots::InFrames { plan, group: group.as_ref() }),
            _ => Err(Failure::new(
                "slots",
                "name either --modulation and --rate, or --plan and, of several groups, --group",
            )),
        }
    }
}

/// Lists, shows and replaces the settings that a card keeps in blocks
///
/// A setting is a plan and the masks and starts of two dispersal registers, that of the slots and that of the TMCC blocks.
#[derive(Args)]
#[command(after_long_help = page(&[CARD_FORM, STATUS,
    "EXAMPLE\n  truncate -s 32768 card\n  s3frame settings set card 0 --plan plan.txt --mask 0x1234567 --start 1 \\\n      \
     --tmcc-mask 0x4001 --tmcc-start 1\n  s3frame settings list card\n  s3frame settings show card 0"]))]
pub struct CardWords {
    #[command(subcommand)]
    pub job: CardJob,
}

#[derive(Subcommand)]
pub enum CardJob {
    List(ListWords),
    Show(ShowWords),
    Set(SetWords),
}

impl CardJob {
    /// The words that name it.
    fn name(&self) -> &'static str {
        match self {
            CardJob::List(_) => "settings list",
            CardJob::Show(_) => "settings show",
            CardJob::Set(_) => "settings set",
        }
    }
}

/// Lists the blocks of a card
///
/// Writes a line for each block: its setting, or that it is empty, or number and word of its refusal. The last line says how
/// many blocks there are of each kind. Refused blocks give the status 1, empty ones do not.
#[derive(Args)]
#[command(after_long_help = page(&[CARD_FORM, STATUS, "EXAMPLE\n  s3frame settings list card"]))]
pub struct ListWords {
    /// The card's file; - is standard input
    pub card: PathBuf,
}

/// Shows a block of a card
///
/// The first line has the registers as options of `s3frame settings set`, the others are the plan's, as in its file.
#[derive(Args)]
#[command(after_long_help = page(&[CARD_FORM, STATUS,
    "EXAMPLE\n  s3frame settings show card 0\n\n  # block 0 into block 1\n  \
     s3frame settings show card 0 --plan plan.txt >registers\n  \
     s3frame settings set card 1 --plan plan.txt $(cat registers)"]))]
pub struct ShowWords {
    /// The card's file; - is standard input
    pub card: PathBuf,
    /// The number of the block, from 0
    #[arg(value_name = "N")]
    pub block: Number,
    /// Writes the plan into this file instead
    #[arg(long, value_name = "FILE")]
    pub plan: Option<PathBuf>,
}

/// Replaces a block of a card
///
/// Puts a setting into the block, whatever stands there, and tells it. The other blocks keep their octets.
#[derive(Args)]
#[command(after_long_help = page(&[PLAN_FORM, CARD_FORM, STATUS,
    "EXAMPLE\n  s3frame settings set card 0 --plan plan.txt --mask 0x1234567 --start 1 \\\n      \
     --tmcc-mask 0x4001 --tmcc-start 1"]))]
pub struct SetWords {
    /// The card's file, which is replaced
    pub card: PathBuf,
    /// The number of the block, from 0
    #[arg(value_name = "N")]
    pub block: Number,
    /// The plan's file; - is standard input
    #[arg(long)]
    pub plan: PathBuf,
    #[arg(long, value_name = "M", help = MASK)]
    pub mask: Number,
    #[arg(long, value_name = "S", help = START)]
    pub start: Number,
    /// The taps of the TMCC blocks' 15-bit dispersal register: a number with the weight 2^14, in decimal or behind 0x
    #[arg(long, value_name = "M")]
    pub tmcc_mask: Number,
    /// Where the TMCC blocks' register starts: a number from 1 to 2^15 - 1, in decimal or behind 0x
    #[arg(long, value_name = "S")]
    pub tmcc_start: Number,
}

#[cfg(test)]
mod tests {
    use super::*;
    use clap::error::ErrorKind;

    /// The job of a command line.
    fn job(line: &[&str]) -> Job {
        let words = ["s3frame"].iter().chain(line).flat_map(|words| words.split(' '));
        Words::try_parse_from(words).expect("words that are known").job
    }

    /// Every choice of some words, as a number with a bit for each word, the first the lowest.
    fn choices<'a>(words: &'a [&'a str]) -> impl Iterator<Item = (usize, Vec<&'a str>)> {
        let chosen = |choice: usize| (0..words.len()).filter(move |word| choice >> word & 1 == 1);
        (0..1 << words.len()).map(move |choice| (choice, chosen(choice).map(|word| words[word]).collect()))
    }

    #[test]
    fn a_setting_is_said_or_kept() {
        for (choice, line) in choices(&["--plan p", "--mask 1", "--start 2", "--settings c", "--block 3"]) {
            let words = match job(&[&["code"], &line[..]].concat()) {
                Job::Code(words) => words.settings,
                _ => unreachable!("the job is code"),
            };
            match (choice, words.setting()) {
                (0b00111, found) => assert!(matches!(found, Ok(Setting::Said { .. }))),
                (0b11000, found) => assert!(matches!(found, Ok(Setting::Kept { .. }))),
                (_, found) => assert_eq!(
                    found.expect_err("neither, or parts").to_string(),
                    "settings: name either --plan, --mask and --start, or --settings and --block"
                ),
            }
        }
    }

    #[test]
    fn slots_lie_alone_or_in_frames() {
        for (choice, line) in choices(&["--modulation 3", "--rate 6", "--plan p", "--group 1"]) {
            let words = match job(&[&["points --in-phase i --quadrature q"], &line[..]].concat()) {
                Job::Points(words) => words,
                _ => unreachable!("the job is points"),
            };
            match (choice, words.slots()) {
                (0b0011, found) => assert!(matches!(found, Ok(Slots::Alone { .. }))),
                (0b0100, found) => assert!(matches!(found, Ok(Slots::InFrames { group: None, .. }))),
                (0b1100, found) => assert!(matches!(found, Ok(Slots::InFrames { group: Some(_), .. }))),
                (_, found) => assert_eq!(
                    found.expect_err("neither, or parts").to_string(),
                    "slots: name either --modulation and --rate, or --plan and, of several groups, --group"
                ),
            }
        }
    }

    #[test]
    fn all_of_a_setting_is_set() {
        let words = ["--plan", "--mask", "--start", "--tmcc-mask", "--tmcc-start"];
        let parsed = |left_out: usize| {
            let named =
                words.iter().enumerate().filter(|(word, _)| *word != left_out).flat_map(|(_, word)| [*word, "1"]);
            Words::try_parse_from(["s3frame", "settings", "set", "card", "0"].into_iter().chain(named))
        };
        assert!(parsed(words.len()).is_ok());
        for left_out in 0..words.len() {
            let error = parsed(left_out).err().expect("a word is missing");
            assert_eq!(error.kind(), ErrorKind::MissingRequiredArgument);
        }
    }
}
