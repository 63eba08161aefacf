//! The sections of the help pages.
pub const STATUS: &str = "\
EXIT STATUS
  0  all is well
  1  slots or listed blocks are refused, lists differ, or an input ends inside a packet, a slot
     or a frame
  2  wrong use, a file that cannot be read, written or used, a refused plan, setting or
     coordinate; no file is made or replaced

A run that is interrupted (SIGHUP, SIGINT, SIGTERM) ends by the signal, and makes or replaces
no file.";

pub const PLAN_FORM: &str = "\
PLAN
  A line for each of 1 to 8 groups: modulation, rate and slots, as `4 7 115`.

  modulation  1 π/2-shift BPSK, 2 QPSK, 3 8PSK, 4 16APSK, 5 32APSK
  rate        1 1/3, 2 2/5, 3 1/2, 4 3/5, 5 2/3, 6 3/4, 7 7/9, 8 4/5, 9 5/6, 10 7/8, 11 9/10
  slots       a multiple of 5 above 0; all lines add to 120

  Higher modulations come first and, within one, higher rates; no two lines have both alike.
  Numbers have 1 to 3 digits and no leading zeros. One space stands between them, a line feed
  after each line. The text has 128 octets at most.

  These rules are tested in their order, each over all lines; the first that is broken refuses
  the plan:

   1 plan   no lines, more than 8, or a text of another form
  13 value  an unknown modulation or rate, or slots that are 0 or no multiple of 5
  14 order  lines that do not fall
  15 total  slots that do not add to 120";

pub const CARD_FORM: &str = "\
CARD
  0 to 64 blocks of 512 octets, end to end, numbered from 0. A block keeps one setting; its
  numbers have the high octet first:

  offset  octets
       0       4  the mark S3PL
       4       1  the edition, 1
       5       1  how many groups the plan has
       6      24  eight groups: modulation, rate and slots, an octet each; unused ones are zeros
      30       4  mask of the slots' register
      34       4  start of the slots' register
      38       4  mask of the TMCC blocks' register
      42       4  start of the TMCC blocks' register
      46     464  zeros
     510       2  the sum of the 510 octets before, modulo 65536

  A block of zeros is empty. `truncate -s 32768 card` makes a new card of 64 empty blocks.

  These rules are tested in their order; the first that is broken refuses the block, an empty one
  by 17:

   4 length    the file is not 0 to 64 whole blocks
  17 block     there is no block of this number; its mark, edition or sum is wrong, or an octet
               that has to be zero is not
   1 plan, 13 value, 14 order, 15 total
               the plan is refused as that of a plan's file is
   6 register  a mask lacks its top weight, a start is 0, or either is too wide

  To replace a block another file is written, which gets the card's name once it is whole: a run
  that is cut off leaves the old card. The card's permissions stay, its owner and group as far as
  the system lets them, and a link stays a link. Runs that replace blocks of one card at once
  wait for each other.";

pub const FRAME_FORM: &str = "\
FILES
  Packets are TS packets of 188 octets, end to end, each beginning 0x47, or with --tlv TLV
  packets. A frame has 673,200 octets: 120 slots of 5,610. Headers are 22 octets for each data
  slot, in the order of the slots. The parity tables are the published ones.";

/// The end of a section on files.
pub const FILE_NAMES: &str = "  \
  `-`, or no name, is standard input or output. A file that is made gets its name once it is
  whole; until then an earlier file of that name stays. No output may be an input, or another
  output. The report goes to standard output or, where an output stands there, to standard
  error.";

pub const TLV_FORM: &str = "\
TLV
  With --tlv packets are TLV packets, end to end: 0x7F, a type octet (0x01, 0x02, 0x03, 0xFE or
  0xFF), a length of two octets, high octet first, and a body of that length; the body of a null
  packet, type 0xFF, is all 0xFF. The plan has one group. Packets run on from slot to slot and
  from frame to frame. Empty null packets (7F FF 00 00) fill the last frame; in reading all of
  them are left out, also those that were among the packets.

  Each data slot has a report: the octet of its data, counted from 0, where the first packet
  begins, or 65535 where none does. By it reading goes on behind a slot that is refused. The
  reports are a file beside the frames, under their name with `.begins` behind it or the name
  behind --begins: two octets for each data slot, in the order of the slots, high octet first.";

pub const JSON_FORM: &str = "\
JSON
  One document. `plan`, `mask` and `start` are the settings. `frames` is a list: each frame's
  numbers as in its line; `refused`, the list of its refused slots, each as `slot`, `number`,
  `word`, `lost` and `position`, which is null with 9; and `stuff`, the list of other stuff bits
  than ones, each as `stuff`, their number, and `slots`, the accepted slots that have them.
  `total` has the numbers of all frames, `left_over` the octets behind the last whole one.";

pub const PICTURE_FORM: &str = "\
PICTURE
  Frames downward against slots, coloured by answer. Where frames are many, a row stands for
  several, and a cell shows the worst answer in it.

  Where slots are refused 8, two charts are below, with one axis of positions. The upper has a
  cell for each slot and each stretch of 187 positions, coloured by how many times the lowest
  failing position was in it; it is grey where the slot has no such positions, as a dummy has
  none. The lower has a bar for each stretch: how many slots failed first there.";

pub const POINT_FORM: &str = "\
FILES
  A slot has 5,610 octets; slots lie end to end. A frame has 673,200 octets: 120 slots, as
  `s3frame code` writes them. Points are I and Q of each symbol in turn, as 32-bit floats with the
  low octet first: what GNU Radio's file source reads as complex.";

pub const COORDINATE_FORM: &str = "\
COORDINATES
  Two texts, one of in-phase and one of quadrature coordinates: one number a line, label 0 first,
  as many as the modulation has labels, which are 2, 4, 8, 16 or 32. A label is the bits of a
  symbol as a number, the bit that is read first the highest. Empty lines and lines that begin
  with # do not count, nor do blanks around a number. A number is decimal, as 0.7071 or -7.1e-1,
  or one of inf, -inf and nan; the 32-bit float nearest to it is taken. A text has 65,536 octets
  at most.

  Points are made of these floats and their negatives, right to the last bit. Which points a
  modulation has is the caller's to know: none are built in. Refused:

   1 plan        an unknown modulation or rate
   4 length      another number of coordinates than of labels; with π/2-shift BPSK also symbol 0
  18 coordinate  a coordinate that is used is infinite or not a number; one that is not used
                 may be";

pub const MASK: &str =
    "The taps of the slots' 25-bit dispersal register: a number with the weight 2^24, in decimal or behind 0x";
pub const START: &str =
    "Where the slots' register starts in each frame: a number from 1 to 2^25 - 1, in decimal or behind 0x";

/// The two ways to name the slots whose points are made.
pub const POINT_USAGE: &str = "\
s3frame points [OPTIONS] --modulation <M> --rate <R> --in-phase <FILE> --quadrature <FILE> [INPUT]
       s3frame points [OPTIONS] --plan <PLAN> [--group <N>] --in-phase <FILE> --quadrature <FILE> [INPUT]";

/// The two ways to name the setting of a job on frames.
pub fn usage(job: &str) -> String {
    format!(
        "s3frame {job} [OPTIONS] --plan <PLAN> --mask <M> --start <S> [INPUT]\n       \
         s3frame {job} [OPTIONS] --settings <CARD> --block <N> [INPUT]"
    )
}

/// Sections of a help page, an empty line between.
pub fn page(sections: &[&str]) -> String {
    sections.join("\n\n")
}
