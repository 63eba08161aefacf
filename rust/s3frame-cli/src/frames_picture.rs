//! The picture of frames that were read: what became of their slots, and where parity broke.
use crate::picture::{
    legend, sides, svg, title, whole, with_axes, Area, Drawn, ABSENT, EDGE, FAILING, FONT, LINE, LOWER_AXIS,
    SLOT_LABELS, WIDTH,
};
use crate::position_charts;
use crate::positions::Positions;
use crate::rows::Rows;
use crate::tally::Answer;
use plotters::prelude::*;
use s3frame::SLOTS;

/// The heights of rows, in pixels, which fill so much where that is between the two.
const ROWS: u32 = 600;
const LOWEST_ROW: u32 = 4;
const HIGHEST_ROW: u32 = 24;
const LEAST_ROWS: u32 = 60;

/// How many labels the axis of frames has at most.
const FRAME_LABELS: usize = 10;

/// What each answer is called, and its colour.
const ANSWERS: [(Answer, &str, RGBColor); 5] = [
    (Answer::Accepted, "accepted", RGBColor(0x8A, 0xC6, 0xEE)),
    (Answer::Dummy, "dummy", ABSENT),
    (Answer::Parity, "refused 8 parity", FAILING),
    (Answer::Bch, "refused 9 BCH", RGBColor(0xC0, 0x3A, 0x0B)),
    (Answer::OtherStuff, "accepted, other stuff bits", RGBColor(0xF0, 0xB4, 0x00)),
];

/// The slots of frames, coloured by answer: slots to the right, frames downward. Below it the charts of positions.
pub fn of_frames(rows: &Rows, positions: &Positions) -> String {
    let count = rows.iter().count() as u32;
    let height = count * (ROWS / count).clamp(LOWEST_ROW, HIGHEST_ROW);
    let height = 2 * LINE + height.max(LEAST_ROWS) + LOWER_AXIS + EDGE;
    svg((WIDTH, height + position_charts::height(positions)), |area| {
        let (upper, lower) = area.split_vertically(height);
        let (head, body) = upper.split_vertically(2 * LINE);
        title(&head, &heading(rows))?;
        legend(&head, ANSWERS.map(|(_, name, colour)| (colour, name)))?;
        chart(&body, rows)?;
        position_charts::draw(&lower, positions)
    })
}

fn heading(rows: &Rows) -> String {
    let each = match rows.each() {
        1 => String::new(),
        each => format!("; each row the worst of {each} frames"),
    };
    format!("Slots of frames 1 to {}, by answer{each}", rows.frames())
}

fn chart(area: &Area, rows: &Rows) -> Drawn {
    // Frames count downward, so they stand as numbers below 0.
    let place = |frame: u64, side: f64| -(frame as f64 + side);
    let mut chart =
        with_axes(area).build_cartesian_2d(0.5..SLOTS as f64 + 0.5, place(rows.frames(), 0.5)..place(1, -0.5))?;
    chart
        .configure_mesh()
        .disable_mesh()
        .x_desc("slot")
        .y_desc("frame")
        .label_style(FONT)
        .x_labels(SLOT_LABELS)
        .y_labels(FRAME_LABELS.min(rows.frames() as usize))
        .x_label_formatter(&|slot| whole(*slot))
        .y_label_formatter(&|frame| whole(-frame))
        .draw()?;
    for (first, last, row) in rows.iter() {
        let (top, bottom) = (place(first, -0.5), place(last, 0.5));
        chart.draw_series(row.iter().zip(1..).map(|(answer, slot)| {
            let (left, right) = sides(slot, slot);
            Rectangle::new([(left, top), (right, bottom)], colour(*answer).filled())
        }))?;
    }
    Ok(())
}

fn colour(answer: Answer) -> RGBColor {
    ANSWERS.iter().find(|(of, _, _)| *of == answer).expect("every answer has a colour").2
}
