//! Charts of where parity broke, below that of frames: slots against positions, and how many slots failed first in each stretch
//! of positions. They have the axis of positions in common, and stand one below the other.
use crate::picture::{
    axis_name, legend, sides, title, whole, with_axes, Area, Drawn, ABSENT, EDGE, FAILING, FONT, LINE, LOWER_AXIS,
    SLOT_LABELS,
};
use crate::positions::{Positions, STRETCH};
use plotters::prelude::*;
use s3frame::SLOTS;

// All lengths are pixels: a slot's height, that of the highest bar, and the least of any.
const SLOT_HEIGHT: u32 = 5;
const BARS: u32 = 160;
const LOWEST_BAR: f64 = 3.0;
const SLOTS_CHART: u32 = 2 * LINE + SLOT_HEIGHT * SLOTS as u32 + LOWER_AXIS + EDGE;
const BARS_CHART: u32 = LINE + BARS + LOWER_AXIS + EDGE;

/// How many labels the axes of positions and of counts have at most.
const POSITION_LABELS: usize = 13;
const COUNT_LABELS: usize = 6;

/// From which count on a cell has a colour, the colour, and what the legend says. The counts stay the same for all pictures,
/// so that these can be compared.
const SHADES: [(u64, RGBColor, &str); 4] = [
    (1, RGBColor(0xD0, 0x7A, 0x00), "failed once"),
    (2, RGBColor(0xB5, 0x30, 0x4A), "2 to 9 times"),
    (10, RGBColor(0x6A, 0x1B, 0x78), "10 to 99 times"),
    (100, FAILING, "100 times or more"),
];

/// How high all of this is: a heading alone where no parity failed, since empty charts could be taken for something.
pub fn height(positions: &Positions) -> u32 {
    match failures(positions) {
        0 => LINE + EDGE,
        _ => SLOTS_CHART + BARS_CHART,
    }
}

pub fn draw(area: &Area, positions: &Positions) -> Drawn {
    title(area, &heading(positions))?;
    if failures(positions) == 0 {
        return Ok(());
    }
    let (upper, lower) = area.split_vertically(SLOTS_CHART);
    let (head, body) = upper.split_vertically(2 * LINE);
    let shades = SHADES.map(|(_, colour, meaning)| (colour, meaning));
    legend(&head, shades.into_iter().chain([(ABSENT, "no such position")]))?;
    chart_slots(&body, positions)?;
    let (head, body) = lower.split_vertically(LINE);
    title(&head, &format!("How many slots failed first in each stretch of {STRETCH} positions"))?;
    chart_bars(&body, &positions.sums())
}

fn failures(positions: &Positions) -> u64 {
    positions.sums().iter().sum()
}

fn heading(positions: &Positions) -> String {
    let slots = match failures(positions) {
        0 => "none".to_string(),
        1 => format!("1 slot; each cell {STRETCH} positions"),
        failures => format!("{failures} slots; each cell {STRETCH} positions"),
    };
    format!("Lowest failing parity positions in all frames: {slots}")
}

/// Where a stretch begins on the axis of positions.
fn begin(stretch: usize) -> f64 {
    (stretch * STRETCH) as f64
}

/// The colour of a cell with some failures.
fn shade(count: u64) -> RGBColor {
    SHADES.iter().rev().find(|(least, _, _)| *least <= count).expect("a count above 0").1
}

fn chart_slots(area: &Area, positions: &Positions) -> Drawn {
    let stretches = positions.sums().len();
    // Slots count downward, so they stand as numbers below 0.
    let ((top, _), (_, bottom)) = (sides(1, 1), sides(SLOTS, SLOTS));
    let mut chart = with_axes(area).build_cartesian_2d(0.0..begin(stretches), -bottom..-top)?;
    let mut mesh = chart.configure_mesh();
    mesh.disable_mesh().x_desc("parity position").y_desc("slot").label_style(FONT);
    mesh.x_labels(POSITION_LABELS).y_labels(SLOT_LABELS);
    mesh.x_label_formatter(&|position| whole(*position)).y_label_formatter(&|slot| whole(-slot)).draw()?;
    for (counts, slot) in positions.slots().iter().zip(1..) {
        let (top, bottom) = sides(slot, slot);
        let cell = |first, last, colour: RGBColor| {
            Rectangle::new([(begin(first), -top), (begin(last), -bottom)], colour.filled())
        };
        let failing = counts.iter().enumerate().filter(|(_, count)| **count > 0);
        chart.draw_series(failing.map(|(stretch, count)| cell(stretch, stretch + 1, shade(*count))))?;
        let absent = Some(counts.len()).filter(|first| *first < stretches);
        chart.draw_series(absent.map(|first| cell(first, stretches, ABSENT)))?;
    }
    Ok(())
}

fn chart_bars(area: &Area, sums: &[u64]) -> Drawn {
    let most = sums.iter().max().copied().unwrap_or(0);
    let power = power(most);
    let units = |sum: u64| sum as f64 / 10f64.powi(power);
    let mut chart = with_axes(area).build_cartesian_2d(0.0..begin(sums.len()), 0.0..units(most))?;
    let mut mesh = chart.configure_mesh();
    mesh.disable_mesh().x_desc("parity position").y_desc(axis_name("slots", power)).label_style(FONT);
    mesh.x_labels(POSITION_LABELS).y_labels(COUNT_LABELS.min(most as usize + 1));
    mesh.x_label_formatter(&|position| whole(*position)).y_label_formatter(&|count| whole(*count)).draw()?;
    // So that a failure is seen beside any number of others.
    let lowest = units(most) * LOWEST_BAR / f64::from(BARS);
    let failing = sums.iter().enumerate().filter(|(_, sum)| **sum > 0);
    chart.draw_series(failing.map(|(stretch, sum)| {
        Rectangle::new([(begin(stretch), 0.0), (begin(stretch + 1), units(*sum).max(lowest))], FAILING.filled())
    }))?;
    Ok(())
}

/// The power of ten that is the unit at the axis of counts: its numbers have six digits at most, so that its name has room.
fn power(most: u64) -> i32 {
    (0..).step_by(3).find(|power| most as f64 / 10f64.powi(*power) < 1e6).expect("a power of ten for every count")
}

#[cfg(test)]
mod tests {
    use super::*;
    use crate::frames::places;
    use crate::picture::{svg, WIDTH};
    use s3frame::Plan;

    /// Positions of a plan of 120 data slots with the longest parity.
    fn positions() -> Positions {
        Positions::new(&places(&Plan::of_text(b"5 1 120\n").expect("a plan of one group")))
    }

    #[test]
    fn a_cell_is_darker_where_it_failed_oftener() {
        let shades = [1, 2, 9, 10, 99, 100, u64::MAX].map(shade);
        assert_eq!(shades, [0, 1, 1, 2, 2, 3, 3].map(|number| SHADES[number].1));
    }

    #[test]
    fn the_heading_counts_slots() {
        let mut positions = positions();
        let mut said = || {
            let said = heading(&positions);
            positions.add(1, 0);
            said
        };
        assert_eq!(said(), "Lowest failing parity positions in all frames: none");
        assert_eq!(said(), "Lowest failing parity positions in all frames: 1 slot; each cell 187 positions");
        assert_eq!(said(), "Lowest failing parity positions in all frames: 2 slots; each cell 187 positions");
    }

    #[test]
    fn the_unit_of_counts() {
        assert_eq!([1, 999_999, 1_000_000, 999_999_999, 1_000_000_000, u64::MAX].map(power), [0, 0, 3, 3, 6, 15]);
    }

    #[test]
    fn the_picture_has_a_most() {
        let mut positions = positions();
        // Those of the ground, the legend, the cells and the bars.
        for rectangles in [1, 1 + 5 + 158 * 121, 1 + 5 + 158 * 121] {
            let text = svg((WIDTH, height(&positions)), |area| draw(area, &positions));
            assert_eq!(text.matches("<rect").count(), rectangles);
            for (slot, stretch) in (1..=SLOTS).flat_map(|slot| (0..158).map(move |stretch| (slot, stretch))) {
                positions.add(slot, (STRETCH * stretch) as u16);
            }
        }
    }
}
