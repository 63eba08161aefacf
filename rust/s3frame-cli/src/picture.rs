//! Pictures as SVG: a plan's slots, and what all pictures share.
//!
//! The colours differ in lightness and stay apart for colour-blind readers; dummies of a plan are hollow besides.
use crate::plan::Run;
use plotters::coord::Shift;
use plotters::prelude::*;
use s3frame::SLOTS;

pub type Area<'a> = DrawingArea<SVGBackend<'a>, Shift>;
pub type Drawn = Result<(), DrawingAreaErrorKind<std::io::Error>>;

pub const FONT: (&str, u32) = ("sans-serif", 15);
const TITLE: (&str, u32) = ("sans-serif", 20);

// All lengths are pixels: a slot's width, the room of the axes and of the edges.
const SLOT_WIDTH: u32 = 8;
pub const LEFT_AXIS: u32 = 90;
pub const LOWER_AXIS: u32 = 50;
pub const EDGE: u32 = 20;
pub const WIDTH: u32 = LEFT_AXIS + SLOTS as u32 * SLOT_WIDTH + EDGE;
/// The height of the title, and of a legend in one line below it.
pub const LINE: u32 = 34;
/// The side of a coloured square in a legend, and how far apart such squares stand: side by side, and groups in lines.
const KEY: i32 = 14;
const KEYS: i32 = 190;
const GROUP_KEYS: i32 = 24;
/// The height of a plan's strip.
const STRIP: u32 = 80;

/// How many labels the axis of slots has at most: they are tens.
pub const SLOT_LABELS: usize = 13;

/// What is not there, and parity that fails.
pub const ABSENT: RGBColor = RGBColor(0xE6, 0xE6, 0xE6);
pub const FAILING: RGBColor = RGBColor(0x2B, 0x0A, 0x3D);

/// The colours of a plan's groups, in their order.
const GROUPS: [RGBColor; 8] = [
    RGBColor(0x0A, 0x4F, 0xA0),
    RGBColor(0xE6, 0x9F, 0x00),
    RGBColor(0x00, 0xB4, 0x87),
    RGBColor(0xC0, 0x60, 0xA8),
    RGBColor(0x93, 0xC4, 0xEC),
    RGBColor(0x8A, 0x34, 0x00),
    RGBColor(0x6A, 0x6A, 0x6A),
    RGBColor(0x11, 0x11, 0x11),
];

/// The text of a picture. Drawing into memory does not fail.
pub fn svg(size: (u32, u32), draw: impl FnOnce(&Area) -> Drawn) -> String {
    let mut text = String::new();
    let area = SVGBackend::with_string(&mut text, size).into_drawing_area();
    area.fill(&WHITE).and_then(|()| draw(&area)).and_then(|()| area.present()).expect("drawing into memory");
    drop(area);
    text
}

/// A square of a legend, and what it means.
pub fn key(area: &Area, (x, y): (i32, i32), style: ShapeStyle, text: &str) -> Drawn {
    area.draw(&Rectangle::new([(x, y), (x + KEY, y + KEY)], style))?;
    area.draw(&Text::new(text.to_string(), (x + KEY + 6, y), FONT))
}

/// A legend in one line below a title, side by side.
pub fn legend<'a>(area: &Area, keys: impl IntoIterator<Item = (RGBColor, &'a str)>) -> Drawn {
    let place = |number: i32| (LEFT_AXIS as i32 + KEYS * number, LINE as i32 + 6);
    (0..).zip(keys).try_for_each(|(number, (colour, text))| key(area, place(number), colour.filled(), text))
}

pub fn title(area: &Area, text: &str) -> Drawn {
    area.draw(&Text::new(text.to_string(), (LEFT_AXIS as i32, 10), TITLE))
}

/// A chart with room for the numbers and names of both axes.
pub fn with_axes<'a, 'b>(area: &'a Area<'b>) -> ChartBuilder<'a, 'static, SVGBackend<'b>> {
    let mut chart = ChartBuilder::on(area);
    chart.x_label_area_size(LOWER_AXIS).y_label_area_size(LEFT_AXIS - EDGE);
    chart.margin_left(EDGE).margin_right(EDGE).margin_bottom(EDGE);
    chart
}

/// The name of an axis, with the unit of its numbers, a power of ten.
pub fn axis_name(name: &str, power: i32) -> String {
    match power {
        0 => name.to_string(),
        power => format!("{name}, in units of 1e{power}"),
    }
}

/// A whole number as a label, and no label for others.
pub fn whole(number: f64) -> String {
    if number.fract() == 0.0 {
        format!("{number}")
    } else {
        String::new()
    }
}

/// Where slots stand on their axis.
pub fn sides(first: usize, last: usize) -> (f64, f64) {
    (first as f64 - 0.5, last as f64 + 0.5)
}

/// The slots of a plan, data and dummies of each group in its colour.
pub fn of_plan(runs: &[Run]) -> String {
    let down = |group: usize| GROUP_KEYS * group as i32 + 8;
    let last = runs.iter().map(|run| run.place.group).max().unwrap_or(0);
    svg((WIDTH, LINE + STRIP + LOWER_AXIS + down(last + 1) as u32 + EDGE), |area| {
        let (head, rest) = area.split_vertically(LINE);
        let (body, legend) = rest.split_vertically(STRIP + LOWER_AXIS);
        title(&head, "Slots of a frame, by the groups of the plan")?;
        chart_plan(&body, runs)?;
        runs.iter().try_for_each(|run| {
            let across = if run.place.data { 0 } else { WIDTH as i32 / 2 };
            key(&legend, (LEFT_AXIS as i32 + across, down(run.place.group)), style(run), &meaning(run))
        })
    })
}

fn chart_plan(area: &Area, runs: &[Run]) -> Drawn {
    let mut chart = ChartBuilder::on(area)
        .x_label_area_size(LOWER_AXIS)
        .margin_left(LEFT_AXIS)
        .margin_right(EDGE)
        .build_cartesian_2d(0.5..SLOTS as f64 + 0.5, 0.0..1.0)?;
    let mut mesh = chart.configure_mesh();
    mesh.disable_mesh().x_desc("slot").label_style(FONT).x_labels(SLOT_LABELS);
    mesh.x_label_formatter(&|slot| whole(*slot)).draw()?;
    for run in runs {
        chart.draw_series((run.first..=run.last).map(|slot| {
            let (left, right) = sides(slot, slot);
            let mut cell = Rectangle::new([(left, 0.0), (right, 0.7)], style(run));
            cell.set_margin(0, 1, 1, 1);
            cell
        }))?;
        if run.place.data {
            let number = (run.place.group + 1).to_string();
            chart.draw_series([Text::new(number, (sides(run.first, run.last).0, 0.95), FONT)])?;
        }
    }
    Ok(())
}

/// Data is filled, dummies are hollow.
fn style(run: &Run) -> ShapeStyle {
    let colour = GROUPS[run.place.group];
    if run.place.data {
        colour.filled()
    } else {
        colour.stroke_width(1)
    }
}

fn meaning(run: &Run) -> String {
    let Run { first, last, place } = run;
    let group = place.group + 1;
    let slots = if first == last { format!("slot {first}") } else { format!("slots {first} to {last}") };
    if place.data {
        let (modulation, rate, packets) = (place.modulation, place.rate, place.rate.packets());
        format!("{group}: {modulation} {rate}, data {slots}, {packets} packets each")
    } else {
        format!("{group}: dummy {slots}")
    }
}
