//! The picture of points that were sent: dots in the plane of I and Q, each with its labels and how many symbols had it.
use crate::coordinates::binary;
use crate::picture::{
    axis_name, key, svg, title, with_axes, Area, Drawn, EDGE, FONT, LEFT_AXIS, LINE, LOWER_AXIS, WIDTH,
};
use crate::runs::runs;
use crate::sent::Dot;
use plotters::prelude::*;
use plotters::style::text_anchor::{HPos, Pos, VPos};
use s3frame::Modulation;

// All lengths are pixels: the sides of the plane, wide enough for the texts beside dots, and the height of a text's line.
const PLANE: (u32, u32) = (WIDTH - LEFT_AXIS - EDGE, 760);
const TEXT_LINE: i32 = 15;
/// From a dot to the line in the middle of its text, which stands higher, so that an axis through the dot goes between lines.
const TEXT_GAP: (i32, i32) = (12, 8);
/// Dots that are nearer to each other have their texts one below the other.
const NEAR: f64 = 12.0;
/// Where the legend's entries stand.
const LEGEND: [i32; 3] = [0, 130, 390];

/// How far the plane goes upward, for a largest coordinate of 1.
const REACH: f64 = 1.15;
/// Coordinates between these stand at the axes as they are, others with a power of ten.
const PLAIN: (f64, f64) = (1e-3, 1e4);
/// How many numbers the axes have at most, to the right and upward.
const NUMBERS: (usize, usize) = (15, 12);

const AXIS: RGBColor = RGBColor(0xB0, 0xB0, 0xB0);

/// How dots look. Odd and even symbols of π/2-shift BPSK can have one point, so that those of even ones, which are turned, are
/// larger and hollow besides.
struct Mark {
    colour: RGBColor,
    radius: i32,
    hollow: bool,
}

const PLAIN_MARK: &Mark = &Mark { colour: RGBColor(0x0A, 0x4F, 0xA0), radius: 4, hollow: false };
const TURNED_MARK: &Mark = &Mark { colour: RGBColor(0xB8, 0x50, 0x00), radius: 8, hollow: true };

impl Mark {
    fn of(dot: &Dot) -> &'static Mark {
        if dot.turned {
            TURNED_MARK
        } else {
            PLAIN_MARK
        }
    }

    fn style(&self) -> ShapeStyle {
        if self.hollow {
            self.colour.stroke_width(2)
        } else {
            self.colour.filled()
        }
    }
}

/// How coordinates stand in the plane: the power of ten that is the unit at its axes, and how far it goes upward in that unit.
struct Scale {
    power: i32,
    reach: f64,
}

impl Scale {
    /// The scale for these dots. Where all are at the origin it is as for a coordinate of 1.
    fn of(dots: &[Dot]) -> Scale {
        let sizes =
            dots.iter().flat_map(|dot| [dot.point.i, dot.point.q]).map(|coordinate| f64::from(coordinate.abs()));
        let largest = Some(sizes.fold(0.0, f64::max)).filter(|size| *size > 0.0).unwrap_or(1.0);
        let plain = (PLAIN.0..PLAIN.1).contains(&largest);
        let power = if plain { 0 } else { largest.log10().floor() as i32 };
        Scale { power, reach: REACH * largest / 10f64.powi(power) }
    }

    /// How far the plane goes to the right, so that both axes have one scale.
    fn reach_across(&self) -> f64 {
        self.reach * f64::from(PLANE.0) / f64::from(PLANE.1)
    }

    fn place(&self, dot: &Dot) -> (f64, f64) {
        let unit = 10f64.powi(self.power);
        (f64::from(dot.point.i) / unit, f64::from(dot.point.q) / unit)
    }

    /// Whether two places are so near to each other that their texts would be one over the other.
    fn near(&self, one: (f64, f64), other: (f64, f64)) -> bool {
        let apart = (one.0 - other.0).abs().max((one.1 - other.1).abs());
        apart * f64::from(PLANE.1) < NEAR * 2.0 * self.reach
    }

    /// The name of an axis, with the unit of its numbers.
    fn name(&self, coordinate: &str) -> String {
        axis_name(coordinate, self.power)
    }
}

/// A number at an axis, without what calculating left behind its sixth place.
fn number(of: &f64) -> String {
    // 0 is added to make a zero of one below 0.
    format!("{}", (of * 1e6).round() / 1e6 + 0.0)
}

/// The points that were sent, odd and even symbols of π/2-shift BPSK apart.
pub fn of_points(heading: &str, modulation: Modulation, dots: &[Dot]) -> String {
    svg((WIDTH, 2 * LINE + PLANE.1 + LOWER_AXIS + EDGE), |area| {
        let (head, body) = area.split_vertically(2 * LINE);
        title(&head, heading)?;
        let [odd, even, last] = LEGEND.map(|across| (LEFT_AXIS as i32 + across, LINE as i32 + 6));
        let meaning = "beside each point its labels and, behind ×, how many symbols had it";
        if modulation == Modulation::Bpsk {
            key(&head, odd, PLAIN_MARK.style(), "odd symbols")?;
            key(&head, even, TURNED_MARK.style(), "even symbols, turned by 90 degrees")?;
            head.draw(&Text::new(meaning, last, FONT))?;
        } else {
            head.draw(&Text::new(meaning, odd, FONT))?;
        }
        chart(&body, modulation, dots)
    })
}

fn chart(area: &Area, modulation: Modulation, dots: &[Dot]) -> Drawn {
    let scale = Scale::of(dots);
    let (across, up) = (scale.reach_across(), scale.reach);
    let mut chart = with_axes(area).build_cartesian_2d(-across..across, -up..up)?;
    let mut mesh = chart.configure_mesh();
    mesh.disable_mesh().x_desc(scale.name("I")).y_desc(scale.name("Q")).label_style(FONT);
    mesh.x_labels(NUMBERS.0).y_labels(NUMBERS.1).x_label_formatter(&number).y_label_formatter(&number).draw()?;
    let axes = [[(-across, 0.0), (across, 0.0)], [(0.0, -up), (0.0, up)]];
    chart.draw_series(axes.map(|ends| PathElement::new(ends, AXIS)))?;
    chart.draw_series(dots.iter().map(|dot| {
        let mark = Mark::of(dot);
        Circle::new(scale.place(dot), mark.radius, mark.style())
    }))?;
    let captions = groups(&scale, dots).into_iter().flat_map(|group| captions(modulation, &scale, &group));
    chart.draw_series(captions.map(|of| EmptyElement::at(of.place) + Text::new(of.text, of.offset, of.style)))?;
    Ok(())
}

/// Dots by place: those that are near to the first of a group belong to it.
fn groups<'a>(scale: &Scale, dots: &'a [Dot]) -> Vec<Vec<&'a Dot>> {
    let mut groups: Vec<Vec<&Dot>> = Vec::new();
    for dot in dots {
        match groups.iter_mut().find(|group| scale.near(scale.place(group[0]), scale.place(dot))) {
            Some(group) => group.push(dot),
            None => groups.push(vec![dot]),
        }
    }
    groups
}

/// A line of text beside dots: the place of the first, how many pixels from there, the text, and how it looks.
struct Caption {
    place: (f64, f64),
    offset: (i32, i32),
    text: String,
    style: TextStyle<'static>,
}

/// The lines of a group of dots, one below the other, on the side that is away from the middle.
fn captions(modulation: Modulation, scale: &Scale, group: &[&Dot]) -> Vec<Caption> {
    let lines: Vec<(String, &RGBColor)> = group.iter().flat_map(|dot| lines(modulation, dot)).collect();
    let place = scale.place(group[0]);
    let (side, gap) = if place.0 < 0.0 { (HPos::Right, -TEXT_GAP.0) } else { (HPos::Left, TEXT_GAP.0) };
    let top = -TEXT_GAP.1 - TEXT_LINE * ((lines.len() as i32 - 1) / 2);
    let caption = |(line, (text, colour))| Caption {
        place,
        offset: (gap, top + TEXT_LINE * line),
        text,
        style: TextStyle::from(FONT).color(colour).pos(Pos::new(side, VPos::Center)),
    };
    (0..).zip(lines).map(caption).collect()
}

/// The text of a dot, in its colour: its label and how many symbols had it, or a line for each run of its labels before that.
fn lines(modulation: Modulation, dot: &Dot) -> Vec<(String, &'static RGBColor)> {
    let label = |label| binary(modulation, label);
    let run = |(first, last)| if first == last { label(first) } else { format!("{}-{}", label(first), label(last)) };
    let symbols = format!("×{}", dot.symbols);
    let lines = match dot.labels[..] {
        [only] => vec![format!("{} {symbols}", label(only))],
        _ => runs(&dot.labels).into_iter().map(run).chain([symbols]).collect(),
    };
    lines.into_iter().map(|line| (line, &Mark::of(dot).colour)).collect()
}

#[cfg(test)]
mod tests {
    use super::*;
    use s3frame::Point;

    fn dot(i: f32, q: f32, labels: &[usize]) -> Dot {
        Dot { point: Point { i, q }, turned: false, labels: labels.to_vec(), symbols: 7 }
    }

    #[test]
    fn the_unit_of_the_axes() {
        let found = |size: f32| {
            let scale = Scale::of(&[dot(0.0, -size, &[0]), dot(size / 2.0, 0.0, &[1])]);
            (scale.name("I"), (scale.reach as f32).to_bits())
        };
        let plain = |reach: f32| ("I".to_string(), reach.to_bits());
        assert_eq!([found(1.0), found(2e-3), found(9999.0)], [plain(1.15), plain(2.3e-3), plain(11498.85)]);
        assert_eq!(found(0.0), plain(1.15));
        assert_eq!(found(1e30), ("I, in units of 1e30".to_string(), 1.15f32.to_bits()));
        assert_eq!(found(2e-30), ("I, in units of 1e-30".to_string(), 2.3f32.to_bits()));
        assert_eq!(found(f32::MAX).0, "I, in units of 1e38");
        assert_eq!(found(1e-45).0, "I, in units of 1e-45");
    }

    #[test]
    fn numbers_of_the_axes() {
        assert_eq!([0.1 + 0.2, -1e-17, -2.5, 1000.0].map(|of| number(&of)), ["0.3", "0", "-2.5", "1000"]);
    }

    #[test]
    fn near_dots_have_one_text() {
        let dots = [dot(1.0, 1.0, &[0]), dot(-1.0, 1.0, &[1]), dot(0.99, 1.01, &[2]), dot(0.9, 1.0, &[3])];
        let groups = groups(&Scale::of(&dots), &dots);
        let labels: Vec<Vec<usize>> =
            groups.iter().map(|group| group.iter().flat_map(|dot| dot.labels.clone()).collect()).collect();
        assert_eq!(labels, [vec![0, 2], vec![1], vec![3]]);
    }

    #[test]
    fn labels_that_follow_each_other_are_a_run() {
        let text = |labels: &[usize]| {
            let lines = lines(Modulation::Psk8, &dot(0.0, 0.0, labels));
            lines.into_iter().map(|(line, _)| line).collect::<Vec<String>>()
        };
        assert_eq!(text(&[5]), ["101 ×7"]);
        assert_eq!(text(&[0, 1, 2, 5, 7]), ["000-010", "101", "111", "×7"]);
    }
}
