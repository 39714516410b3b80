//! A picture of times against lengths as SVG, on logarithmic scales with equal decades, so that a line of slope 1 is a
//! diagonal of the grid.

use std::fmt::Write;

/// One colour: a name, and the times of both systems in nanoseconds, each with its length.
pub struct Series {
    pub name: &'static str,
    pub engine: Vec<(f64, f64)>,
    pub rewriter: Vec<(f64, f64)>,
}

/// Pixels of a decade, either way.
const DECADE: f64 = 100.0;
const LEFT: f64 = 76.0;
const TOP: f64 = 68.0;
/// Room for the names at the lines' ends, and for the axis below.
const RIGHT: f64 = 196.0;
const BOTTOM: f64 = 58.0;
/// Names at the lines' ends stand at least so far from one another.
const LINE: f64 = 18.0;
/// Colours that people with any eyesight tell apart, on white and on black.
const LIGHT: [&str; 5] = ["#0063a8", "#b35900", "#00785a", "#a8327d", "#5b5b5b"];
const DARK: [&str; 5] = ["#5cb3f2", "#f0a04b", "#3fc79a", "#ef86c3", "#b4b4b4"];

/// Where lengths and times lie in the picture: the longest text, and the times at the lower and the upper edge.
struct Scale {
    longest: f64,
    least: f64,
    most: f64,
}

/// The nearest of 1, 2 and 5 times a power of ten that is at most this.
fn round_down(number: f64) -> f64 {
    let power = 10f64.powf(number.log10().floor());
    [5.0, 2.0, 1.0].into_iter().map(|digit| digit * power).find(|&round| round <= number).unwrap_or(power)
}

impl Scale {
    fn of(all: &[Series]) -> Scale {
        let points = || all.iter().flat_map(|series| series.engine.iter().chain(&series.rewriter));
        let longest = points().map(|point| point.0).fold(1.0, f64::max);
        let least = points().map(|point| point.1).fold(f64::INFINITY, f64::min);
        let most = points().map(|point| point.1).fold(0.0, f64::max);
        Scale { longest, least: round_down(least), most: 1.0 / round_down(1.0 / most) }
    }

    /// The powers of ten between the edges.
    fn decades(&self) -> std::ops::RangeInclusive<i32> {
        // a power that is an edge is one, though its logarithm may miss it by a hair
        let near = 1e-9;
        (self.least.log10() - near).ceil() as i32..=(self.most.log10() + near).floor() as i32
    }

    fn x(&self, length: f64) -> f64 {
        LEFT + DECADE * length.log10()
    }

    fn y(&self, time: f64) -> f64 {
        TOP + DECADE * (self.most.log10() - time.log10())
    }

    fn right(&self) -> f64 {
        self.x(self.longest)
    }

    fn bottom(&self) -> f64 {
        self.y(self.least)
    }
}

/// The whole picture.
pub fn picture(all: &[Series]) -> String {
    let scale = Scale::of(all);
    let (width, height) = (scale.right() + RIGHT, scale.bottom() + BOTTOM);
    let mut svg = format!(
        "<svg xmlns=\"http://www.w3.org/2000/svg\" viewBox=\"0 0 {width:.0} {height:.0}\" width=\"{width:.0}\" \
         height=\"{height:.0}\" role=\"img\">\n<title>Time of a run against the length of its text</title>\n{}\
         <rect class=\"page\" width=\"100%\" height=\"100%\"/>\n",
        style()
    );
    svg.push_str(&grid(&scale));
    svg.push_str(&slope());
    svg.push_str(&legend());
    for (index, series) in all.iter().enumerate() {
        svg.push_str(&line(&scale, &series.rewriter, &format!("c{index} rewriter")));
        svg.push_str(&line(&scale, &series.engine, &format!("c{index}")));
    }
    svg.push_str(&names(&scale, all));
    svg.push_str("</svg>\n");
    svg
}

/// Colours for a light page, and for a dark one where the reader prefers that.
fn style() -> String {
    let colours = |colours: [&str; 5]| -> String {
        let rule =
            |(index, colour): (usize, &&str)| format!(".c{index}{{stroke:{colour}}}text.c{index}{{fill:{colour}}}\n");
        colours.iter().enumerate().map(rule).collect()
    };
    format!(
        "<style>
text{{font:14px system-ui,sans-serif;fill:#24292f;stroke:none!important}}
.title{{font-size:16px;font-weight:600}}
.quiet{{fill:#57606a}}
.page{{fill:#ffffff}}
.grid{{stroke:#d0d7de}}
.axis{{stroke:#57606a;fill:none}}
.slope{{stroke:#6e7781;stroke-dasharray:3 3}}
.key{{stroke:#24292f}}
.lead{{fill:none}}
polyline{{fill:none;stroke-width:2.2;stroke-linejoin:round}}
.rewriter{{stroke-width:1.6;stroke-dasharray:6 4}}
{}@media (prefers-color-scheme:dark){{
text{{fill:#e6edf3}}
.quiet{{fill:#9198a1}}
.page{{fill:#0d1117}}
.grid{{stroke:#30363d}}
.axis{{stroke:#9198a1}}
.slope{{stroke:#8b949e}}
.key{{stroke:#e6edf3}}
{}}}
</style>
",
        colours(LIGHT),
        colours(DARK)
    )
}

/// Lines and numbers at the decades, and what the axes are.
fn grid(scale: &Scale) -> String {
    let (right, bottom) = (scale.right(), scale.bottom());
    let mut svg = String::new();
    for power in 0..=scale.longest.log10().floor() as i32 {
        let x = scale.x(10f64.powi(power));
        draw(&mut svg, format_args!("<path class=\"grid\" d=\"M{x:.1} {TOP}V{bottom:.1}\"/>"));
        let number = thousands(10u64.pow(power as u32));
        text(&mut svg, (x, bottom + 20.0), "middle", "quiet", &number);
    }
    for power in scale.decades() {
        let y = scale.y(10f64.powi(power));
        draw(&mut svg, format_args!("<path class=\"grid\" d=\"M{LEFT} {y:.1}H{right:.1}\"/>"));
        text(&mut svg, (LEFT - 8.0, y + 5.0), "end", "quiet", &duration(power));
    }
    text(&mut svg, (right - 12.0, bottom + 20.0), "start", "quiet", &thousands(scale.longest as u64));
    draw(&mut svg, format_args!("<path class=\"axis\" d=\"M{LEFT} {TOP}V{bottom:.1}H{right:.1}\"/>"));
    text(&mut svg, ((LEFT + right) / 2.0, bottom + 44.0), "middle", "", "length of the text in bytes");
    text(&mut svg, (12.0, 24.0), "start", "title", "Processor time of a run");
    svg
}

/// A dotted diagonal in the corner that no line reaches, for a reader to see the slopes by.
fn slope() -> String {
    let [left, right] = [0.4, 3.1].map(|decades| LEFT + DECADE * decades);
    let (bottom, top) = (TOP + DECADE * 0.4 + right - left, TOP + DECADE * 0.4);
    let (x, y) = ((left + right) / 2.0 - 5.0, (bottom + top) / 2.0 - 5.0);
    let mut svg = String::new();
    draw(&mut svg, format_args!("<path class=\"slope\" d=\"M{left:.1} {bottom:.1}L{right:.1} {top:.1}\"/>"));
    draw(
        &mut svg,
        format_args!(
            "<text class=\"quiet\" x=\"{x:.1}\" y=\"{y:.1}\" text-anchor=\"middle\" \
             transform=\"rotate(-45 {x:.1} {y:.1})\">slope 1: twice the text, twice the time</text>"
        ),
    );
    svg
}

/// Which line is which system's.
fn legend() -> String {
    let mut svg = String::new();
    for (x, class, name) in [(LEFT, "key", "engine"), (LEFT + 108.0, "key rewriter", "rewriter in Rust")] {
        draw(&mut svg, format_args!("<polyline class=\"{class}\" points=\"{x},43 {},43\"/>", x + 34.0));
        text(&mut svg, (x + 42.0, 48.0), "start", "", name);
    }
    svg
}

fn line(scale: &Scale, points: &[(f64, f64)], class: &str) -> String {
    let places: Vec<String> =
        points.iter().map(|&(length, time)| format!("{:.1},{:.1}", scale.x(length), scale.y(time))).collect();
    format!("<polyline class=\"{class}\" points=\"{}\"/>\n", places.join(" "))
}

/// The names at the ends of the engine's lines, moved apart where they would touch.
fn names(scale: &Scale, all: &[Series]) -> String {
    let end = |series: &Series| series.engine.last().map_or(scale.bottom(), |&(_, time)| scale.y(time));
    let mut order: Vec<(f64, usize)> = all.iter().map(end).zip(0..).collect();
    order.sort_by(|one, other| one.0.total_cmp(&other.0));
    let mut svg = String::new();
    let mut free = TOP;
    for (place, (end, index)) in order.iter().copied().enumerate() {
        // a name moves up a little if others crowd below it
        let crowd = order[place..].iter().take_while(|other| other.0 - end < LINE * 2.0).count() as f64;
        let y = (end - (crowd - 1.0) * LINE / 2.0).max(free);
        free = y + LINE;
        let right = scale.right();
        let points = format!("M{:.1} {end:.1}L{:.1} {y:.1}H{:.1}", right + 2.0, right + 16.0, right + 20.0);
        draw(&mut svg, format_args!("<path class=\"lead c{index}\" d=\"{points}\"/>"));
        text(&mut svg, (right + 26.0, y + 5.0), "start", &format!("c{index}"), all[index].name);
    }
    svg
}

fn draw(svg: &mut String, element: std::fmt::Arguments) {
    writeln!(svg, "{element}").expect("a string takes all");
}

fn text(svg: &mut String, (x, y): (f64, f64), anchor: &str, class: &str, said: &str) {
    draw(svg, format_args!("<text class=\"{class}\" x=\"{x:.1}\" y=\"{y:.1}\" text-anchor=\"{anchor}\">{said}</text>"));
}

/// A power of ten in nanoseconds.
fn duration(power: i32) -> String {
    let unit = ["ns", "µs", "ms", "s"][(power / 3).clamp(0, 3) as usize];
    format!("{} {unit}", 10u32.pow((power - 3 * (power / 3).min(3)) as u32))
}

/// A number below a million with its thousands separated off.
pub fn thousands(number: u64) -> String {
    if number < 1_000 { number.to_string() } else { format!("{},{:03}", number / 1_000, number % 1_000) }
}

#[cfg(test)]
mod tests {
    use super::{Scale, Series, duration, picture, thousands};

    fn series() -> [Series; 1] {
        let line = vec![(1.0, 100.0), (10.0, 1_000.0)];
        [Series { name: "a name", engine: line.clone(), rewriter: line }]
    }

    #[test]
    fn a_line_of_slope_1_is_a_diagonal() {
        let scale = Scale::of(&series());
        assert_eq!(scale.decades(), 2..=3);
        assert_eq!(scale.x(10.0) - scale.x(1.0), scale.y(100.0) - scale.y(1_000.0));
    }

    #[test]
    fn numbers_are_written_as_people_read_them() {
        assert_eq!([duration(1), duration(3), duration(8)], ["10 ns", "1 µs", "100 ms"]);
        assert_eq!([thousands(1), thousands(10_000)], ["1", "10,000"]);
    }

    #[test]
    fn a_picture_has_both_lines_and_the_name() {
        let svg = picture(&series());
        assert_eq!(svg.matches("<polyline class=\"c0").count(), 2);
        assert!(svg.contains(">a name</text>") && svg.ends_with("</svg>\n"));
    }
}
