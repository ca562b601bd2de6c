//! The growth table as a picture in SVG: a curve for each text, on log scales, with its name at the right end.

use crate::texts::Text;

/// The field inside the axes, in pixels: its left and upper edge, and what is below it for the sizes.
const LEFT: f64 = 56.0;
const TOP: f64 = 84.0;
const WIDTH: f64 = 400.0;
const LEAST_HEIGHT: f64 = 300.0;
const BELOW: f64 = 56.0;
/// Where the title and what belongs to it begin.
const EDGE: f64 = 14.0;
/// From the end of a curve to its label.
const LEADER: f64 = 36.0;
/// From a label to the one below it.
const LINE: f64 = 17.0;
/// The width of a letter, on average and generously, so that the longest label fits.
const LETTER: f64 = 7.0;

const COLOURS: [&str; 8] = ["#1f5fa8", "#c03a1e", "#2b7a33", "#7d3c98", "#946200", "#0b7580", "#b8256f", "#4d4d4d"];
/// As dash arrays, for each further turn through the colours.
const DASHES: [&str; 3] = ["none", "7 3", "2 3"];

struct Curve<'a> {
    name: &'a str,
    times: &'a [f64],
}

impl Curve<'_> {
    fn end(&self) -> f64 {
        self.times[self.times.len() - 1]
    }
}

/// What the field shows: from the first to the last size, and from the first to the last tick.
struct Field<'a> {
    sizes: &'a [usize],
    ticks: Vec<f64>,
    height: f64,
}

/// How far a number is on the way between two others, by their logarithms.
fn part(number: f64, first: f64, last: f64) -> f64 {
    (number / first).ln() / (last / first).ln()
}

impl Field<'_> {
    fn x(&self, size: usize) -> f64 {
        let last = self.sizes[self.sizes.len() - 1];
        LEFT + WIDTH * part(size as f64, self.sizes[0] as f64, last as f64)
    }

    fn y(&self, time: f64) -> f64 {
        self.bottom() - self.height * part(time, self.ticks[0], self.ticks[self.ticks.len() - 1])
    }

    fn bottom(&self) -> f64 {
        TOP + self.height
    }
}

/// Round numbers, from the last that is at most all times to the first that is above them.
fn ticks(curves: &[Curve]) -> Vec<f64> {
    let times = || curves.iter().flat_map(|curve| curve.times.iter().copied());
    let (least, most) = (times().fold(f64::MAX, f64::min), times().fold(0.0, f64::max));
    let tens = (-3..7).map(|power| 10f64.powi(power));
    let round: Vec<f64> = tens.flat_map(|ten| [ten, 2.0 * ten, 5.0 * ten]).collect();
    let first = round.partition_point(|&tick| tick <= least).saturating_sub(1);
    let last = round.partition_point(|&tick| tick <= most).min(round.len() - 1);
    round[first..=last].to_vec()
}

/// Places for labels that don't overlap, near to the ascending ones that are wanted: labels that would overlap form a
/// block around the mean of what they want. A block is a sum and a count of places, less those of the lines above.
fn apart(wanted: &[f64], field: &Field) -> Vec<f64> {
    let mut blocks: Vec<(f64, usize)> = Vec::new();
    let mean = |block: &(f64, usize)| block.0 / block.1 as f64;
    for (rank, place) in wanted.iter().enumerate() {
        let mut block = (place - LINE * rank as f64, 1);
        while let Some(before) = blocks.pop_if(|before| mean(before) > mean(&block)) {
            block = (before.0 + block.0, before.1 + block.1);
        }
        blocks.push(block);
    }
    let lowest = field.bottom() - LINE * (wanted.len() - 1) as f64;
    let tops = blocks.iter().flat_map(|block| std::iter::repeat_n(mean(block).clamp(TOP, lowest), block.1));
    tops.enumerate().map(|(rank, top)| top + LINE * rank as f64).collect()
}

fn label(x: f64, y: f64, attributes: &str, words: &str) -> String {
    format!("<text x=\"{x:.1}\" y=\"{y:.1}\" {attributes}>{words}</text>\n")
}

fn grid([x1, y1]: [f64; 2], [x2, y2]: [f64; 2]) -> String {
    format!("<line x1=\"{x1:.1}\" y1=\"{y1:.1}\" x2=\"{x2:.1}\" y2=\"{y2:.1}\" stroke=\"#d0d0d0\"/>\n")
}

fn axes(field: &Field) -> String {
    let (right, bottom) = (LEFT + WIDTH, field.bottom());
    let times = field.ticks.iter().map(|&tick| {
        let y = field.y(tick);
        grid([LEFT, y], [right, y]) + &label(LEFT - 8.0, y + 4.0, "text-anchor=\"end\"", &tick.to_string())
    });
    let sizes = field.sizes.iter().map(|&size| {
        let (x, words) = (field.x(size), format!("{} KiB", size >> 10));
        grid([x, TOP], [x, bottom]) + &label(x, bottom + 20.0, "text-anchor=\"middle\"", &words)
    });
    let size = label(LEFT + WIDTH / 2.0, bottom + 40.0, "text-anchor=\"middle\"", "size of the text");
    let time = label(EDGE, TOP - 14.0, "", "nanoseconds for a byte");
    times.chain(sizes).chain([size, time]).collect()
}

/// The curve of that rank from above, and its label at a height.
fn curve(field: &Field, curve: &Curve, rank: usize, height: f64) -> String {
    let colour = COLOURS[rank % COLOURS.len()];
    let dashes = DASHES[rank / COLOURS.len() % DASHES.len()];
    let points: Vec<[f64; 2]> = field.sizes.iter().zip(curve.times).map(|(&x, &y)| [field.x(x), field.y(y)]).collect();
    let dots =
        points.iter().map(|[x, y]| format!("<circle cx=\"{x:.1}\" cy=\"{y:.1}\" r=\"2.5\" fill=\"{colour}\"/>\n"));
    let path: Vec<String> = points.iter().map(|[x, y]| format!("{x:.1},{y:.1}")).collect();
    let line = |points: &str, style: &str| {
        format!("<polyline points=\"{points}\" fill=\"none\" stroke=\"{colour}\" {style}/>\n")
    };
    let (end, label_x) = (LEFT + WIDTH, LEFT + WIDTH + LEADER);
    let leader = format!("{:.1},{:.1} {:.1},{height:.1}", end + 4.0, field.y(curve.end()), label_x - 4.0);
    let lines = [
        line(&path.join(" "), &format!("stroke-width=\"1.8\" stroke-dasharray=\"{dashes}\"")),
        line(&leader, "stroke-width=\"0.8\""),
        label(label_x, height + 4.0, &format!("fill=\"{colour}\""), curve.name),
    ];
    lines.into_iter().chain(dots).collect()
}

/// A row of `growth` has a text's nanoseconds for a byte at each size.
pub fn growth(title: &str, sizes: &[usize], texts: &[Text], growth: &[Vec<f64>]) -> String {
    let named = texts.iter().zip(growth);
    let mut curves: Vec<Curve> = named.map(|(text, times)| Curve { name: text.name, times }).collect();
    curves.sort_by(|one, two| two.end().total_cmp(&one.end()));
    let field = Field { sizes, ticks: ticks(&curves), height: LEAST_HEIGHT.max(LINE * curves.len() as f64) };
    let wanted: Vec<f64> = curves.iter().map(|curve| field.y(curve.end())).collect();
    let heights = apart(&wanted, &field);
    let drawn = curves.iter().zip(heights).enumerate().map(|(rank, (one, height))| curve(&field, one, rank, height));
    let letters = curves.iter().map(|curve| curve.name.len()).max().unwrap_or(0);
    let width = LEFT + WIDTH + LEADER + LETTER * letters as f64;
    let body = axes(&field) + &drawn.collect::<String>();
    page(title, [width, field.bottom() + BELOW], &body)
}

/// White, so that it can be read on any background.
fn page(title: &str, [width, height]: [f64; 2], body: &str) -> String {
    let size = format!("width=\"{width:.0}\" height=\"{height:.0}\"");
    let heading = label(EDGE, 28.0, "font-size=\"16\" font-weight=\"bold\"", title);
    let hint = label(EDGE, 48.0, "", "A level line is time in proportion to the size. Both scales are logarithmic.");
    format!(
        "<svg xmlns=\"http://www.w3.org/2000/svg\" {size} viewBox=\"0 0 {width:.0} {height:.0}\" \
         font-family=\"sans-serif\" font-size=\"12\" fill=\"#202020\">\n<title>{title}</title>\n\
         <rect {size} fill=\"#ffffff\"/>\n{heading}{hint}{body}</svg>\n"
    )
}
