//! The picture of a deck (SPEC 9.9), in SVG.

use crate::file::read;
use crate::pins::{CONTROLLER, DISPLAY, SENSOR};
use crate::plane::{Edge, Point};
use crate::session::State;
use crate::tree::{length, listing_order};

/// The marks that the picture is made of.
const MARKS: &str = "\
<defs>
<circle id='sensor' r='2' fill='white' stroke='black'/>
<rect id='display' x='-3' y='-3' width='6' height='6' fill='blue'/>
<path id='controller' d='M-4 0L0 -4L4 0L0 4Z' fill='red'/>
<circle id='tap' r='2'/>
</defs>
";

/// What the marks mean, for below the picture.
const LEGEND: &str = "\
<use href='#sensor' x='30' y='60'/><text x='40' y='65'>sensor</text>
<use href='#display' x='130' y='60'/><text x='140' y='65'>display</text>
<use href='#controller' x='230' y='60'/><text x='240' y='65'>controller</text>
<use href='#tap' x='350' y='60'/><text x='360' y='65'>tap</text>
";

/// The box around all points, with the unit of the marks.
struct Frame {
    left: i64,
    top: i64,
    width: i64,
    height: i64,
    unit: i64,
}

impl Frame {
    fn around(points: &[Point]) -> Frame {
        let least = |z: fn(&Point) -> i64| points.iter().map(z).min().unwrap_or(0);
        let most = |z: fn(&Point) -> i64| points.iter().map(z).max().unwrap_or(0);
        let (left, top) = (least(|p| p.x), most(|p| p.y));
        let (width, height) = (most(|p| p.x) - left, top - least(|p| p.y));
        let unit = width.max(height).max(1);
        Frame {
            left,
            top,
            width,
            height,
            unit,
        }
    }

    fn across(&self, point: Point) -> i64 {
        220 * self.unit - 200 * self.width + 400 * (point.x - self.left)
    }

    fn down(&self, point: Point) -> i64 {
        20 * self.unit + 400 * (self.top - point.y)
    }

    /// The line of a run.
    fn run(&self, run: Edge, tail: u64) -> String {
        let (a, b) = (self.across(run.lower), self.down(run.lower));
        let (c, e) = (self.across(run.higher), self.down(run.higher));
        let length = run.length(tail);
        format!("<path d='M{a} {b}H{c}V{e}'><title>{length} cm</title></path>\n")
    }

    /// The line of a mark at a point.
    fn mark(&self, name: &str, point: Point) -> String {
        let (a, b, unit) = (self.across(point), self.down(point), self.unit);
        let title = format!("<title>{name} {} {}</title>", point.x, point.y);
        format!("<use href='#{name}' transform='translate({a} {b})scale({unit})'>{title}</use>\n")
    }
}

/// The name of a kind.
fn name_of(kind: u32) -> &'static str {
    match kind {
        SENSOR => "sensor",
        DISPLAY => "display",
        CONTROLLER => "controller",
        _ => panic!("there is no kind {kind}"),
    }
}

/// The picture of a state as it is.
pub fn picture(state: &State) -> String {
    let frame = Frame::around(&state.points());
    let unit = frame.unit;
    let (width, height) = (440 * unit, 400 * frame.height + 120 * unit);
    let mut text = format!(
        "<svg xmlns='http://www.w3.org/2000/svg' viewBox='0 0 {width} {height}'>\n\
         {MARKS}<rect width='{width}' height='{height}' fill='white'/>\n\
         <g fill='none' stroke='gray' stroke-width='{unit}'>\n"
    );
    let runs = state.tree();
    for run in listing_order(&runs) {
        text += &frame.run(run, state.tail);
    }
    text += "</g>\n";
    for pin in &state.pins {
        text += &frame.mark(name_of(pin.kind), pin.point);
    }
    for &tap in &state.steiner {
        text += &frame.mark("tap", tap);
    }
    let deep = 400 * frame.height;
    text += &format!(
        "<g transform='translate(0 {deep})scale({unit})' font-family='sans-serif' font-size='14'>\n{LEGEND}"
    );
    let (pins, taps, length) = (
        state.pins.len(),
        state.steiner.len(),
        length(&runs, state.tail),
    );
    text += &format!("<text x='30' y='100'>pins {pins}, taps {taps}, length {length} cm</text>\n");
    text + "</g>\n</svg>\n"
}

/// The picture of the deck of a file, or the line that names its refusal.
pub fn draw(file: &[u8]) -> Result<String, String> {
    match read(file) {
        Ok(state) => Ok(picture(&state)),
        Err(number) => Err(format!("refused {number}\n")),
    }
}
