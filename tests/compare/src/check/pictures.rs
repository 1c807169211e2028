//! What has to hold of a picture by itself (SPEC 9.9), read as XML: its elements, its
//! numbers, and that it shows the deck that another program listed.

use super::xml::{read, Element};
use reference::listed::Listed;
use reference::plane::Point;
use reference::session::State;
use std::collections::BTreeMap;

/// The units of a centimetre.
const CENTIMETRE: i64 = 400;

/// The elements that there are, each with its attributes in their order.
const KNOWN: [(&str, &[&str]); 14] = [
    ("svg", &["xmlns", "viewBox"]),
    ("defs", &[]),
    ("circle", &["id", "r", "fill", "stroke"]),
    ("circle", &["id", "r"]),
    ("rect", &["id", "x", "y", "width", "height", "fill"]),
    ("rect", &["width", "height", "fill"]),
    ("path", &["id", "d", "fill"]),
    ("path", &["d"]),
    ("g", &["fill", "stroke", "stroke-width"]),
    ("g", &["transform", "font-family", "font-size"]),
    ("use", &["href", "transform"]),
    ("use", &["href", "x", "y"]),
    ("text", &["x", "y"]),
    ("title", &[]),
];

/// A point of the picture: how far across, and how far down.
type Place = [i64; 2];

/// What a picture shows.
#[derive(Clone, Debug, Default, PartialEq, Eq)]
pub struct Picture {
    /// Width and height of the whole.
    pub frame: [i64; 2],
    /// The first, the middle and the last place of each run, and its length as written.
    pub runs: Vec<([Place; 3], i64)>,
    /// Each mark: its name, its place, and the point that is written on it.
    pub marks: Vec<(String, Place, Point)>,
    /// How thick the runs are and how large each mark is and the foot, in this order,
    /// and how far down the foot begins.
    pub scales: Vec<i64>,
    pub foot: i64,
    /// The numbers of pins and taps and the length as written.
    pub numbers: [i64; 3],
}

/// The numbers that stand between these texts, in the order of the texts: of
/// `["M", " ", "H", ""]` three. All are whole.
fn between<const COUNT: usize>(text: &str, parts: &[&str]) -> Result<[i64; COUNT], String> {
    let wrong = || format!("not as {parts:?}: {text}");
    let mut rest = text.strip_prefix(parts[0]).ok_or_else(wrong)?;
    let mut found = Vec::new();
    for part in &parts[1..] {
        let end = match part.is_empty() {
            true => rest.len(),
            false => rest.find(part).ok_or_else(wrong)?,
        };
        let number: i64 = rest[..end].parse().map_err(|_| wrong())?;
        if number.to_string() != rest[..end] {
            return Err(wrong());
        }
        found.push(number);
        rest = &rest[end + part.len()..];
    }
    match rest {
        "" => found.try_into().map_err(|_| wrong()),
        _ => Err(wrong()),
    }
}

/// Whether an element is one of those that there are, with every number whole.
fn is_known(element: &Element) -> bool {
    let names = element.names();
    let words = ["xmlns", "id", "href", "fill", "stroke", "font-family"];
    let mut attributes = element.attributes.iter();
    let whole = attributes.all(|(name, value)| {
        let moves = |c: char| " MHVLZ()".contains(c);
        let tokens = value.split(moves).filter(|token| !token.is_empty());
        let mut tokens = tokens.filter(|token| !["translate", "scale"].contains(token));
        words.contains(&name.as_str()) || tokens.all(|token| token.parse::<i64>().is_ok())
    });
    whole && KNOWN.contains(&(element.name.as_str(), &names))
}

/// That each mark that is used is among those defined.
fn all_defined(root: &Element, defs: &Element) -> Result<(), String> {
    let ids: Vec<&str> = defs
        .children
        .iter()
        .flat_map(|mark| mark.get("id"))
        .collect();
    let uses = root
        .all()
        .into_iter()
        .filter(|element| element.name == "use");
    for href in uses.flat_map(|element| element.get("href")) {
        if !href
            .strip_prefix('#')
            .is_some_and(|name| ids.contains(&name))
        {
            return Err(format!("{href} is not among {ids:?}"));
        }
    }
    Ok(())
}

/// The text of the only element in this one.
fn title(element: &Element) -> Result<&str, String> {
    match &element.children[..] {
        [title] if title.name == "title" => Ok(&title.text),
        _ => Err(format!("no title: {element:?}")),
    }
}

impl Picture {
    /// The picture of a text.
    pub fn of(text: &str) -> Result<Picture, String> {
        let root = read(text)?;
        if let Some(other) = root.all().into_iter().find(|element| !is_known(element)) {
            return Err(format!("{} with {:?}", other.name, other.attributes));
        }
        let [defs, ground, runs, marks @ .., foot] = &root.children[..] else {
            return Err("too few elements".to_string());
        };
        let names = [&root, defs, ground, runs, foot].map(|element| element.name.as_str());
        if names != ["svg", "defs", "rect", "g", "g"] {
            return Err(format!("{names:?}"));
        }
        let mut picture = Picture {
            frame: between(root.get("viewBox")?, &["0 0 ", " ", ""])?,
            ..Picture::default()
        };
        let sides = [ground.get("width")?, ground.get("height")?];
        if sides != picture.frame.map(|side| side.to_string()) {
            return Err(format!("a ground of {sides:?}"));
        }
        all_defined(&root, defs)?;
        picture
            .scales
            .extend(between::<1>(runs.get("stroke-width")?, &["", ""])?);
        for run in &runs.children {
            picture.add_run(run)?;
        }
        for mark in marks {
            picture.add_mark(mark)?;
        }
        let [foot_down, scale] =
            between(foot.get("transform")?, &["translate(0 ", ")scale(", ")"])?;
        picture.foot = foot_down;
        picture.scales.push(scale);
        let said = foot.children.last().map_or("", |last| last.text.as_str());
        picture.numbers = between(said, &["pins ", ", taps ", ", length ", " cm"])?;
        Ok(picture)
    }

    fn add_run(&mut self, run: &Element) -> Result<(), String> {
        let [a, b, c, e] = between(run.get("d")?, &["M", " ", "H", "V", ""])?;
        let [length] = between(title(run)?, &["", " cm"])?;
        self.runs.push(([[a, b], [c, b], [c, e]], length));
        Ok(())
    }

    fn add_mark(&mut self, mark: &Element) -> Result<(), String> {
        let name = mark.get("href")?.trim_start_matches('#').to_string();
        let parts = ["translate(", " ", ")scale(", ")"];
        let [across, down, scale] = between(mark.get("transform")?, &parts)?;
        let [x, y] = between(title(mark)?, &[&format!("{name} "), " ", ""])?;
        self.marks.push((name, [across, down], Point::new(x, y)));
        self.scales.push(scale);
        Ok(())
    }

    /// Whether each place is inside the frame.
    fn inside(&self) -> bool {
        let places = self.runs.iter().flat_map(|(places, _)| places);
        let mut places = places.chain(self.marks.iter().map(|(_, place, _)| place));
        places.all(|[a, b]| 0 < *a && *a < self.frame[0] && 0 < *b && *b < self.frame[1])
    }

    /// Whether all is as large as the larger side of the box around the points written
    /// asks for, and the marks are in the middle, between the margin and the foot.
    fn fits(&self) -> bool {
        let side = |z: fn(&Point) -> i64| {
            let all = self.marks.iter().map(|mark| z(&mark.2));
            all.clone().max().unwrap_or(0) - all.min().unwrap_or(0)
        };
        let unit = side(|point| point.x).max(side(|point| point.y)).max(1);
        let places = |way: usize| self.marks.iter().map(move |mark| mark.1[way]);
        let ends = |way: usize| places(way).min().zip(places(way).max());
        let [width, height] = self.frame;
        let middle = ends(0).is_none_or(|(least, most)| least + most == width);
        let above =
            ends(1).is_none_or(|(least, most)| (least, most) == (20 * unit, self.foot + 20 * unit));
        let sizes = width == 440 * unit && height == self.foot + 120 * unit;
        middle && above && sizes && self.scales.iter().all(|&scale| scale == unit)
    }

    /// Whether any two marks stand as their points do: to the right where x is
    /// greater and higher up where y is, by as many centimetres.
    fn upright(&self) -> bool {
        let pairs = |(_, [a, b], p): &(String, Place, Point)| {
            self.marks.iter().all(|(_, [c, e], q)| {
                c - a == CENTIMETRE * (q.x - p.x) && e - b == CENTIMETRE * (p.y - q.y)
            })
        };
        self.marks.iter().all(pairs)
    }

    /// The runs by the points that are written on the marks at their ends.
    fn listed_runs(&self) -> Option<Vec<[i64; 5]>> {
        let marks = self.marks.iter().map(|(_, place, point)| (*place, *point));
        let at: BTreeMap<Place, Point> = marks.collect();
        let run = |([first, _, last], length): &([Place; 3], i64)| {
            let (a, b) = (at.get(first)?, at.get(last)?);
            Some([a.x, a.y, b.x, b.y, *length])
        };
        self.runs.iter().map(run).collect()
    }

    /// The length of the paths: along x and along y, added up.
    fn length(&self) -> i64 {
        let side = |a: Place, b: Place| (a[0] - b[0]).abs() + (a[1] - b[1]).abs();
        let run = |([a, b, c], _): &([Place; 3], i64)| side(*a, *b) + side(*b, *c);
        self.runs.iter().map(run).sum()
    }

    /// The points written on the marks of a name, in their order.
    fn points(&self, name: &str) -> Vec<Point> {
        let marks = self.marks.iter().filter(|mark| mark.0 == name);
        marks.map(|mark| mark.2).collect()
    }
}

/// What does not hold of a picture of this deck, which another program listed so.
pub fn faults(text: &str, state: &State, listing: &str) -> Vec<&'static str> {
    let Ok(picture) = Picture::of(text) else {
        return vec!["not such a picture"];
    };
    let listed = Listed::of(listing);
    let of_kind = |kind: u32| {
        let pins = state.pins.iter().filter(|pin| pin.kind == kind);
        pins.map(|pin| pin.point).collect::<Vec<_>>()
    };
    let order = state.places().into_iter().chain(listed.taps.clone());
    let kinds = [(0, "sensor"), (1, "display"), (2, "controller")];
    let checks = [
        ("a place outside the frame", picture.inside()),
        ("not upright", picture.upright()),
        ("not as large as it should be", picture.fits()),
        (
            "paths of another length",
            picture.length() == CENTIMETRE * listed.header[2],
        ),
        ("other runs", picture.listed_runs() == Some(listed.runs)),
        ("other numbers", picture.numbers == listed.header),
        ("other taps", picture.points("tap") == listed.taps),
        (
            "other devices",
            kinds
                .iter()
                .all(|&(kind, name)| picture.points(name) == of_kind(kind)),
        ),
        (
            "another order of marks",
            picture.marks.iter().map(|mark| mark.2).eq(order),
        ),
    ];
    let fails = checks.iter().filter(|(_, holds)| !holds);
    fails.map(|(name, _)| *name).collect()
}
