//! Draws a picture as SVG: plain shapes and texts, and what a bar stands for as
//! the title that a viewer shows over it. Coordinates are whole pixels.

use crate::picture::{Axis, Bar, Part, Picture};

/// Where time begins, from the left.
const LEFT: u64 = 100;
/// The width of the axis.
const WIDTH: u64 = 800;
/// The width of the whole.
const SHEET: u64 = LEFT + WIDTH + 50;
/// Where the rows begin, from the top: below the clock's label.
const TOP: u64 = 26;
/// The height of a row.
const ROW: u64 = 28;
/// What is left free above and below a bar.
const GAP: u64 = 2;
/// What is left free above the row of the pool.
const ABOVE_POOL: u64 = 14;
/// The greatest height of the row of the pool. Up to it a unit is as high as a
/// row.
const MAX_POOL: u64 = 4 * ROW;
/// The height of a line of text.
const LINE: u64 = 20;
/// The height of letters, and that of small ones.
const SIZE: u64 = 12;
const SMALL: u64 = 9;
const SMALL_LETTERS: &str = " font-size=\"9\"";
/// What is past the promised end.
const HATCHED: &str = " fill=\"url(#past)\"";

/// The colors of held claims. Dark ones, light ones and those between take
/// turns, and any two are apart to a color-blind eye as well (Paul Tol's muted
/// scheme).
pub const PALETTE: [Color; 9] = [
    Color(0x332288),
    Color(0xDDCC77),
    Color(0x44AA99),
    Color(0x882255),
    Color(0x88CCEE),
    Color(0xCC6677),
    Color(0x117733),
    Color(0x999933),
    Color(0xAA4499),
];
/// The color of the legend's samples.
const SAMPLE: Color = Color(0x707070);

/// A color: red, green and blue, a byte each.
#[derive(Clone, Copy, PartialEq, Eq, Debug)]
pub struct Color(pub u32);

impl Color {
    /// Red, green and blue.
    pub fn parts(self) -> [u32; 3] {
        [self.0 >> 16, self.0 >> 8 & 0xFF, self.0 & 0xFF]
    }

    /// The same, pale: two parts of it and three of white.
    fn pale(self) -> Color {
        let parts = self.parts().map(|part| 255 - (255 - part) * 2 / 5);
        Color(parts[0] << 16 | parts[1] << 8 | parts[2])
    }

    /// The color of letters on it: white where it is dark, and black.
    fn letters(self) -> &'static str {
        let [red, green, blue] = self.parts();
        if 299 * red + 587 * green + 114 * blue < 128_000 {
            "#fff"
        } else {
            "#000"
        }
    }

    fn hex(self) -> String {
        format!("#{:06x}", self.0)
    }
}

/// No text in letters of this size is wider.
pub fn text_width(text: &str, size: u64) -> u64 {
    (text.len() as u64 * size * 64 + 99) / 100
}

/// The picture as SVG.
pub fn svg(picture: &Picture) -> String {
    let mut sheet = Sheet {
        picture,
        axis: picture.axis(),
        colors: picture.colors(PALETTE.len()),
        shapes: String::new(),
        labels: String::new(),
    };
    sheet.grid();
    sheet.rows();
    if picture.pool > 0 {
        sheet.pool();
    }
    sheet.clock();
    sheet.marks();
    sheet.legend();
    sheet.whole()
}

/// What is drawn so far.
struct Sheet<'a> {
    picture: &'a Picture,
    axis: Axis,
    /// For each bar its color's place in the palette.
    colors: Vec<usize>,
    shapes: String,
    /// The labels of bars: they stand on top of all shapes.
    labels: String,
}

/// A rectangle.
#[derive(Clone, Copy)]
struct Area {
    x: u64,
    y: u64,
    width: u64,
    height: u64,
}

impl Sheet<'_> {
    /// Writes a line of shapes.
    fn shape(&mut self, shape: impl AsRef<str>) {
        self.shapes.push_str(shape.as_ref());
        self.shapes.push('\n');
    }

    /// Where a time is.
    fn x(&self, time: u64) -> u64 {
        let length = self.axis.last - self.axis.first;
        LEFT + (time - self.axis.first) * WIDTH / length
    }

    /// Where the row of the pool begins.
    fn pool_top(&self) -> u64 {
        TOP + ROW * self.picture.groups.len() as u64 + ABOVE_POOL
    }

    /// The height of the row of the pool.
    fn pool_height(&self) -> u64 {
        (u64::from(self.picture.pool) * ROW).min(MAX_POOL)
    }

    /// Where the axis is: below all rows.
    fn base(&self) -> u64 {
        if self.picture.pool > 0 {
            self.pool_top() + self.pool_height()
        } else {
            TOP + ROW * self.picture.groups.len() as u64
        }
    }

    /// Where so many units of the pool are.
    fn unit_y(&self, units: u64) -> u64 {
        self.base() - units * self.pool_height() / u64::from(self.picture.pool)
    }

    /// A line up from the axis at each mark, and one below each row. The row of
    /// a small pool has one at each unit.
    fn grid(&mut self) {
        let base = self.base();
        let mut path = String::new();
        for mark in self.axis.marks() {
            path += &format!("M{} {TOP}V{base}", self.x(mark));
        }
        for row in 1..=self.picture.groups.len() as u64 {
            path += &format!("M{LEFT} {}h{WIDTH}", TOP + row * ROW);
        }
        let pool = u64::from(self.picture.pool);
        if pool * ROW <= MAX_POOL {
            for units in 1..pool {
                path += &format!("M{LEFT} {}h{WIDTH}", self.unit_y(units));
            }
        }
        self.shape(format!("<path d=\"{path}\" stroke=\"#ddd\"/>"));
    }

    /// The groups with their bars.
    fn rows(&mut self) {
        let picture = self.picture;
        for (row, group) in picture.groups.iter().enumerate() {
            let y = TOP + row as u64 * ROW + 18;
            self.shape(side(y, &format!("group {group}")));
        }
        for (index, bar) in picture.bars.iter().enumerate() {
            if bar.groups == 0 {
                continue;
            }
            self.open_bar(index);
            for (row, &group) in picture.groups.iter().enumerate() {
                if bar.has(group) {
                    let y = TOP + row as u64 * ROW + GAP;
                    let area = self.block(index, (bar.from, bar.to), (y, ROW - 2 * GAP));
                    self.label(index, area);
                }
            }
            self.shape("</g>");
        }
    }

    /// The units in use: the stack of the bars that draw units, below a line at
    /// the pool's size.
    fn pool(&mut self) {
        let (top, base) = (self.pool_top(), self.base());
        let mut parts = self.picture.stack();
        parts.sort_by_key(|part| part.bar);
        let mut rest = &parts[..];
        while let Some(first) = rest.first() {
            let count = rest.iter().take_while(|part| part.bar == first.bar).count();
            let (of_bar, others) = rest.split_at(count);
            self.open_bar(first.bar);
            self.units_of(of_bar);
            self.shape("</g>");
            rest = others;
        }
        self.shape(format!(
            "<path d=\"M{LEFT} {top}h{WIDTH}\" stroke=\"#000\" stroke-dasharray=\"6 3\"/>"
        ));
        self.shape(side(top + 4, &units(self.picture.pool)));
        self.shape(side(base + 4, "0"));
    }

    /// The parts of one bar, the widest with a label. What is too thin to see is
    /// left out.
    fn units_of(&mut self, parts: &[Part]) {
        let bar = parts[0].bar;
        let mut widest: Option<Area> = None;
        for part in parts {
            let (low, high) = (self.unit_y(part.low), self.unit_y(part.high));
            if self.x(part.from) < self.x(part.to) && high < low {
                let area = self.block(bar, (part.from, part.to), (high, low - high));
                if widest.map_or(true, |widest| widest.width < area.width) {
                    widest = Some(area);
                }
            }
        }
        if let Some(area) = widest {
            self.label(bar, area);
        }
    }

    /// Begins the shapes of a bar.
    fn open_bar(&mut self, index: usize) {
        let bar = &self.picture.bars[index];
        let color = PALETTE[self.colors[index]];
        let paint = if bar.waiting {
            waiting(color)
        } else {
            held(color)
        };
        self.shape(format!("<g {paint}><title>{}</title>", title(bar)));
    }

    /// A bar over a time and a span of heights, at least a pixel wide; what is
    /// past its promised end is hatched.
    fn block(&mut self, bar: usize, (from, to): (u64, u64), (y, height): (u64, u64)) -> Area {
        let x = self.x(from);
        // A pixel is left free before the next bar.
        let width = (self.x(to) - x).max(2) - 1;
        let area = Area {
            x,
            y,
            width,
            height,
        };
        self.shape(rectangle(area, ""));
        let promised = self.picture.bars[bar].promised;
        if promised < to {
            let past = self.x(promised.max(from)).min(x + width - 1);
            let hatched = Area {
                x: past,
                width: x + width - past,
                ..area
            };
            self.shape(rectangle(hatched, HATCHED));
        }
        area
    }

    /// The label of a bar in an area: the fullest text that has room there. It
    /// is right of the clock's line where it would cross it, if it has room.
    fn label(&mut self, bar: usize, area: Area) {
        let end = area.x + area.width;
        let fits = |text: &str, size: u64, x: u64| {
            x + text_width(text, size) + 2 <= end && size + 2 <= area.height
        };
        let mut x = area.x + 4;
        let mut labels = labels(&self.picture.bars[bar]).into_iter();
        let Some((text, size)) = labels.find(|(text, size)| fits(text, *size, x)) else {
            return;
        };
        let clock = self.x(self.picture.clock);
        if x <= clock && clock <= x + text_width(&text, size) && fits(&text, size, clock + 4) {
            x = clock + 4;
        }
        let y = area.y + (area.height + size * 3 / 4) / 2;
        let color = PALETTE[self.colors[bar]];
        let ground = match self.picture.bars[bar].waiting {
            true => color.pale(),
            false => color,
        };
        let (letters, ground) = (ground.letters(), ground.hex());
        self.labels += &format!(
            "<text x=\"{x}\" y=\"{y}\" fill=\"{letters}\" stroke=\"{ground}\"{}>{text}</text>\n",
            if size == SMALL { SMALL_LETTERS } else { "" }
        );
    }

    /// The line of the table's clock.
    fn clock(&mut self) {
        let text = format!("clock {}", self.picture.clock);
        let x = self.x(self.picture.clock);
        let half = text_width(&text, SIZE) / 2 + 1;
        let line = format!("M{x} {}V{}", TOP - 6, self.base());
        self.shape(format!(
            "<path d=\"{line}\" stroke=\"#fff\" stroke-width=\"3\"/>"
        ));
        self.shape(format!("<path d=\"{line}\" stroke=\"#000\"/>"));
        self.shape(format!(
            "<text x=\"{}\" y=\"{}\" text-anchor=\"middle\">{text}</text>",
            x.clamp(half, SHEET - half),
            TOP - 10
        ));
    }

    /// The axis with its marks.
    fn marks(&mut self) {
        let base = self.base();
        let mut path = format!("M{LEFT} {base}h{WIDTH}");
        for mark in self.axis.marks() {
            path += &format!("M{} {base}v5", self.x(mark));
        }
        self.shape(format!("<path d=\"{path}\" stroke=\"#000\"/>"));
        let apart = self.x(self.axis.first + self.axis.step) - LEFT;
        let widest = text_width(&self.axis.last.to_string(), SIZE);
        let size = if widest + 4 < apart { SIZE } else { SMALL };
        let y = base + LINE;
        let first = text_width(&self.axis.first.to_string(), size);
        self.shape(format!(
            "<text x=\"{}\" y=\"{y}\" text-anchor=\"end\">clock</text>",
            LEFT - 8 - first / 2
        ));
        self.shape(format!("<g text-anchor=\"middle\" font-size=\"{size}\">"));
        for mark in self.axis.marks() {
            self.shape(format!(
                "<text x=\"{}\" y=\"{y}\">{mark}</text>",
                self.x(mark)
            ));
        }
        self.shape("</g>");
    }

    /// One line that says how bars are drawn, and where the load stops early
    /// one that says so.
    fn legend(&mut self) {
        let y = self.base() + 2 * LINE + 6;
        let samples = [
            (0, held(SAMPLE), "", "held"),
            (90, held(SAMPLE), HATCHED, "held past its promised end"),
            (320, waiting(SAMPLE), "", "waiting, as planned"),
        ];
        for (place, paint, hatched, text) in samples {
            let area = Area {
                x: LEFT + place,
                y: y - 11,
                width: 24,
                height: 14,
            };
            self.shape(format!("<g {paint}>"));
            self.shape(rectangle(area, ""));
            if !hatched.is_empty() {
                self.shape(rectangle(area, hatched));
            }
            self.shape("</g>");
            self.shape(line(area.x + 30, y, text));
        }
        let text = match self.picture.pool {
            0 => "3: ticket 3",
            _ => "3 +2u: ticket 3, draws 2 units",
        };
        self.shape(line(LEFT + 510, y, text));
        if let Some(stop) = stop_line(self.picture) {
            let text = format!("{stop}; what follows is not drawn");
            self.shape(line(LEFT, y + LINE, &text));
        }
    }

    /// The whole file.
    fn whole(self) -> String {
        let lines = if self.picture.stop.is_some() { 4 } else { 3 };
        let height = self.base() + lines * LINE;
        format!(
            "<svg xmlns=\"http://www.w3.org/2000/svg\" width=\"{SHEET}\" height=\"{height}\" \
             viewBox=\"0 0 {SHEET} {height}\" font-family=\"sans-serif\" font-size=\"{SIZE}\" \
             shape-rendering=\"crispEdges\">\n\
             <pattern id=\"past\" width=\"6\" height=\"6\" patternUnits=\"userSpaceOnUse\" \
             patternTransform=\"rotate(45)\"><path d=\"M0 0h3v6h-3z\" fill=\"#fff\" \
             fill-opacity=\"0.6\" shape-rendering=\"auto\"/></pattern>\n\
             <rect width=\"{SHEET}\" height=\"{height}\" fill=\"#fff\"/>\n\
             {}\
             <g stroke-width=\"3\" stroke-linejoin=\"round\" paint-order=\"stroke\" \
             pointer-events=\"none\">\n{}</g>\n</svg>\n",
            self.shapes, self.labels
        )
    }
}

/// How a held claim is painted.
fn held(color: Color) -> String {
    format!("fill=\"{}\"", color.hex())
}

/// How a waiting one is painted: pale, its border in dashes.
fn waiting(color: Color) -> String {
    format!(
        "fill=\"{}\" stroke=\"#555\" stroke-dasharray=\"4 2\"",
        color.pale().hex()
    )
}

fn rectangle(area: Area, paint: &str) -> String {
    let Area {
        x,
        y,
        width,
        height,
    } = area;
    format!("<rect x=\"{x}\" y=\"{y}\" width=\"{width}\" height=\"{height}\"{paint}/>")
}

/// A text from a place to the right.
fn line(x: u64, y: u64, text: &str) -> String {
    format!("<text x=\"{x}\" y=\"{y}\">{text}</text>")
}

/// A text left of the axis.
fn side(y: u64, text: &str) -> String {
    format!(
        "<text x=\"{}\" y=\"{y}\" text-anchor=\"end\">{text}</text>",
        LEFT - 8
    )
}

/// The labels that a bar may have, the fullest first, with their sizes.
fn labels(bar: &Bar) -> Vec<(String, u64)> {
    let ticket = bar.ticket;
    let mut labels = Vec::new();
    if bar.units > 0 {
        labels.push((format!("{ticket} ({})", units(bar.units)), SIZE));
        labels.push((format!("{ticket} +{}u", bar.units), SIZE));
    }
    labels.push((ticket.to_string(), SIZE));
    labels.push((ticket.to_string(), SMALL));
    labels
}

/// Units in words.
fn units(count: u16) -> String {
    match count {
        1 => "1 unit".to_string(),
        _ => format!("{count} units"),
    }
}

/// What a bar stands for.
fn title(bar: &Bar) -> String {
    let groups: Vec<String> = (0..64)
        .filter(|&group| bar.has(group))
        .map(|group| group.to_string())
        .collect();
    let mut title = format!("ticket {}", bar.ticket);
    match groups.len() {
        0 => title += ", no group",
        1 => title += &format!(", group {}", groups[0]),
        _ => title += &format!(", groups {}", groups.join(" ")),
    }
    if bar.units > 0 {
        title += &format!(", {}", units(bar.units));
    }
    let state = if bar.waiting { "waiting" } else { "held" };
    title += &format!(", {state}, from {} to {}", bar.from, bar.to);
    if bar.promised < bar.to {
        title += &format!(", promised end {}", bar.promised);
    }
    title
}

/// Where the load stops early, in words.
pub fn stop_line(picture: &Picture) -> Option<String> {
    let (refusal, record) = picture.stop?;
    Some(format!(
        "the load stops at record {record}, refused with {}",
        refusal.number()
    ))
}
