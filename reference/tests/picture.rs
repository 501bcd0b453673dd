//! What the picture of a load shows, and how it is drawn.

mod common;

use std::collections::BTreeSet;
use std::fs;
use std::path::Path;

use common::{
    claim, claim_of, client_load_of, clock, declare, draw, for_seeds, load_of, pool_load_of,
    release, withdraw,
};
use reference::generate::any_load;
use reference::picture::{Axis, Bar, Picture};
use reference::svg::{svg, text_width, Color, PALETTE};
use reference::table::{TableCall, MAX_CLOCK, MAX_LENGTH};
use reference::workload::workload;

/// The loads of examples/.
fn examples() -> Vec<Vec<u8>> {
    let directory = Path::new(env!("CARGO_MANIFEST_DIR")).join("../examples");
    let mut loads = Vec::new();
    for entry in fs::read_dir(directory).expect("examples is there") {
        let path = entry.expect("an entry").path();
        if path
            .extension()
            .is_some_and(|extension| extension == "load")
        {
            loads.push(fs::read(path).expect("a load is read"));
        }
    }
    assert!(loads.len() >= 6);
    loads
}

/// Workloads from small to the greatest.
fn workloads() -> Vec<Vec<u8>> {
    let counts = [1, 20, 100, 300, 1_000];
    let loads = (0..12).flat_map(|seed| counts.map(|count| workload(seed, count)));
    loads.map(|load| load.expect("a count in range")).collect()
}

/// Ticket, from, to, promised end and whether it waits, of each bar.
fn shown(load: &[u8]) -> Vec<(u16, u64, u64, u64, bool)> {
    let bars = Picture::of(load).bars.into_iter();
    bars.map(|bar| (bar.ticket, bar.from, bar.to, bar.promised, bar.waiting))
        .collect()
}

#[test]
fn claims_have_bars() {
    let calls = [
        claim(0, 0x8, 10),
        claim(0, 0xC, 10),
        claim(0, 0x6, 11),
        claim(1, 0x1, 4),
        claim(2, 0xF, 7),
        release(9, 2),
        withdraw(9, 5),
        release(13, 1),
        release(13, 2),
        clock(15),
    ];
    // Ticket 2 came on at 13 and was released then, ticket 4 is on past its
    // promised end, and ticket 5, withdrawn, has no bar.
    let bars = [
        (1, 0, 13, 10, false),
        (2, 13, 13, 23, false),
        (3, 13, 24, 24, false),
        (4, 1, 15, 5, false),
    ];
    let load = load_of(0xF, &calls);
    assert_eq!(shown(&load), bars);
    assert_eq!(Picture::of(&load).clock, 15);
    let waiting = [(1, 0, 10, 10, false), (2, 10, 20, 20, true)];
    assert_eq!(shown(&load_of(0xF, &calls[..2])), waiting);
}

/// An overrun is drawn up to its end, the clock and the grace, and what waits
/// for it from there on.
#[test]
fn the_grace_counts() {
    for (grace, end) in [(0, 12), (30, 42), (60_000, 60_012), (60_001, 12)] {
        let calls = [
            TableCall::Grace(grace),
            declare(1, 0, 9).into(),
            claim(0, 0x8, 10).into(),
            claim(0, 0x8, 10).into(),
            TableCall::Grace(7),
            clock(12).into(),
        ];
        let bars = [(1, 0, end, 10, false), (2, end, end + 10, end + 10, true)];
        assert_eq!(shown(&client_load_of(0xF, 0, &calls)), bars);
    }
}

/// Nothing behind a declaration that comes too late.
#[test]
fn a_late_declaration_stops() {
    let calls = [
        declare(2, 0, 1).into(),
        claim_of(2, 0, 0x8, 10).into(),
        declare(2, 0, 1).into(),
        claim_of(2, 0, 0x4, 10).into(),
    ];
    let good = client_load_of(0xF, 0, &calls[..2]);
    let stopped = client_load_of(0xF, 0, &calls);
    assert_eq!(shown(&stopped), shown(&good));
    assert_eq!(Picture::of(&good).stop, None);
    let stop = Picture::of(&stopped).stop;
    assert_eq!(
        stop.map(|(refusal, record)| (refusal.number(), record)),
        Some((13, 4))
    );
}

/// Where its listing stops, a picture does.
#[test]
fn a_picture_stops_where_the_listing_does() {
    for_seeds(0..500, |seed| {
        let load = any_load(seed);
        let listing = common::listing(&load);
        let last = listing.lines().last().expect("the header");
        let stop = Picture::of(&load).stop;
        let stop = stop.map(|(refusal, record)| format!("stop {} {record}", refusal.number()));
        assert_eq!(last.strip_prefix("stop").map(|_| last.to_string()), stop);
    });
}

/// No two bars stand on a row at the same time, and the units in use are at most
/// the pool's.
#[test]
fn holds_keep_groups_and_pool() {
    for_seeds(0..400, |seed| {
        let picture = Picture::of(&any_load(seed));
        for &group in &picture.groups {
            let mut row: Vec<&Bar> = picture.bars.iter().filter(|bar| bar.has(group)).collect();
            row.sort_by_key(|bar| (bar.from, bar.to));
            assert!(row.windows(2).all(|pair| pair[0].to <= pair[1].from));
        }
        for part in picture.stack() {
            assert!(part.high <= u64::from(picture.pool));
        }
    });
}

/// At every time the stack has the units of the bars that stand then, each once,
/// one above another from 0 up.
#[test]
fn the_stack_is_the_units_in_use() {
    for_seeds(0..400, |seed| {
        let picture = Picture::of(&any_load(seed));
        let stack = picture.stack();
        assert!(stack.windows(2).all(|pair| pair[0].from <= pair[1].from));
        let times: BTreeSet<u64> = picture
            .bars
            .iter()
            .flat_map(|bar| [bar.from, bar.to])
            .collect();
        for &time in times.iter().step_by(times.len() / 100 + 1) {
            let mut parts: Vec<_> = stack
                .iter()
                .filter(|part| part.from <= time && time < part.to)
                .collect();
            parts.sort_by_key(|part| part.low);
            let mut top = 0;
            for part in &parts {
                assert_eq!(part.low, top);
                assert_eq!(part.high - part.low, picture.bars[part.bar].units.into());
                top = part.high;
            }
            let drawn: BTreeSet<usize> = parts.iter().map(|part| part.bar).collect();
            let stand = |bar: &Bar| bar.units > 0 && bar.from <= time && time < bar.to;
            let bars = (0..picture.bars.len()).filter(|&bar| stand(&picture.bars[bar]));
            assert_eq!(drawn, bars.collect());
            assert_eq!(drawn.len(), parts.len());
        }
    });
}

/// The pairs of bars of the same color that touch on a row, follow each other
/// there, or stand on rows next to each other at the same time.
fn clashes(picture: &Picture, colors: &[usize]) -> usize {
    let bars = &picture.bars;
    let on_row = |group: u8| {
        let mut row: Vec<usize> = (0..bars.len())
            .filter(|&bar| bars[bar].has(group))
            .collect();
        row.sort_by_key(|&bar| (bars[bar].from, bars[bar].to));
        row
    };
    let rows: Vec<Vec<usize>> = picture.groups.iter().map(|&group| on_row(group)).collect();
    let mut pairs = Vec::new();
    for row in &rows {
        pairs.extend(row.windows(2).map(|pair| (pair[0], pair[1])));
        for &one in row {
            let next = row
                .iter()
                .filter(|&&other| bars[one].to == bars[other].from);
            pairs.extend(next.map(|&other| (one, other)));
        }
    }
    for two in rows.windows(2) {
        for &one in &two[0] {
            // A bar without length is drawn at its time.
            let stands = |&&other: &&usize| {
                let (one, other) = (&bars[one], &bars[other]);
                one.from <= other.from.max(other.to.saturating_sub(1))
                    && other.from <= one.from.max(one.to.saturating_sub(1))
            };
            pairs.extend(two[1].iter().filter(stands).map(|&other| (one, other)));
        }
    }
    let same = |&&(one, other): &&(usize, usize)| one != other && colors[one] == colors[other];
    pairs.iter().filter(same).count()
}

#[test]
fn neighbors_differ_in_color() {
    for load in examples().iter().chain(&workloads()) {
        let picture = Picture::of(load);
        let colors = picture.colors(PALETTE.len());
        assert_eq!(colors.len(), picture.bars.len());
        assert!(colors.iter().all(|&color| color < PALETTE.len()));
        assert_eq!(clashes(&picture, &colors), 0);
    }
}

/// Parts of the stack that meet differ as well: a long hold has all others above
/// it, one after another.
#[test]
fn neighbors_in_the_stack_differ_in_color() {
    let short = |n: u32| draw(0, 0, 5 + n * 7 % 11, 1);
    let mut calls = vec![draw(0, 0, 1_000, 2)];
    calls.extend((0..40).map(short));
    let picture = Picture::of(&pool_load_of(0xF, 4, &calls));
    let colors = picture.colors(PALETTE.len());
    assert!(picture.bars.len() > PALETTE.len());
    let stack = picture.stack();
    for one in &stack {
        for other in stack.iter().filter(|other| other.bar != one.bar) {
            let above = one.high == other.low && one.from < other.to && other.from < one.to;
            let behind = one.to == other.from && one.low < other.high && other.low < one.high;
            if above || behind {
                assert_ne!(colors[one.bar], colors[other.bar]);
            }
        }
    }
}

#[test]
fn few_bars_have_each_its_own_color() {
    let calls: Vec<_> = (0..9).map(|n| claim(n, 1 << (7 * n), 5)).collect();
    let colors = Picture::of(&load_of(u64::MAX, &calls)).colors(9);
    assert_eq!(colors, (0..9).collect::<Vec<usize>>());
}

/// Eleven claims, every two of them side by side somewhere: the rows go once
/// along each line between eleven points. Nine colors are each used once or
/// twice.
#[test]
fn a_show_too_dense_for_the_palette_shares_colors() {
    let mut groups = [0_u64; 11];
    let steps = (1..=5).flat_map(|step| (0..11).map(move |turn| turn * step % 11));
    for (row, point) in steps.chain([0]).enumerate() {
        groups[point] |= 1 << row;
    }
    let calls: Vec<_> = groups.iter().map(|&groups| claim(0, groups, 10)).collect();
    let picture = Picture::of(&load_of(u64::MAX, &calls));
    let colors = picture.colors(9);
    let uses = |color: usize| colors.iter().filter(|&&other| other == color).count();
    assert!((0..9).all(|color| (1..=2).contains(&uses(color))));
    // Eleven are enough, and so are all the more.
    for palette in [11, 12] {
        assert_eq!(clashes(&picture, &picture.colors(palette)), 0);
    }
}

/// Marks are at round numbers, from the one at or below the first time to the
/// one at or above the last.
#[test]
fn the_axis_is_round() {
    let lengths = [
        0, 1, 3, 4, 9, 10, 11, 31, 99, 100, 101, 12_345, 3_600_000, MAX_CLOCK,
    ];
    for from in [0, 1, 7, 99, 12_345, 999_999, MAX_CLOCK - 1, MAX_CLOCK] {
        for to in lengths.map(|length| from + length) {
            let axis = Axis::over(from, to);
            let digits = axis.step.to_string();
            assert!(["1", "2", "5"].contains(&digits.trim_end_matches('0')));
            assert_eq!((axis.first % axis.step, axis.last % axis.step), (0, 0));
            assert!(axis.first <= from && from < axis.first + axis.step);
            assert!(to <= axis.last && axis.last < to.max(from + 4) + axis.step);
            let marks: Vec<u64> = axis.marks().collect();
            assert!((5..=10).contains(&marks.len()));
            assert_eq!((marks[0], marks[marks.len() - 1]), (axis.first, axis.last));
            assert!(marks.windows(2).all(|pair| pair[1] - pair[0] == axis.step));
        }
    }
    let axis = Picture::of(&load_of(0xF, &[claim(0, 1, 31)])).axis();
    assert_eq!((axis.first, axis.step, axis.last), (0, 5, 35));
    // The clock is on it.
    let axis = Picture::of(&load_of(0xF, &[claim(0, 1, 31), clock(90)])).axis();
    assert_eq!(axis.last, 90);
}

/// An element of the file with the attributes that it has or inherits, and the
/// text in it.
struct Element {
    name: String,
    attributes: Vec<(String, String)>,
    text: String,
}

impl Element {
    fn get(&self, name: &str) -> Option<&str> {
        let found = self
            .attributes
            .iter()
            .rev()
            .find(|(other, _)| other == name);
        found.map(|(_, value)| value.as_str())
    }

    fn number(&self, name: &str) -> i64 {
        let value = self.get(name).expect("the attribute is there");
        value.parse().expect("a whole number")
    }
}

/// The elements of a well-formed file.
fn elements(file: &str) -> Vec<Element> {
    let mut elements: Vec<Element> = Vec::new();
    let mut open: Vec<usize> = Vec::new();
    for piece in file.split('<').skip(1) {
        let (tag, text) = piece.split_once('>').expect("a tag ends");
        assert!(!text.contains(['>', '&']));
        if let Some(name) = tag.strip_prefix('/') {
            let ended = open.pop().expect("an element is open");
            assert_eq!(elements[ended].name, name);
            continue;
        }
        assert!(elements.is_empty() || !open.is_empty(), "one root");
        let (tag, empty) = match tag.strip_suffix('/') {
            Some(tag) => (tag, true),
            None => (tag, false),
        };
        let (name, rest) = tag.split_once(' ').unwrap_or((tag, ""));
        let mut attributes = match open.last() {
            Some(&parent) => elements[parent].attributes.clone(),
            None => Vec::new(),
        };
        let mut words = rest.split('"');
        while let (Some(word), Some(value)) = (words.next(), words.next()) {
            let word = word.trim_start().strip_suffix('=').expect("an equals sign");
            attributes.push((word.to_string(), value.to_string()));
        }
        if !empty {
            open.push(elements.len());
        }
        elements.push(Element {
            name: name.to_string(),
            attributes,
            text: text.trim_end().to_string(),
        });
    }
    assert!(open.is_empty());
    elements
}

/// The loads whose pictures are looked at.
fn pictured() -> Vec<Vec<u8>> {
    let mut loads = examples();
    loads.extend(workloads());
    loads.extend((0..200).map(any_load));
    // The greatest clocks, and lengths from least to greatest.
    for (from, length) in [(0, 1), (MAX_CLOCK, 1), (MAX_CLOCK, MAX_LENGTH)] {
        let calls = [draw(from, 0x8, length, 7), draw(from, 0x9, length, 65_535)];
        loads.push(pool_load_of(0xF, 65_535, &calls));
    }
    loads.push(load_of(0xF, &[claim(0, 1, 1), clock(MAX_CLOCK)]));
    loads
}

/// The place of a text: left, right, top and bottom.
fn place(text: &Element) -> [i64; 4] {
    let size = text.number("font-size");
    let width = text_width(&text.text, size as u64) as i64;
    let left = match text.get("text-anchor") {
        Some("middle") => text.number("x") - width / 2,
        Some("end") => text.number("x") - width,
        _ => text.number("x"),
    };
    let bottom = text.number("y");
    [left, left + width, bottom - size * 3 / 4, bottom]
}

#[test]
fn texts_stand_apart_on_the_sheet() {
    for load in pictured() {
        let elements = elements(&svg(&Picture::of(&load)));
        let (width, height) = (elements[0].number("width"), elements[0].number("height"));
        let texts = elements.iter().filter(|element| element.name == "text");
        let mut places: Vec<[i64; 4]> = texts.map(place).collect();
        places.sort_unstable();
        for (index, one) in places.iter().enumerate() {
            assert!(0 <= one[0] && one[1] <= width && 0 <= one[2] && one[3] <= height);
            for other in &places[index + 1..] {
                if other[0] >= one[1] {
                    break;
                }
                assert!(other[3] <= one[2] || one[3] <= other[2]);
            }
        }
    }
}

/// Every label of a bar is inside a bar.
#[test]
fn labels_are_inside_their_bars() {
    for load in pictured() {
        let elements = elements(&svg(&Picture::of(&load)));
        let bars: Vec<[i64; 4]> = elements
            .iter()
            .filter(|element| element.name == "rect" && element.get("fill") != Some("#fff"))
            .map(|bar| {
                let (x, y) = (bar.number("x"), bar.number("y"));
                [x, x + bar.number("width"), y, y + bar.number("height")]
            })
            .collect();
        for text in elements
            .iter()
            .filter(|text| text.get("paint-order").is_some())
        {
            if text.name != "text" {
                continue;
            }
            let [left, right, top, bottom] = place(text);
            let inside = |bar: &[i64; 4]| {
                bar[0] <= left && right <= bar[1] && bar[2] <= top && bottom <= bar[3]
            };
            assert!(bars.iter().any(inside), "{}", text.text);
        }
    }
}

/// How many elements of a name have this text.
fn count(elements: &[Element], name: &str, text: &str) -> usize {
    let same = |element: &&Element| element.name == name && element.text == text;
    elements.iter().filter(same).count()
}

#[test]
fn a_picture_has_clock_marks_pool_and_units() {
    let calls = [draw(0, 0x8, 10, 2), draw(0, 0, 10, 1), clock(12)];
    let load = pool_load_of(0xF, 2, &calls);
    let elements = elements(&svg(&Picture::of(&load)));
    let texts = |text: &str| count(&elements, "text", text);
    assert_eq!(texts("clock 12"), 1);
    assert_eq!(texts("2 units"), 1);
    for mark in ["5", "10", "15", "20", "25"] {
        assert_eq!(texts(mark), 1);
    }
    for group in 0..4 {
        assert_eq!(texts(&format!("group {group}")), 1);
    }
    // In a row and in that of the pool, and in the latter only.
    assert_eq!(texts("1 (2 units)"), 2);
    assert_eq!(texts("2 (1 unit)"), 1);
    let titles = |title: &str| count(&elements, "title", title);
    assert_eq!(
        titles("ticket 1, group 3, 2 units, held, from 0 to 12, promised end 10"),
        2
    );
    assert_eq!(
        titles("ticket 2, no group, 1 unit, waiting, from 12 to 22"),
        1
    );
    // What is past the promised end or waits is marked: a part of ticket 1 twice,
    // ticket 2 once, and a sample of each in the legend.
    let marked = |name: &str, value: &str| {
        let rects = elements.iter().filter(|element| element.name == "rect");
        rects.filter(|rect| rect.get(name) == Some(value)).count()
    };
    assert_eq!(marked("fill", "url(#past)"), 3);
    assert_eq!(marked("stroke-dasharray", "4 2"), 2);

    let elements = self::elements(&svg(&Picture::of(&load_of(0xF, &[claim(0, 0x5, 10)]))));
    assert_eq!(
        count(
            &elements,
            "title",
            "ticket 1, groups 0 2, held, from 0 to 10"
        ),
        1
    );
    assert!(elements
        .iter()
        .all(|element| !element.text.contains("units")));
}

/// A color as an eye sees it (Machado, Oliveira and Fernandes 2009), in L*a*b*.
fn seen(color: Color, eye: [[f64; 3]; 3]) -> [f64; 3] {
    let linear = color.parts().map(|part| {
        let part = f64::from(part) / 255.0;
        if part <= 0.04045 {
            part / 12.92
        } else {
            ((part + 0.055) / 1.055).powf(2.4)
        }
    });
    let times = |matrix: [[f64; 3]; 3], by: [f64; 3]| {
        matrix.map(|row| {
            row.iter()
                .zip(by)
                .map(|(one, other)| one * other)
                .sum::<f64>()
        })
    };
    let light = times(eye, linear).map(|part| part.clamp(0.0, 1.0));
    let [x, y, z] = times(
        [
            [0.4339, 0.3762, 0.1899],
            [0.2126, 0.7152, 0.0722],
            [0.0177, 0.1095, 0.8728],
        ],
        light,
    )
    .map(|part| {
        if part > 0.008856 {
            part.cbrt()
        } else {
            7.787 * part + 16.0 / 116.0
        }
    });
    [116.0 * y - 16.0, 500.0 * (x - y), 200.0 * (y - z)]
}

/// Any two colors of the palette are apart, to a usual eye and to those that lack
/// red, green or blue.
#[test]
fn colors_are_apart_to_every_eye() {
    let eyes = [
        [[1.0, 0.0, 0.0], [0.0, 1.0, 0.0], [0.0, 0.0, 1.0]],
        [
            [0.152286, 1.052583, -0.204868],
            [0.114503, 0.786281, 0.099216],
            [-0.003882, -0.048116, 1.051998],
        ],
        [
            [0.367322, 0.860646, -0.227968],
            [0.280085, 0.672501, 0.047413],
            [-0.011820, 0.042940, 0.968881],
        ],
        [
            [1.255528, -0.076749, -0.178779],
            [-0.078411, 0.930809, 0.147602],
            [0.004733, 0.691367, 0.303900],
        ],
    ];
    for eye in eyes {
        for (index, &one) in PALETTE.iter().enumerate() {
            for &other in &PALETTE[..index] {
                let pairs = seen(one, eye).into_iter().zip(seen(other, eye));
                let apart = pairs.map(|(one, other)| (one - other).powi(2)).sum::<f64>();
                assert!(apart.sqrt() > 15.0, "{one:?} {other:?}");
            }
        }
    }
}
