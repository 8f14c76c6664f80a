//! `docs/bench.svg`: a panel to each call and scheme, instructions against tablets, both in logarithms.
use crate::cases::{Case, Kind, KINDS, SCHEMES, SIZES};
use crate::engine::{Engine, ENGINES};
use crate::results::{of, of_check, Measured};
use crate::table::{grouped, ratio};
use std::fmt::Write;

const LIMIT: u32 = 16;

// A panel's field, and how far it is from one to the next. Four stand beside each other, and the legend stands behind the last.
const WIDTH: f64 = 150.0;
const HEIGHT: f64 = 130.0;
const ACROSS: f64 = 215.0;
const DOWN: f64 = 205.0;
const COLUMNS: usize = 4;
const ROWS: usize = (KINDS.len() + 1).div_ceil(COLUMNS);
const BLOCK: f64 = ROWS as f64 * DOWN + 40.0;

/// Powers of ten at the bottom and the top of a panel.
const LOWEST: f64 = 3.6;
const HIGHEST: f64 = 7.6;

/// Stroke and what else makes each engine's line.
const STYLES: [(&str, &str); 3] =
    [("#1658a0", "stroke-width=\"2.5\""), ("#d9730d", "stroke-width=\"2\" stroke-dasharray=\"5 4\""), ("#777777", "stroke-width=\"2\"")];

fn x(tablets: f64) -> f64 {
    10.0 + (WIDTH - 20.0) * (tablets / 256.0).log2() / 4.0
}

fn y(count: f64) -> f64 {
    HEIGHT * (HIGHEST - count.log10()) / (HIGHEST - LOWEST)
}

fn text(svg: &mut String, x: f64, y: f64, class: &str, words: &str) {
    let _ = writeln!(svg, "<text x=\"{x:.1}\" y=\"{y:.1}\" class=\"{class}\">{words}</text>");
}

fn line(svg: &mut String, points: &[(f64, f64)], colour: &str, style: &str) {
    let points: Vec<String> = points.iter().map(|(x, y)| format!("{x:.1},{y:.1}")).collect();
    let _ = writeln!(svg, "<polyline points=\"{}\" fill=\"none\" stroke=\"{colour}\" {style}/>", points.join(" "));
}

fn dots(svg: &mut String, points: &[(f64, f64)], engine: usize) {
    let (colour, fill) = (STYLES[engine].0, if engine == 1 { "#ffffff" } else { STYLES[engine].0 });
    for (x, y) in points {
        let _ = writeln!(svg, "<circle cx=\"{x:.1}\" cy=\"{y:.1}\" r=\"3.2\" fill=\"{fill}\" stroke=\"{colour}\" stroke-width=\"1.5\"/>");
    }
}

/// Frame, powers of ten and sizes.
fn field(svg: &mut String) {
    for (power, label) in [(4, "10 k"), (5, "100 k"), (6, "1 M"), (7, "10 M")] {
        let at = y(10f64.powi(power));
        line(svg, &[(0.0, at), (WIDTH, at)], "#dddddd", "");
        text(svg, -6.0, at + 4.0, "right", label);
    }
    for (_, tablets) in SIZES {
        let at = x(tablets as f64);
        line(svg, &[(at, 0.0), (at, HEIGHT)], "#dddddd", "");
        text(svg, at, HEIGHT + 16.0, "middle", &grouped(tablets as u64));
    }
}

/// Tablets × log relays, from the library's first point on.
fn guide(first: f64) -> Vec<(f64, f64)> {
    let cost = |(relays, tablets): (usize, usize)| tablets as f64 * (relays as f64).log2();
    SIZES.map(|size| (x(size.1 as f64), y(first * cost(size) / cost(SIZES[0])))).to_vec()
}

const GUIDE: (&str, &str) = ("#222222", "stroke-width=\"1\" stroke-dasharray=\"1 3\"");

fn panel(svg: &mut String, all: &[Measured], scheme: u32, kind: Kind) {
    let results = [0, 1, 2].map(|size| of(all, Case { size, scheme, limit: LIMIT, kind }));
    let largest = results[2];
    let ratios = [largest.instructions.of_plain(), largest.instructions.naive_of(), of_check(all, largest, Engine::Library)].map(ratio);
    text(svg, 0.0, -22.0, "name", kind.name());
    text(svg, WIDTH + 15.0, -22.0, "right", &format!("{} × check", ratios[2]));
    text(svg, 0.0, -7.0, "", &format!("{} × plain, naive {} ×", ratios[0], ratios[1]));
    field(svg);
    line(svg, &guide(results[0].instructions.of(Engine::Library)), GUIDE.0, GUIDE.1);
    for (engine, (colour, style)) in ENGINES.into_iter().zip(STYLES) {
        let points: Vec<(f64, f64)> = SIZES.iter().zip(results).map(|(size, m)| (x(size.1 as f64), y(m.instructions.of(engine)))).collect();
        line(svg, &points, colour, style);
        dots(svg, &points, engine as usize);
    }
}

fn legend(svg: &mut String) {
    for (engine, (colour, style)) in STYLES.into_iter().enumerate() {
        let at = 10.0 + 24.0 * engine as f64;
        line(svg, &[(0.0, at), (36.0, at)], colour, style);
        dots(svg, &[(18.0, at)], engine);
        text(svg, 46.0, at + 4.0, "", ENGINES[engine].name());
    }
    line(svg, &[(0.0, 82.0), (36.0, 82.0)], GUIDE.0, GUIDE.1);
    text(svg, 46.0, 86.0, "", "tablets × log relays");
    text(svg, 0.0, 112.0, "", "across: tablets");
    text(svg, 0.0, 129.0, "", "up: instructions");
}

fn group(svg: &mut String, x: f64, y: f64, draw: impl FnOnce(&mut String)) {
    let _ = writeln!(svg, "<g transform=\"translate({x:.0} {y:.0})\">");
    draw(svg);
    svg.push_str("</g>\n");
}

fn block(svg: &mut String, all: &[Measured], scheme: u32) {
    text(svg, 10.0, 0.0, "head", &format!("Scheme {scheme}: 16 × 256, 64 × 1,024 and 256 × 4,096, limit {LIMIT}; the ratios are the largest ring's"));
    for place in 0..=KINDS.len() {
        let (across, down) = ((place % COLUMNS) as f64, (place / COLUMNS) as f64);
        group(svg, 60.0 + ACROSS * across, 60.0 + DOWN * down, |svg| match KINDS.get(place) {
            Some(&kind) => panel(svg, all, scheme, kind),
            None => legend(svg),
        });
    }
}

pub fn plot(all: &[Measured]) -> String {
    let (width, height) = (COLUMNS as f64 * ACROSS + 30.0, SCHEMES.len() as f64 * BLOCK + 20.0);
    let mut svg =
        format!("<svg xmlns=\"http://www.w3.org/2000/svg\" viewBox=\"0 0 {width:.0} {height:.0}\" width=\"{width:.0}\" height=\"{height:.0}\">\n");
    svg.push_str("<title>Instructions a call, by the size of the ring: the library, plain Rust and the naive engine</title>\n");
    svg.push_str("<style>text { font: 12px sans-serif; fill: #222222 } .head { font-size: 15px; font-weight: bold } .name { font-size: 14px; font-weight: bold } ");
    svg.push_str(".right { text-anchor: end } .middle { text-anchor: middle }</style>\n");
    let _ = writeln!(svg, "<rect width=\"{width:.0}\" height=\"{height:.0}\" fill=\"#ffffff\"/>");
    for (place, scheme) in SCHEMES.into_iter().enumerate() {
        group(&mut svg, 0.0, 30.0 + BLOCK * place as f64, |svg| block(svg, all, scheme));
    }
    svg.push_str("</svg>\n");
    svg
}
