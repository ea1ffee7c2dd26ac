//! The ratios as bars, in a picture of plain text (SVG).

use crate::timing::Timed;
use crate::work::Group;

const WIDTH: usize = 900;
/// Where bars start, and how long one of ratio 1 is.
const LEFT: usize = 330;
const ONE: f64 = 240.0;
/// A ratio above is drawn as this, with its number.
const MOST: f64 = 2.0;
const LINE: usize = 17;
const HEADING: usize = 34;
const TOP: usize = 70;

/// A bar is green up to its aim and red past it; of an aim of 1.0, red past what noise may add to a time.
const GOOD: &str = "#3a8f5c";
const NOISY: &str = "#c9a13b";
const BAD: &str = "#c0503c";
const NOISE: f64 = 0.05;
/// A row without an aim.
const PLAIN: &str = "#4a78b0";
/// The bar to what stands beside.
const BESIDE: &str = "#8a94a6";

pub fn draw(groups: &[(&Group, Vec<Timed>)]) -> String {
    let mut body = String::new();
    let mut y = TOP;
    for (group, rows) in groups {
        y += HEADING;
        text(&mut body, 16, y - 10, "start", "h", group.title);
        for row in rows {
            text(&mut body, LEFT - 8, y + 12, "end", "", &row.title);
            bar(
                &mut body,
                y + 2,
                12,
                row.ratio(),
                color(row.ratio(), row.aim),
            );
            // Without an aim it says little: a copy does none of the work of short rows.
            if let (Some(ratio), Some(_)) = (row.beside_ratio(), row.beside_aim) {
                y += LINE - 1;
                let to = format!("to {}", group.beside.unwrap_or_default());
                text(&mut body, LEFT - 8, y + 12, "end", "s", &to);
                bar(&mut body, y + 2, 12, ratio, BESIDE);
            }
            y += LINE;
        }
    }
    let height = y + 30;
    let grid = grid(height);
    format!(
        "<svg xmlns=\"http://www.w3.org/2000/svg\" width=\"{WIDTH}\" height=\"{height}\" viewBox=\"0 0 {WIDTH} {height}\">\n\
         <style>text {{ font: 12px sans-serif; fill: #222; stroke: #fff; stroke-width: 3px; paint-order: stroke }} .h {{ font-weight: bold; font-size: 14px }} .t {{ font-weight: bold; font-size: 17px }} .s {{ fill: #666 }}</style>\n\
         <rect width=\"{WIDTH}\" height=\"{height}\" fill=\"#fff\"/>\n\
         {grid}{body}</svg>\n"
    )
}

fn color(ratio: f64, aim: Option<f64>) -> &'static str {
    // As it is shown, to two digits.
    let shown = (ratio * 100.0).round() / 100.0;
    match aim {
        None => PLAIN,
        Some(aim) if shown <= aim => GOOD,
        Some(aim) if aim == 1.0 && shown <= aim + NOISE => NOISY,
        Some(_) => BAD,
    }
}

fn place(ratio: f64) -> f64 {
    LEFT as f64 + ONE * ratio.min(MOST)
}

fn grid(height: usize) -> String {
    let mut out = String::new();
    text(
        &mut out,
        16,
        26,
        "start",
        "t",
        "Time of the proved library, divided by that of the independent one",
    );
    let legend = "green: within its aim; yellow: past 1.0 by 0.05 at most, the noise; red: past its aim; blue: without one; grey: divided by a copy, or by reading and a copy";
    text(&mut out, 16, 46, "start", "s", legend);
    for step in 0..=4 {
        let ratio = f64::from(step) * 0.5;
        let (x, one) = (place(ratio), step == 2);
        let (color, width) = if one { ("#222", 1.5) } else { ("#ddd", 1.0) };
        let (top, bottom) = (TOP + 8, height - 22);
        out.push_str(&format!(
            "<line x1=\"{x}\" y1=\"{top}\" x2=\"{x}\" y2=\"{bottom}\" stroke=\"{color}\" stroke-width=\"{width}\"/>\n"
        ));
        text(
            &mut out,
            x as usize,
            height - 8,
            "middle",
            "s",
            &format!("{ratio:.1}"),
        );
        text(
            &mut out,
            x as usize,
            TOP + 2,
            "middle",
            "s",
            &format!("{ratio:.1}"),
        );
    }
    out
}

fn bar(out: &mut String, y: usize, height: usize, ratio: f64, color: &str) {
    let width = place(ratio) - LEFT as f64;
    out.push_str(&format!(
        "<rect x=\"{LEFT}\" y=\"{y}\" width=\"{width:.1}\" height=\"{height}\" fill=\"{color}\"/>\n"
    ));
    let over = if ratio > MOST { " \u{2192}" } else { "" };
    let x = place(ratio) as usize + 6;
    text(
        out,
        x,
        y + height - 2,
        "start",
        "",
        &format!("{ratio:.2}{over}"),
    );
}

fn text(out: &mut String, x: usize, y: usize, anchor: &str, class: &str, words: &str) {
    let words = words.replace('&', "&amp;").replace('<', "&lt;");
    out.push_str(&format!(
        "<text x=\"{x}\" y=\"{y}\" text-anchor=\"{anchor}\" class=\"{class}\">{words}</text>\n"
    ));
}
