//! Bars side by side, as an SVG picture.
use std::fmt::Write;

pub struct Chart {
    pub title: String,
    /// Under each group of bars.
    pub groups: Vec<String>,
    /// The name of each row of bars, and its height in each group; a height of 0 is left out.
    pub rows: Vec<(String, Vec<f64>)>,
}

const WIDTH: f64 = 760.0;
const HEIGHT: f64 = 260.0;
const LEFT: f64 = 60.0;
const TOP: f64 = 58.0;
const COLORS: [&str; 6] = ["#1b6ca8", "#e08e45", "#6a994e", "#8d6a9f", "#bc4749", "#7f7f7f"];

/// The charts, one below the other.
pub fn picture(charts: &[Chart]) -> String {
    let height = charts.len() as f64 * (HEIGHT + TOP + 50.0);
    let mut out = format!("<svg xmlns=\"http://www.w3.org/2000/svg\" viewBox=\"0 0 {WIDTH} {height}\" font-family=\"sans-serif\" font-size=\"12\">\n");
    out.push_str("<rect width=\"100%\" height=\"100%\" fill=\"white\"/>\n");
    for (i, chart) in charts.iter().enumerate() {
        let down = i as f64 * (HEIGHT + TOP + 50.0);
        let _ = writeln!(out, "<g transform=\"translate(0 {down})\">");
        draw(chart, &mut out);
        out.push_str("</g>\n");
    }
    out.push_str("</svg>\n");
    out
}

/// A round number that is at least as much.
fn round_up(x: f64) -> f64 {
    let power = 10f64.powf(x.max(1e-9).log10().floor());
    [1.0, 1.5, 2.0, 3.0, 4.0, 5.0, 6.0, 8.0, 10.0].into_iter().map(|n| n * power).find(|n| *n >= x).unwrap_or(10.0 * power)
}

fn shown(x: f64) -> String {
    match x {
        x if x >= 1e6 => format!("{:.1}M", x / 1e6),
        x if x >= 1e4 => format!("{:.0}k", x / 1e3),
        x if x >= 1e3 => format!("{:.1}k", x / 1e3),
        x => format!("{x:.0}"),
    }
}

fn draw(chart: &Chart, out: &mut String) {
    let most = round_up(chart.rows.iter().flat_map(|r| r.1.iter().copied()).fold(0.0, f64::max));
    let _ = writeln!(out, "<text x=\"{LEFT}\" y=\"18\" font-size=\"14\" font-weight=\"bold\">{}</text>", chart.title);
    for step in 0..=4 {
        let y = TOP + HEIGHT - HEIGHT * f64::from(step) / 4.0;
        let _ = writeln!(out, "<line x1=\"{LEFT}\" y1=\"{y}\" x2=\"{WIDTH}\" y2=\"{y}\" stroke=\"#ddd\"/>");
        let _ = writeln!(out, "<text x=\"{}\" y=\"{}\" text-anchor=\"end\">{}</text>", LEFT - 6.0, y + 4.0, shown(most * f64::from(step) / 4.0));
    }
    let group = (WIDTH - LEFT) / chart.groups.len() as f64;
    let bar = group * 0.84 / chart.rows.len() as f64;
    for (g, name) in chart.groups.iter().enumerate() {
        let x = LEFT + group * g as f64;
        let _ = writeln!(out, "<text x=\"{}\" y=\"{}\" text-anchor=\"middle\">{name}</text>", x + group / 2.0, TOP + HEIGHT + 18.0);
        for (r, row) in chart.rows.iter().enumerate().filter(|(_, row)| row.1[g] > 0.0) {
            let (x, tall) = (x + group * 0.08 + bar * r as f64, HEIGHT * row.1[g] / most);
            let y = TOP + HEIGHT - tall;
            let _ = writeln!(out, "<rect x=\"{x:.1}\" y=\"{y:.1}\" width=\"{:.1}\" height=\"{tall:.1}\" fill=\"{}\"/>", bar * 0.94, COLORS[r % COLORS.len()]);
            let _ = writeln!(out, "<text x=\"{:.1}\" y=\"{:.1}\" font-size=\"9\" text-anchor=\"middle\">{}</text>", x + bar / 2.0, y - 3.0, shown(row.1[g]));
        }
    }
    let columns = if chart.rows.len() > 5 { 3 } else { chart.rows.len() };
    for (r, row) in chart.rows.iter().enumerate() {
        let x = LEFT + (WIDTH - LEFT) / columns as f64 * (r % columns) as f64;
        let y = 25 + 14 * (r / columns);
        let _ = writeln!(out, "<rect x=\"{x:.1}\" y=\"{y}\" width=\"10\" height=\"10\" fill=\"{}\"/>", COLORS[r % COLORS.len()]);
        let _ = writeln!(out, "<text x=\"{:.1}\" y=\"{}\">{}</text>", x + 14.0, y + 9, row.0);
    }
}
