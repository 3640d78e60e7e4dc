//! The elements of an SVG.

use crate::put;

/// The width of a letter or digit at the size of labels, and the height of a label.
const LETTER: f64 = 7.0;
const LABEL: f64 = 12.0;

const STYLE: &str = "\
text{font:12px Helvetica,Arial,sans-serif;fill:#222}
.title{font-size:16px;font-weight:bold}
.head{font-weight:bold}
.mid{text-anchor:middle}
.end{text-anchor:end}
.small{font-size:11px;fill:#555}
.paper{fill:#fff}
.box{fill:#e8e4da;fill-opacity:.7;stroke:#555}
.before{fill:#f0953e;fill-opacity:.85}
.after{fill:#4c95d6;fill-opacity:.85}
.before.back{fill:url(#before-back)}
.after.back{fill:url(#after-back)}
.fires{fill:#c2185b}
.edge{stroke:#1b7837;stroke-width:2;stroke-dasharray:5 3}
.ruler{stroke:#888}
.rule{stroke:#ddd}
";

/// Stripes for what is pulled back.
const STRIPES: [(&str, &str); 2] = [("before-back", "#c05a00"), ("after-back", "#0d4f8f")];

/// A rectangle: its left upper corner, its width and its height.
#[derive(Clone, Copy)]
pub struct Area {
    pub x: f64,
    pub y: f64,
    pub width: f64,
    pub height: f64,
}

#[derive(Default)]
pub struct Svg {
    body: String,
}

impl Svg {
    /// The whole file, on white paper.
    pub fn file(self, width: f64, height: f64) -> String {
        let mut out = format!(
            "<svg xmlns=\"http://www.w3.org/2000/svg\" width=\"{width}\" height=\"{height}\" \
             viewBox=\"0 0 {width} {height}\">\n<style>\n{STYLE}</style>\n<defs>\n"
        );
        for (id, colour) in STRIPES {
            put(
                &mut out,
                format_args!(
                    "<pattern id=\"{id}\" width=\"5\" height=\"5\" patternUnits=\"userSpaceOnUse\" \
                     patternTransform=\"rotate(45)\"><rect width=\"2\" height=\"5\" fill=\"{colour}\"/></pattern>\n"
                ),
            );
        }
        put(&mut out, format_args!("</defs>\n<rect class=\"paper\" width=\"{width}\" height=\"{height}\"/>\n"));
        out + &self.body + "</svg>\n"
    }

    /// A rectangle, and what a reader is told who points at it.
    pub fn area(&mut self, class: &str, area: Area, told: &str) {
        let Area { x, y, width, height } = area;
        let told = escaped(told);
        put(
            &mut self.body,
            format_args!(
                "<rect class=\"{class}\" x=\"{x:.2}\" y=\"{y:.2}\" width=\"{width:.2}\" height=\"{height:.2}\">\
                 <title>{told}</title></rect>\n"
            ),
        );
    }

    pub fn line(&mut self, class: &str, (x, y): (f64, f64), (to_x, to_y): (f64, f64)) {
        put(
            &mut self.body,
            format_args!("<line class=\"{class}\" x1=\"{x:.2}\" y1=\"{y:.2}\" x2=\"{to_x:.2}\" y2=\"{to_y:.2}\"/>\n"),
        );
    }

    pub fn dot(&mut self, class: &str, x: f64, y: f64) {
        put(&mut self.body, format_args!("<circle class=\"{class}\" cx=\"{x:.2}\" cy=\"{y:.2}\" r=\"3\"/>\n"));
    }

    pub fn text(&mut self, class: &str, x: f64, y: f64, text: &str) {
        let text = escaped(text);
        put(&mut self.body, format_args!("<text class=\"{class}\" x=\"{x:.2}\" y=\"{y:.2}\">{text}</text>\n"));
    }

    /// A label in the middle of a rectangle, upright where there is no room across; none where there is room for neither.
    pub fn label(&mut self, area: Area, text: &str) {
        let (length, x) = (width(text), area.x + area.width / 2.0);
        let y = area.y + area.height / 2.0;
        if length + 2.0 <= area.width {
            self.text("mid", x, y + LABEL / 3.0, text);
        } else if area.width >= LABEL && length <= area.height {
            let x = x + LABEL / 3.0;
            put(
                &mut self.body,
                format_args!(
                    "<text class=\"mid\" transform=\"translate({x:.2} {y:.2}) rotate(-90)\">{}</text>\n",
                    escaped(text)
                ),
            );
        }
    }
}

/// How wide a text is, or a little less.
pub fn width(text: &str) -> f64 {
    LETTER * text.chars().count() as f64
}

fn escaped(text: &str) -> String {
    text.replace('&', "&amp;").replace('<', "&lt;").replace('>', "&gt;")
}
