//! The elements of a plain SVG 1.1 file: whole numbers only, so that it is the same everywhere, and all text escaped.

pub const BLACK: &str = "#000";
pub const GREY: &str = "#666";
pub const PALE: &str = "#ddd";
pub const FAINT: &str = "#eee";
pub const WHITE: &str = "#fff";
/// For conflicts and breaches alone; each is told by a word and a shape too.
pub const RED: &str = "#c00";

/// The hatchings, by their names in `fill="url(#NAME)"`: a path in a square of 6.
const HATCHINGS: [(&str, &str); 3] = [
    ("rising", "M-1,1 L1,-1 M0,6 L6,0 M5,7 L7,5"),
    ("falling", "M-1,5 L1,7 M0,0 L6,6 M5,-1 L7,1"),
    ("level", "M0,3 L6,3"),
];

/// How a line or an outline is drawn.
#[derive(Clone, Copy)]
pub struct Pen {
    pub colour: &'static str,
    pub width: i32,
    /// The lengths of dashes and gaps; none is unbroken.
    pub dashes: &'static str,
}

pub const fn pen(colour: &'static str, width: i32) -> Pen {
    let dashes = "";
    Pen { colour, width, dashes }
}

pub const fn dashed(colour: &'static str, width: i32, dashes: &'static str) -> Pen {
    Pen { colour, width, dashes }
}

impl Pen {
    fn attributes(self) -> String {
        let Pen { colour, width, dashes } = self;
        let dash = match dashes {
            "" => String::new(),
            _ => format!(" stroke-dasharray=\"{dashes}\""),
        };
        format!("stroke=\"{colour}\" stroke-width=\"{width}\"{dash}")
    }
}

/// How text is written.
#[derive(Clone, Copy)]
pub struct Type {
    pub size: i32,
    pub bold: bool,
    pub colour: &'static str,
}

pub const fn regular(size: i32, colour: &'static str) -> Type {
    let bold = false;
    Type { size, bold, colour }
}

pub const fn bold(size: i32, colour: &'static str) -> Type {
    let bold = true;
    Type { size, bold, colour }
}

/// The elements drawn so far.
#[derive(Default)]
pub struct Svg {
    body: String,
}

impl Svg {
    /// A rectangle; a fill of a hatching is `url(#NAME)`.
    pub fn rect(&mut self, (x, y): (i32, i32), (width, height): (i32, i32), fill: &str, outline: Option<Pen>) {
        let outline = outline.map_or(String::new(), |pen| format!(" {}", pen.attributes()));
        self.put(&format!(
            "<rect x=\"{x}\" y=\"{y}\" width=\"{width}\" height=\"{height}\" fill=\"{fill}\"{outline}/>"
        ));
    }

    pub fn line(&mut self, (x1, y1): (i32, i32), (x2, y2): (i32, i32), pen: Pen) {
        let pen = pen.attributes();
        self.put(&format!("<line x1=\"{x1}\" y1=\"{y1}\" x2=\"{x2}\" y2=\"{y2}\" {pen}/>"));
    }

    /// A line through all these points.
    pub fn course(&mut self, points: &[(i32, i32)], pen: Pen) {
        let (points, pen) = (listed(points), pen.attributes());
        self.put(&format!("<polyline points=\"{points}\" fill=\"none\" {pen}/>"));
    }

    pub fn shape(&mut self, points: &[(i32, i32)], fill: &str, pen: Pen) {
        let (points, pen) = (listed(points), pen.attributes());
        self.put(&format!("<polygon points=\"{points}\" fill=\"{fill}\" {pen}/>"));
    }

    pub fn circle(&mut self, (x, y): (i32, i32), radius: i32, fill: &str, pen: Pen) {
        let pen = pen.attributes();
        self.put(&format!(
            "<circle cx=\"{x}\" cy=\"{y}\" r=\"{radius}\" fill=\"{fill}\" {pen}/>"
        ));
    }

    /// Two strokes through each other.
    pub fn cross(&mut self, (x, y): (i32, i32), half: i32, pen: Pen) {
        self.line((x - half, y - half), (x + half, y + half), pen);
        self.line((x - half, y + half), (x + half, y - half), pen);
    }

    /// A line of text from `x` on; `y` is where the letters stand.
    pub fn text(&mut self, (x, y): (i32, i32), letters: Type, text: &str) {
        let Type { size, bold, colour } = letters;
        let weight = if bold { " font-weight=\"bold\"" } else { "" };
        let text = escape(text);
        self.put(&format!(
            "<text x=\"{x}\" y=\"{y}\" font-size=\"{size}\"{weight} fill=\"{colour}\">{text}</text>"
        ));
    }

    /// What is drawn inside shows these words when pointed at.
    pub fn titled(&mut self, title: &str, inside: impl FnOnce(&mut Svg)) {
        self.put(&format!("<g><title>{}</title>", escape(title)));
        inside(self);
        self.put("</g>");
    }

    fn put(&mut self, element: &str) {
        self.body.push_str(element);
        self.body.push('\n');
    }

    /// The whole file, on a white ground.
    pub fn page(self, width: i32, height: i32, title: &str) -> String {
        let title = escape(title);
        let hatchings: String = HATCHINGS.iter().map(hatching).collect();
        format!(
            "<?xml version=\"1.0\" encoding=\"UTF-8\"?>\n\
             <svg xmlns=\"http://www.w3.org/2000/svg\" version=\"1.1\" width=\"{width}\" height=\"{height}\" \
             viewBox=\"0 0 {width} {height}\" font-family=\"monospace\">\n\
             <title>{title}</title>\n<defs>\n{hatchings}</defs>\n\
             <rect x=\"0\" y=\"0\" width=\"{width}\" height=\"{height}\" fill=\"#fff\"/>\n{}</svg>\n",
            self.body
        )
    }
}

fn hatching((name, path): &(&str, &str)) -> String {
    format!(
        "<pattern id=\"{name}\" patternUnits=\"userSpaceOnUse\" width=\"6\" height=\"6\">\
         <path d=\"{path}\" fill=\"none\" stroke=\"{BLACK}\" stroke-width=\"1\"/></pattern>\n"
    )
}

fn listed(points: &[(i32, i32)]) -> String {
    let points: Vec<String> = points.iter().map(|(x, y)| format!("{x},{y}")).collect();
    points.join(" ")
}

/// Text as XML has it. What no XML file may hold becomes the sign for a character that cannot be shown.
pub fn escape(text: &str) -> String {
    let mut escaped = String::with_capacity(text.len());
    for letter in text.chars() {
        match letter {
            '&' => escaped.push_str("&amp;"),
            '<' => escaped.push_str("&lt;"),
            '>' => escaped.push_str("&gt;"),
            '"' => escaped.push_str("&quot;"),
            '\'' => escaped.push_str("&apos;"),
            '\t' | '\n' | '\r' => escaped.push(' '),
            '\u{fffe}' | '\u{ffff}' => escaped.push('\u{fffd}'),
            _ if letter.is_control() => escaped.push('\u{fffd}'),
            _ => escaped.push(letter),
        }
    }
    escaped
}
