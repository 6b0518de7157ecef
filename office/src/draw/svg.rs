//! Writing plain SVG: shapes and text, no scripts, no fonts from outside.

pub struct Svg {
    text: String,
}

impl Svg {
    pub fn new(width: i64, height: i64, title: &str) -> Svg {
        let text = format!(
            "<?xml version=\"1.0\" encoding=\"UTF-8\"?>\n\
             <svg xmlns=\"http://www.w3.org/2000/svg\" width=\"{width}\" height=\"{height}\" \
             viewBox=\"0 0 {width} {height}\" font-family=\"DejaVu Sans, Arial, sans-serif\">\n\
             <title>{}</title>\n<rect width=\"{width}\" height=\"{height}\" fill=\"white\"/>\n",
            escape(title)
        );
        Svg { text }
    }

    pub fn finish(mut self) -> String {
        self.text.push_str("</svg>\n");
        self.text
    }

    /// Begins a group with a name and a title.
    pub fn open(&mut self, id: &str, title: &str) {
        self.text.push_str(&format!("<g id=\"{}\">\n<title>{}</title>\n", escape(id), escape(title)));
    }

    pub fn close(&mut self) {
        self.text.push_str("</g>\n");
    }

    pub fn line(&mut self, x: i64, y: i64, to_x: i64, to_y: i64, colour: &str, width: i64) {
        self.text.push_str(&format!(
            "<line x1=\"{x}\" y1=\"{y}\" x2=\"{to_x}\" y2=\"{to_y}\" stroke=\"{colour}\" stroke-width=\"{width}\" \
             stroke-linecap=\"round\"/>\n"
        ));
    }

    pub fn circle(&mut self, x: i64, y: i64, radius: i64, fill: &str, colour: &str, width: i64) {
        self.text.push_str(&format!(
            "<circle cx=\"{x}\" cy=\"{y}\" r=\"{radius}\" fill=\"{fill}\" stroke=\"{colour}\" stroke-width=\"{width}\"/>\n"
        ));
    }

    pub fn path(&mut self, path: &str, fill: &str, colour: &str, width: i64) {
        self.text
            .push_str(&format!("<path d=\"{path}\" fill=\"{fill}\" stroke=\"{colour}\" stroke-width=\"{width}\"/>\n"));
    }

    /// Text that begins at x.
    pub fn text(&mut self, x: i64, y: i64, size: i64, colour: &str, weight: &str, words: &str) {
        self.put("start", (x, y), size, colour, weight, words);
    }

    /// Text around x.
    pub fn middle(&mut self, x: i64, y: i64, size: i64, colour: &str, weight: &str, words: &str) {
        self.put("middle", (x, y), size, colour, weight, words);
    }

    fn put(&mut self, anchor: &str, (x, y): (i64, i64), size: i64, colour: &str, weight: &str, words: &str) {
        self.text.push_str(&format!(
            "<text x=\"{x}\" y=\"{y}\" font-size=\"{size}\" font-weight=\"{weight}\" fill=\"{colour}\" \
             text-anchor=\"{anchor}\" xml:space=\"preserve\">{}</text>\n",
            escape(words)
        ));
    }
}

/// Text with the characters that XML keeps for itself written out.
fn escape(text: &str) -> String {
    text.replace('&', "&amp;").replace('<', "&lt;").replace('>', "&gt;").replace('"', "&quot;")
}
