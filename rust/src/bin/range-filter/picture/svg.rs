//! The elements of an SVG that a picture is made of, each as a line of text. Positions are pairs of
//! an x and a y.

/// The look of each class: dark on light, or light on dark where the reader prefers that.
pub const STYLE: &str = "\
<style>
  svg { font: 13px ui-monospace, Menlo, Consolas, 'DejaVu Sans Mono', monospace }
  text { fill: #1f2328 }
  .paper { fill: #ffffff }
  .band { fill: #dfe8f5 }
  .bold { font-weight: bold }
  .label { font-weight: bold; text-anchor: middle }
  .head { fill: #57606a; font-size: 11px }
  .middle { text-anchor: middle }
  .end { text-anchor: end }
  .branch { fill: none; stroke: #57606a; stroke-width: 1.5 }
  .leader { fill: none; stroke: #8c959f; stroke-dasharray: 1 4 }
  .node { fill: #ffffff; stroke: #1f2328; stroke-width: 1.5 }
  .exact { fill: #bc4c00; stroke: #1f2328; stroke-width: 1.5 }
  .open { fill: #0969da }
  @media (prefers-color-scheme: dark) {
    text { fill: #e6edf3 }
    .paper { fill: #0d1117 }
    .band { fill: #1d2b42 }
    .head { fill: #9da7b3 }
    .branch { stroke: #9da7b3 }
    .leader { stroke: #6e7681 }
    .node { fill: #0d1117; stroke: #e6edf3 }
    .exact { fill: #f0883e; stroke: #e6edf3 }
    .open { fill: #58a6ff }
  }
</style>";

/// Gives the start of a picture of some size, with its title and a description in words.
pub fn start((width, height): (usize, usize), title: &str, description: &str) -> String {
    let (title, description) = (escape(title), escape(description));
    format!(
        "<svg xmlns=\"http://www.w3.org/2000/svg\" width=\"{width}\" height=\"{height}\" \
         viewBox=\"0 0 {width} {height}\" role=\"img\" aria-labelledby=\"title description\">\n\
         <title id=\"title\">{title}</title>\n\
         <desc id=\"description\">{description}</desc>\n\
         {STYLE}\n\
         <rect class=\"paper\" width=\"{width}\" height=\"{height}\"/>"
    )
}

/// Gives a text at a position.
pub fn text(class: &str, (x, y): (usize, usize), words: &str) -> String {
    let words = escape(words);
    format!("<text class=\"{class}\" x=\"{x}\" y=\"{y}\">{words}</text>")
}

/// Gives a line by the steps of its way.
pub fn path(class: &str, way: &str) -> String {
    format!("<path class=\"{class}\" d=\"{way}\"/>")
}

/// Gives a rectangle by its upper left corner, its width and its height.
pub fn rectangle(class: &str, (x, y): (usize, usize), (width, height): (usize, usize)) -> String {
    format!("<rect class=\"{class}\" x=\"{x}\" y=\"{y}\" width=\"{width}\" height=\"{height}\"/>")
}

/// Gives a circle by its middle.
pub fn circle(class: &str, (x, y): (usize, usize), radius: usize) -> String {
    format!("<circle class=\"{class}\" cx=\"{x}\" cy=\"{y}\" r=\"{radius}\"/>")
}

/// Gives a text as it stands in XML, where control characters may not stand at all.
fn escape(words: &str) -> String {
    let mut text = String::new();
    for character in words.chars() {
        match character {
            '&' => text.push_str("&amp;"),
            '<' => text.push_str("&lt;"),
            '>' => text.push_str("&gt;"),
            _ if character.is_control() => text.push(char::REPLACEMENT_CHARACTER),
            _ => text.push(character),
        }
    }
    text
}
