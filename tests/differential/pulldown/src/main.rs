//! Prints the events of pulldown-cmark 0.9.2 on the page that standard input has, a line for each, as fillaqut events prints its own.
use pulldown_cmark::{CodeBlockKind, Event, LinkType, Options, Parser, Tag};
use std::fmt::Write;
use std::io::Read;
use std::process::ExitCode;

/// The bytes of a text, each as the character of its number in the text of a JSON string.
fn quoted(text: &str) -> String {
    let mut line = String::from(" \"");
    for byte in text.bytes() {
        match byte {
            b'"' | b'\\' => write!(line, "\\u00{byte:02x}").unwrap(),
            b' '..=b'~' => line.push(char::from(byte)),
            _ => write!(line, "\\u00{byte:02x}").unwrap(),
        }
    }
    line.push('"');
    line
}

fn link_word(kind: LinkType) -> &'static str {
    match kind {
        LinkType::Inline => "inline",
        LinkType::Reference => "reference",
        LinkType::ReferenceUnknown => "unknown reference",
        LinkType::Collapsed => "collapsed",
        LinkType::CollapsedUnknown => "unknown collapsed",
        LinkType::Shortcut => "shortcut",
        LinkType::ShortcutUnknown => "unknown shortcut",
        LinkType::Autolink => "autolink",
        LinkType::Email => "email",
    }
}

/// The name of an element, and what its start and its end say of it.
fn element(tag: &Tag) -> String {
    let name = match tag {
        Tag::Paragraph => "paragraph",
        Tag::Heading(level, ..) => return format!("heading {}", *level as usize),
        Tag::BlockQuote => "block quote",
        Tag::CodeBlock(_) => "code block",
        Tag::List(_) => "list",
        Tag::Item => "item",
        Tag::FootnoteDefinition(_) => "footnote definition",
        Tag::Table(_) => "table",
        Tag::TableHead => "table head",
        Tag::TableRow => "table row",
        Tag::TableCell => "table cell",
        Tag::Emphasis => "emphasis",
        Tag::Strong => "strong",
        Tag::Strikethrough => "strikethrough",
        Tag::Link(..) => "link",
        Tag::Image(..) => "image",
    };
    name.to_string()
}

/// What its start says besides.
fn held(tag: &Tag) -> String {
    match tag {
        Tag::Heading(_, id, classes) => {
            let id = id.map_or(String::new(), |id| format!(" id{}", quoted(id)));
            let classes = classes.iter().map(|class| format!(" class{}", quoted(class)));
            id + &classes.collect::<String>()
        }
        Tag::CodeBlock(CodeBlockKind::Fenced(info)) => quoted(info),
        Tag::List(Some(number)) => format!(" {number}"),
        Tag::FootnoteDefinition(label) => quoted(label),
        Tag::Table(columns) => columns.iter().map(|it| format!(" {it:?}").to_lowercase()).collect(),
        Tag::Link(kind, destination, title) | Tag::Image(kind, destination, title) => {
            format!(" {}{}{}", link_word(*kind), quoted(destination), quoted(title))
        }
        _ => String::new(),
    }
}

fn words(event: &Event) -> String {
    match event {
        Event::Start(tag) => format!("start {}{}", element(tag), held(tag)),
        Event::End(tag) => format!("end {}", element(tag)),
        Event::Text(text) => format!("text{}", quoted(text)),
        Event::Code(text) => format!("code{}", quoted(text)),
        Event::Html(text) => format!("html{}", quoted(text)),
        Event::FootnoteReference(label) => format!("footnote reference{}", quoted(label)),
        Event::SoftBreak => "soft break".to_string(),
        Event::HardBreak => "hard break".to_string(),
        Event::Rule => "rule".to_string(),
        Event::TaskListMarker(true) => "checked task".to_string(),
        Event::TaskListMarker(false) => "unchecked task".to_string(),
    }
}

fn options(words: impl Iterator<Item = String>) -> Option<Options> {
    let mut options = Options::empty();
    for word in words {
        options |= match word.as_str() {
            "--tables" => Options::ENABLE_TABLES,
            "--footnotes" => Options::ENABLE_FOOTNOTES,
            "--strikethrough" => Options::ENABLE_STRIKETHROUGH,
            "--tasks" => Options::ENABLE_TASKLISTS,
            _ => return None,
        };
    }
    Some(options)
}

fn main() -> ExitCode {
    let Some(options) = options(std::env::args().skip(1)) else {
        eprintln!("usage: pulldown-events [--tables] [--footnotes] [--strikethrough] [--tasks]");
        return ExitCode::from(2);
    };
    let mut page = Vec::new();
    if std::io::stdin().read_to_end(&mut page).is_err() {
        return ExitCode::FAILURE;
    }
    let Ok(page) = String::from_utf8(page) else {
        println!("not UTF-8");
        return ExitCode::SUCCESS;
    };
    let mut text = String::new();
    for (event, range) in Parser::new_ext(&page, options).into_offset_iter() {
        writeln!(text, "{} {} {}", range.start, range.end, words(&event)).unwrap();
    }
    print!("{text}");
    ExitCode::SUCCESS
}
