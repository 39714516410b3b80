//! A run as one page for a browser, to step through with the keys. It needs no network.

use crate::history::{Event, History, Kind, Taken};
use crate::json::Value;
use crate::shown::{escaped, named};
use crate::trace::{function_name, said};
use refal0_apart::listing::sentence_line;
use refal0_apart::tree::Table;

const TEMPLATE: &str = include_str!("page.html");

/// So many events are read at a time.
const CHUNK: usize = 500;

/// The page; `closing` says how the run ended, and `whom` who ran it.
pub fn page(title: &str, table: &Table, history: &History, closing: &str, whom: &str) -> String {
    let events: Vec<&Event> = history.events.iter().collect();
    let run = Value::Object(vec![
        ("closing", Value::text(closing)),
        ("whom", Value::text(whom)),
        ("events", Value::index(events.len())),
        ("size", Value::index(CHUNK)),
        ("functions", functions(table)),
        ("record", record(&events)),
    ]);
    let title = title.replace('&', "&amp;").replace('<', "&lt;");
    // the run's own bytes come last, so that nothing in them is taken for a place of the template
    let page = TEMPLATE.replace("@TITLE@", &title);
    let (head, rest) = page.split_once("@RUN@").expect("the template has a place for the run");
    let (middle, tail) = rest.split_once("@CHUNKS@").expect("the template has a place for the events");
    format!("{head}{run}{middle}{}{tail}", chunks(table, &events))
}

fn functions(table: &Table) -> Value {
    Value::list(table.functions.iter().map(|function| {
        let lines = function.sentences.iter().map(|sentence| {
            let line = sentence_line(table, sentence);
            Value::text(String::from_utf8_lossy(&line).trim_end_matches([';', '\n']))
        });
        let name = Value::Text(named(&function.name));
        Value::Object(vec![("name", name), ("sentences", Value::list(lines))])
    }))
}

/// Each line of the record with the event that wrote it.
fn record(events: &[&Event]) -> Value {
    Value::list(events.iter().enumerate().filter_map(|(index, event)| match &event.kind {
        Kind::Emission { line, .. } => Some(Value::list([Value::index(index), Value::text(&escaped(line))])),
        _ => None,
    }))
}

/// The events in pieces, each with the applications that wait at its beginning.
fn chunks(table: &Table, events: &[&Event]) -> String {
    let mut output = String::new();
    let mut stack: Vec<[Option<usize>; 3]> = Vec::new();
    for (number, chunk) in events.chunks(CHUNK).enumerate() {
        let frame =
            |frame: &[Option<usize>; 3]| Value::list(frame.map(|entry| entry.map_or(Value::Null, Value::index)));
        let piece = Value::Object(vec![
            ("stack", Value::list(stack.iter().map(frame))),
            ("events", Value::list(chunk.iter().map(|event| event_value(table, event)))),
        ]);
        output.push_str(&format!("<script type=\"application/json\" id=\"chunk{number}\">{piece}</script>\n"));
        for event in chunk {
            push(&mut stack, event);
        }
    }
    output
}

/// The applications under way after an event: step, function and sentence of each.
fn push(stack: &mut Vec<[Option<usize>; 3]>, event: &Event) {
    let Kind::Application(application) = &event.kind else { return };
    let sentence = match application.taken {
        Taken::By { sentence, .. } => Some(sentence),
        Taken::Recovered(_) | Taken::Not(_) => None,
    };
    stack.truncate(event.waiting);
    stack.push([Some(application.step as usize), Some(application.function), sentence]);
}

fn event_value(table: &Table, event: &Event) -> Value {
    let waiting = ("waiting", Value::index(event.waiting));
    let application = match &event.kind {
        Kind::Application(application) => application,
        Kind::Emission { .. } => {
            let said = Value::text(&said(table, event));
            return Value::Object(vec![("kind", Value::text("emission")), waiting, ("said", said)]);
        }
        Kind::Angles { .. } => {
            let said = Value::text(&said(table, event));
            return Value::Object(vec![("kind", Value::text("angles")), waiting, ("said", said)]);
        }
    };
    let (sentence, text, why) = match &application.taken {
        Taken::By { sentence, pieces, .. } => {
            let pieces = pieces.iter().map(|piece| {
                let variable = piece.variable.as_deref().map_or(Value::Null, Value::text);
                Value::list([variable, Value::text(&piece.text)])
            });
            (Value::index(*sentence), Value::list(pieces), Value::Null)
        }
        Taken::Recovered(by) => {
            let why = format!("no sentence fits, {} is applied", function_name(table, *by));
            (Value::Null, Value::text(&application.text), Value::Text(why))
        }
        Taken::Not(reason) => {
            let reason = reason.as_ref().map_or(String::new(), |reason| format!("; {reason}"));
            (Value::Null, Value::text(&application.text), Value::Text(format!("no sentence fits{reason}")))
        }
    };
    Value::Object(vec![
        ("kind", Value::text("application")),
        waiting,
        ("step", Value::Number(application.step)),
        ("function", Value::index(application.function)),
        ("sentence", sentence),
        ("text", text),
        ("why", why),
    ])
}
