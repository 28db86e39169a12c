//! The Rust's own functions on declarations that are told line by line: from the
//! declarations of a policy to the lines of its schedule.
//!
//! `D depth extension virtual trait name parents` is a declaration, at depth 1 in
//! the body of the one before it; `N name arguments` an annotation of it; `.` ends
//! a policy. `-` stands for no parents. The answer is `T`, `R` and `E` lines, or
//! `error` and the step that refuses; `.` ends it.

use cascade_01_rows::annotations::InsertExtendTiming;
use cascade_01_rows::ast::{
    Annotation, Argument, CascadeString, Declaration, Expression, Policy, PolicyFile, TypeDecl,
};
use cascade_01_rows::compile;
use cascade_01_rows::warning::Warnings;
use codespan_reporting::files::SimpleFile;
use std::io::Read;

/// Each occurrence of a name gets a position of its own.
#[derive(Default)]
struct Places(usize);

impl Places {
    fn put(&mut self, text: &str) -> CascadeString {
        self.0 += 1;
        CascadeString::new(text.to_string(), self.0..self.0 + 1)
    }

    fn put_all(&mut self, texts: &str) -> Vec<CascadeString> {
        texts.split(',').map(|text| self.put(text)).collect()
    }
}

fn declaration(fields: &[&str], places: &mut Places) -> TypeDecl {
    let parents = match fields[6] {
        "-" => Vec::new(),
        listed => places.put_all(listed),
    };
    let mut out = TypeDecl::new(places.put(fields[5]), parents, Vec::new());
    out.is_extension = fields[2] == "1";
    out.is_virtual = fields[3] == "1";
    out.is_trait = fields[4] == "1";
    out
}

fn annotation(fields: &[&str], places: &mut Places) -> Annotation {
    let arguments = match fields[1] {
        "associate" => vec![Argument::List(places.put_all(fields[2]))],
        "derive" => vec![Argument::Quote(places.put(fields[2]))],
        "alias" => places.put_all(fields[2]).into_iter().map(Argument::Var).collect(),
        _ => Vec::new(),
    };
    Annotation {
        name: places.put(fields[1]),
        arguments,
    }
}

fn expression(declaration: TypeDecl) -> Expression {
    Expression::Decl(Declaration::Type(Box::new(declaration)))
}

/// The policy of these lines.
fn policy(lines: &[&str]) -> PolicyFile {
    let mut places = Places::default();
    let mut all: Vec<(bool, TypeDecl)> = Vec::new();
    for line in lines {
        let fields: Vec<&str> = line.split(' ').collect();
        if fields[0] == "D" {
            all.push((fields[1] == "1", declaration(&fields, &mut places)));
        } else if let Some((_, last)) = all.last_mut() {
            last.annotations.push(annotation(&fields, &mut places));
        }
    }
    let mut top: Vec<TypeDecl> = Vec::new();
    for (is_nested, one) in all {
        match top.last_mut() {
            Some(outer) if is_nested => outer.expressions.push(expression(one)),
            _ => top.push(one),
        }
    }
    let expressions = top.into_iter().map(expression).collect();
    PolicyFile::new(Policy::new(expressions), SimpleFile::new("policy".into(), String::new()))
}

fn mark(given: &Annotation) -> String {
    match given.arguments.first() {
        Some(Argument::Quote(text)) => format!("{}:{text}", given.name),
        _ => given.name.to_string(),
    }
}

fn item(expression: &Expression) -> String {
    let Expression::Decl(Declaration::Type(made)) = expression else {
        panic!("an item that is no type");
    };
    let (flag, annotations) = (u8::from(made.is_virtual), &made.annotations.annotations);
    if made.is_extension {
        let Argument::List(words) = &annotations[0].arguments[0] else {
            panic!("an extension without its word");
        };
        return format!("E {} {flag}{} {}", made.name, u8::from(made.is_trait), words[0]);
    }
    let parents: Vec<&str> = made.inherits.iter().map(|parent| parent.as_ref()).collect();
    let marks: Vec<String> = annotations.iter().map(mark).collect();
    let marks = if marks.is_empty() { "-".into() } else { marks.join(",") };
    format!("R {} {flag} {} {marks}", made.name, parents.join(","))
}

/// The lines of a policy, the items sorted.
fn answer(lines: &[&str]) -> Vec<String> {
    let Ok(mut types) = compile::get_built_in_types_map() else {
        panic!("no built-in types");
    };
    let extends = match compile::extend_type_map(&policy(lines), &mut types) {
        Ok(found) => found.inner(&mut Warnings::new()),
        Err(_) => return vec!["error map".into()],
    };
    compile::insert_extend_annotations(&mut types, &extends, InsertExtendTiming::Early);
    let mut out: Vec<String> = match compile::order(&types) {
        Ok(ordered) => ordered.iter().map(|info| format!("T {}", info.name)).collect(),
        Err(_) => return vec!["error 8".into()],
    };
    match compile::apply_associate_annotations(&types, &extends) {
        Ok(made) => {
            let mut items: Vec<String> = made.iter().map(item).collect();
            items.sort();
            out.append(&mut items);
        }
        Err(_) => return vec!["error 9".into()],
    }
    out
}

fn main() {
    let mut text = String::new();
    if std::io::stdin().read_to_string(&mut text).is_err() {
        panic!("standard input is no text");
    }
    let mut lines = Vec::new();
    for line in text.lines() {
        if line == "." {
            for told in answer(&lines) {
                println!("{told}");
            }
            println!(".");
            lines.clear();
        } else {
            lines.push(line);
        }
    }
}
