// Runs one variant of the Rust on a sheet; included once for each variant, which
// the including module names `cascade`.

use crate::sheet::{self, word_of, Sheet};
use crate::Settings;
use cascade::annotations::{AnnotationInfo, Associated, AssociatedResource};
use cascade::ast::{
    Annotation, Annotations, Argument, CascadeString, Declaration, Expression, TypeDecl,
};
use cascade::compile;
use cascade::error::{CascadeErrors, ErrorItem};
use cascade::internal_rep::{TypeInfo, TypeMap, TypeVar};
use codespan_reporting::files::SimpleFile;
use std::collections::{BTreeMap, BTreeSet};

type Extends = BTreeMap<CascadeString, BTreeSet<AnnotationInfo>>;

/// Each occurrence of a name gets a position of its own: its place in `texts`.
#[derive(Default)]
struct Places {
    texts: Vec<String>,
}

impl Places {
    fn put(&mut self, text: &str) -> CascadeString {
        let at = self.texts.len();
        self.texts.push(text.to_string());
        CascadeString::new(text.to_string(), at..at + 1)
    }

    fn put_all(&mut self, texts: &[String]) -> Vec<CascadeString> {
        texts.iter().map(|text| self.put(text)).collect()
    }

    fn associated(&mut self, classes: &[String]) -> Associated {
        Associated {
            resources: classes
                .iter()
                .map(|class| AssociatedResource::from(self.put(class)))
                .collect(),
        }
    }
}

fn annotation_info(given: &sheet::Annotation, places: &mut Places) -> AnnotationInfo {
    match given {
        sheet::Annotation::MakeList => AnnotationInfo::MakeList,
        sheet::Annotation::Associate(classes) => {
            AnnotationInfo::Associate(places.associated(classes))
        }
        sheet::Annotation::NestAssociate(classes) => {
            AnnotationInfo::NestAssociate(places.associated(classes))
        }
        sheet::Annotation::Alias(word) => AnnotationInfo::Alias(places.put(word)),
        sheet::Annotation::Inherit(names) => AnnotationInfo::Inherit(places.put_all(names)),
        sheet::Annotation::Derive(tag) => {
            AnnotationInfo::Derive(vec![Argument::Var(places.put(&tag.to_string()))])
        }
        sheet::Annotation::NoDerive => AnnotationInfo::NoDerive,
    }
}

fn mark(given: &sheet::Mark, places: &mut Places) -> Annotation {
    match given {
        None => Annotation {
            name: places.put("makelist"),
            arguments: Vec::new(),
        },
        Some(tag) => Annotation {
            name: places.put("derive"),
            arguments: vec![Argument::Var(places.put(&tag.to_string()))],
        },
    }
}

/// The type map: keys equal names, no aliases. Each type has a file of its own,
/// named after it, so that an error's file tells its subject.
fn type_map(sheet: &Sheet, places: &mut Places) -> (TypeMap, Extends) {
    let mut types = TypeMap::new();
    for record in &sheet.types {
        let name = places.put(&record.name);
        let inherits = places.put_all(&record.parents);
        let mut annotations = BTreeSet::new();
        for given in &record.annotations {
            annotations.insert(annotation_info(given, places));
        }
        let mut associated_resources = BTreeSet::new();
        for annotation in &annotations {
            if let AnnotationInfo::Associate(a) | AnnotationInfo::NestAssociate(a) = annotation {
                associated_resources.append(&mut a.resources.clone());
            }
        }
        let decl = TypeDecl {
            name: name.clone(),
            inherits: inherits.clone(),
            is_virtual: record.is_virtual,
            is_trait: record.is_trait,
            is_extension: false,
            expressions: Vec::new(),
            annotations: Annotations {
                annotations: record.marks.iter().map(|m| mark(m, places)).collect(),
            },
        };
        let info = TypeInfo {
            name,
            inherits,
            variant: match record.variant {
                0 => TypeVar::Domain,
                1 => TypeVar::Resource,
                _ => TypeVar::Other,
            },
            is_virtual: record.is_virtual,
            is_trait: record.is_trait,
            list_coercion: decl.annotations.has_annotation("makelist"),
            declaration_file: Some(SimpleFile::new(record.name.clone(), String::new())),
            annotations,
            associated_resources,
            decl: Some(decl),
            non_virtual_children: BTreeSet::new(),
        };
        if types.insert(record.name.clone(), info).is_err() {
            panic!("a type twice");
        }
    }
    let mut extends = Extends::new();
    for extension in &sheet.extensions {
        let inherit = AnnotationInfo::Inherit(places.put_all(&extension.parents));
        extends.insert(places.put(&extension.key), BTreeSet::from([inherit]));
    }
    (types, extends)
}

/// One error item as a row: its message tells the kind, its position the name.
fn row(item: ErrorItem, places: &Places) -> String {
    let ErrorItem::Compile(error) = item else {
        return "D internal".to_string();
    };
    let diagnostic = &error.diagnostic.inner;
    let label = &diagnostic.labels[0];
    let subject = match error.files.get(label.file_id) {
        Ok(file) => file.name(),
        Err(_) => panic!("an error without its file"),
    };
    let other = places.texts[label.range.start].as_str();
    match diagnostic.message.as_str() {
        "Inheriting from self is not supported" => format!("D 1 {subject} {other} -"),
        "Cycle detected" => format!("D 2 {subject} {other} -"),
        "Not a valid identifier" => format!("D 3 {subject} {other} -"),
        "unknown resource" => format!("D 4 {subject} {other} {}", word_of(other)),
        "not a resource" => format!("D 5 {subject} {other} {}", word_of(other)),
        "duplicate" => format!("D 6 {subject} - {}", label.message),
        message if message.starts_with("This resource is explicitly associated") => {
            format!("D 6 {subject} - {}", word_of(other))
        }
        message => panic!("unexpected error: {message}"),
    }
}

fn refusal(number: u32, errors: CascadeErrors, places: &Places) -> String {
    let mut out = format!("refused {number}\n");
    for (count, item) in errors.enumerate() {
        if count == 256 {
            out += "more\n";
            break;
        }
        out += &row(item, places);
        out.push('\n');
    }
    out
}

fn mark_text(mark: &Annotation) -> String {
    match mark.arguments.first() {
        Some(Argument::Var(tag)) => format!("{}:{tag}", mark.name),
        _ => mark.name.to_string(),
    }
}

fn words_in(name: &str) -> usize {
    name.split('.').count()
}

fn name_bits(name: &str) -> usize {
    8 * words_in(name) + 1
}

/// An item as its line, with its size in bits.
fn item(expression: &Expression) -> (String, usize) {
    let Expression::Decl(Declaration::Type(decl)) = expression else {
        panic!("an item that is no type");
    };
    let flag = u8::from(decl.is_virtual);
    let annotations = &decl.annotations.annotations;
    if decl.is_extension {
        let [annotation] = annotations.as_slice() else {
            panic!("an extension without its one annotation");
        };
        let [Argument::List(words)] = annotation.arguments.as_slice() else {
            panic!("an extension without its word");
        };
        let line = format!("E {} {flag}{} {}", decl.name, u8::from(decl.is_trait), words[0]);
        return (line, 1 + name_bits(decl.name.as_ref()) + 2 + 8);
    }
    let parents: Vec<&str> = decl.inherits.iter().map(|p| p.as_ref()).collect();
    let marks: Vec<String> = annotations.iter().map(mark_text).collect();
    let shown = if marks.is_empty() {
        "-".to_string()
    } else {
        marks.join(",")
    };
    let line = format!("R {} {flag} {} {shown}", decl.name, parents.join(","));
    let type_words = words_in(decl.name.as_ref()) - 1;
    let bits = 1 + 8 * type_words + 1 + 8 + 1 + 5
        + parents.iter().map(|p| 2 + 8 * words_in(p)).sum::<usize>()
        + 9
        + annotations.iter().map(|m| 1 + 8 * m.arguments.len()).sum::<usize>();
    (line, bits)
}

/// What the programs print for a sheet; the items' lines are sorted.
pub fn run(sheet: &Sheet, settings: &Settings) -> String {
    let mut places = Places::default();
    let (types, extends) = type_map(sheet, &mut places);
    let ordered = match compile::order(&types) {
        Ok(ordered) => ordered,
        Err(errors) => return refusal(8, errors, &places),
    };
    let mut bits = 7;
    let mut out = String::new();
    for info in &ordered {
        bits += name_bits(info.name.as_ref());
        out += &format!("T {}\n", info.name);
    }
    if !settings.order {
        let expressions = match compile::apply_associate_annotations(&types, &extends) {
            Ok(expressions) => expressions,
            Err(errors) => return refusal(9, errors, &places),
        };
        bits += 16;
        let mut lines = Vec::new();
        for expression in &expressions {
            let (line, size) = item(expression);
            lines.push(line);
            bits += size;
        }
        lines.sort();
        for line in lines {
            out += &line;
            out.push('\n');
        }
    }
    if bits.div_ceil(8) > settings.listing {
        return "refused 10\n".to_string();
    }
    out
}
