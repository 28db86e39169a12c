// Intersection and difference alone; included after run.rs.

/// The annotation of a text such as `associate file net.file`; a word given
/// several doms gets them by the Rust's own intersection.
fn annotation_of(text: &str) -> Option<AnnotationInfo> {
    let mut tokens = text.split_whitespace();
    let kind = tokens.next()?;
    let rest: Vec<String> = tokens.map(|t| t.to_string()).collect();
    let mut places = Places::default();
    let mut associated = || {
        let mut by_word: BTreeMap<String, AnnotationInfo> = BTreeMap::new();
        for class in &rest {
            let one = AnnotationInfo::Associate(places.associated(&[class.clone()]));
            let word = word_of(class).to_string();
            let joined = match by_word.get(&word) {
                Some(before) => before.intersection(&one)?,
                None => one,
            };
            by_word.insert(word, joined);
        }
        let mut resources = BTreeSet::new();
        for joined in by_word.into_values() {
            if let AnnotationInfo::Associate(mut a) = joined {
                resources.append(&mut a.resources);
            }
        }
        Some(Associated { resources })
    };
    Some(match kind {
        "makelist" => AnnotationInfo::MakeList,
        "associate" => AnnotationInfo::Associate(associated()?),
        "nest" => AnnotationInfo::NestAssociate(associated()?),
        "alias" => AnnotationInfo::Alias(places.put(rest.first()?)),
        "inherit" => AnnotationInfo::Inherit(places.put_all(&rest)),
        "derive" => AnnotationInfo::Derive(vec![Argument::Var(places.put(rest.first()?))]),
        "noderive" => AnnotationInfo::NoDerive,
        _ => return None,
    })
}

fn annotation_text(annotation: Option<AnnotationInfo>) -> String {
    fn classes(head: &str, associated: &Associated) -> String {
        let mut out = head.to_string();
        for resource in &associated.resources {
            for class in resource.get_class_names() {
                out += " ";
                out += &class;
            }
        }
        out
    }
    match annotation {
        None => "none".to_string(),
        Some(AnnotationInfo::MakeList) => "makelist".to_string(),
        Some(AnnotationInfo::Associate(a)) => classes("associate", &a),
        Some(AnnotationInfo::NestAssociate(a)) => classes("nest", &a),
        Some(AnnotationInfo::Alias(word)) => format!("alias {word}"),
        Some(AnnotationInfo::Inherit(names)) => names
            .iter()
            .fold("inherit".to_string(), |out, name| format!("{out} {name}")),
        Some(AnnotationInfo::Derive(arguments)) => match arguments.first() {
            Some(Argument::Var(tag)) => format!("derive {tag}"),
            _ => "derive".to_string(),
        },
        Some(AnnotationInfo::NoDerive) => "noderive".to_string(),
    }
}

/// `LEFT | RIGHT` to `INTERSECTION | DIFFERENCE`.
pub fn pair(line: &str) -> Option<String> {
    let (left, right) = line.split_once('|')?;
    let (left, right) = (annotation_of(left)?, annotation_of(right)?);
    Some(format!(
        "{} | {}",
        annotation_text(left.intersection(&right)),
        annotation_text(left.difference(&right))
    ))
}
