//! The picture of made-up rows, and that all pictures of the repository are well-formed.

use super::{bar, bars, escape, split, Scale};
use crate::measure::Row;
use std::path::{Path, PathBuf};

fn row(name: &str, lower_quartile: f64, median: f64, upper_quartile: f64) -> Row {
    Row {
        name: name.to_string(),
        median,
        lower_quartile,
        upper_quartile,
        fastest: 0.0,
    }
}

fn rows() -> Vec<Row> {
    vec![
        row("check", 9.0, 10.0, 12.5),
        row("parser", 19.0, 20.0, 21.0),
        row("a < b & \"c\"", 0.1, 0.1234, 0.2),
    ]
}

fn scale(end: f64) -> Scale {
    Scale {
        left: 100.0,
        right: 500.0,
        end,
        step: 5.0,
    }
}

fn words(words: &[&str]) -> Vec<String> {
    words.iter().map(|word| word.to_string()).collect()
}

#[test]
fn the_folder_is_taken_out_of_the_arguments() {
    let given = |list: &[&str]| split(words(list).into_iter());
    assert_eq!(given(&["bench"]), (words(&["bench"]), None));
    assert_eq!(given(&["bench", "41"]), (words(&["bench", "41"]), None));
    let folder = Some(PathBuf::from("docs/figures"));
    assert_eq!(
        given(&["bench", "--svg", "docs/figures"]),
        (words(&["bench"]), folder.clone())
    );
    assert_eq!(
        given(&["bench", "--svg", "docs/figures", "41"]),
        (words(&["bench", "41"]), folder.clone())
    );
    assert_eq!(
        given(&["bench", "41", "--svg", "docs/figures"]),
        (words(&["bench", "41"]), folder)
    );
}

#[test]
#[should_panic(expected = "--svg needs a folder")]
fn a_folder_is_needed() {
    split(words(&["bench", "--svg"]).into_iter());
}

#[test]
fn a_scale_ends_at_a_mark() {
    let scales = [
        (20.0, 20.0, 5.0),
        (20.1, 25.0, 5.0),
        (9.7, 10.0, 2.0),
        (0.43, 0.5, 0.1),
        (104.0, 120.0, 20.0),
    ];
    for (most, end, step) in scales {
        let scale = Scale::up_to(most, 100.0, 500.0);
        assert!(
            (scale.end - end).abs() < 1e-9,
            "{most} ends at {}",
            scale.end
        );
        assert!(
            (scale.step - step).abs() < 1e-9,
            "{most} has steps of {}",
            scale.step
        );
    }
    assert!(Scale::up_to(0.0, 100.0, 500.0).end > 0.0);
}

#[test]
fn marks_are_numbered() {
    let grid = |end, step| Scale { step, ..scale(end) }.grid(200.0);
    for mark in [">0<", ">5<", ">10<", ">15<", ">20<"] {
        assert!(grid(20.0, 5.0).contains(mark), "{mark}");
    }
    for mark in [">0.0<", ">0.2<", ">0.4<"] {
        assert!(grid(0.4, 0.2).contains(mark), "{mark}");
    }
}

#[test]
fn a_bar_is_the_median_and_its_whisker_the_quartiles() {
    let drawn = bar(
        &row("check", 9.0, 10.0, 12.5),
        "parser",
        0.5,
        84.0,
        &scale(20.0),
    );
    assert!(
        drawn.contains("<rect x=\"100.0\" y=\"91.0\" width=\"200.0\" height=\"16\""),
        "{drawn}"
    );
    assert!(
        drawn.contains("d=\"M280.0 94V104M350.0 94V104M280.0 99H350.0\""),
        "{drawn}"
    );
}

#[test]
fn a_row_is_labelled_as_in_the_table() {
    let drawn = bar(
        &row("check", 9.0, 12.34567, 12.5),
        "parser",
        0.98765,
        84.0,
        &scale(20.0),
    );
    for label in [">check<", ">12.346<", ">0.988<"] {
        assert!(drawn.contains(label), "{label} in {drawn}");
    }
}

#[test]
fn ratios_are_to_the_base_row() {
    let picture = bars("Times", &rows(), "parser");
    for label in [">/ parser<", ">0.500<", ">1.000<", ">0.006<"] {
        assert!(picture.contains(label), "{label} in {picture}");
    }
}

#[test]
fn every_row_and_nothing_else_has_a_bar() {
    let picture = bars("Times", &rows(), "parser");
    assert_eq!(picture.matches("height=\"16\"").count(), 3);
    assert_eq!(
        bars("Times", &[], "parser")
            .matches("height=\"16\"")
            .count(),
        0
    );
}

#[test]
fn names_are_escaped() {
    assert_eq!(
        escape("a < b & \"c\" > d"),
        "a &lt; b &amp; &quot;c&quot; &gt; d"
    );
    assert!(bars("Times", &rows(), "parser").contains(">a &lt; b &amp; &quot;c&quot;<"));
}

#[test]
fn pictures_are_well_formed() {
    well_formed(&bars("Times & more", &rows(), "parser")).unwrap();
    well_formed(&bars("Times", &[], "parser")).unwrap();
    let figures = Path::new(env!("CARGO_MANIFEST_DIR")).join("../../docs/figures");
    for file in std::fs::read_dir(figures).expect("docs/figures") {
        let file = file.expect("a file of docs/figures").path();
        if file.extension().is_none_or(|extension| extension != "svg") {
            continue;
        }
        let picture = std::fs::read_to_string(&file).expect("a picture is text");
        well_formed(&picture).unwrap_or_else(|fault| panic!("{}: {fault}", file.display()));
    }
}

#[test]
fn ill_formed_pictures_are_found() {
    for wrong in [
        "",
        "words",
        "<a>",
        "<a></b>",
        "<a/><b/>",
        "<a b=c/>",
        "<a b=\"c/>",
        "<a>&</a>",
        "<a b=\"<\"/>",
        "<a><b></a></b>",
    ] {
        assert!(well_formed(wrong).is_err(), "{wrong}");
    }
    for right in [
        "<a/>",
        "<a b=\"c\" d=\"&lt;\"/>",
        "<a>x &amp; y<b></b></a>\n",
    ] {
        well_formed(right).unwrap();
    }
}

/// Whether a text is XML of elements, attributes and words alone, with one element around all.
fn well_formed(text: &str) -> Result<(), String> {
    let mut open: Vec<&str> = Vec::new();
    let mut rest = text.trim();
    let mut begun = false;
    while !rest.is_empty() {
        let Some(inner) = rest.strip_prefix('<') else {
            let end = rest.find('<').unwrap_or(rest.len());
            plain(&rest[..end])?;
            if open.is_empty() {
                return Err(format!("words outside: {}", &rest[..end]));
            }
            rest = &rest[end..];
            continue;
        };
        let (tag, after) = inner.split_once('>').ok_or("a tag has no end")?;
        rest = after;
        if let Some(name) = tag.strip_prefix('/') {
            if open.pop() != Some(name) {
                return Err(format!("</{name}> closes nothing"));
            }
            continue;
        }
        if open.is_empty() && begun {
            return Err(format!("a second element: <{tag}>"));
        }
        begun = true;
        let name = element(tag.strip_suffix('/').unwrap_or(tag))?;
        if !tag.ends_with('/') {
            open.push(name);
        }
    }
    if begun && open.is_empty() {
        Ok(())
    } else {
        Err(format!("left open: {open:?}"))
    }
}

/// The name of an element whose attributes are all in quotes.
fn element(tag: &str) -> Result<&str, String> {
    let (name, mut rest) = tag.split_once(char::is_whitespace).unwrap_or((tag, ""));
    while !rest.trim().is_empty() {
        let (attribute, after) = rest
            .split_once("=\"")
            .ok_or_else(|| format!("an attribute without quotes: {tag}"))?;
        let (value, after) = after
            .split_once('"')
            .ok_or_else(|| format!("a quote is missing: {tag}"))?;
        if !attribute
            .trim()
            .chars()
            .all(|letter| letter.is_ascii_alphanumeric() || "-:".contains(letter))
        {
            return Err(format!("an attribute's name: {attribute}"));
        }
        plain(value)?;
        rest = after;
    }
    if name.is_empty() || !name.chars().all(|letter| letter.is_ascii_alphanumeric()) {
        return Err(format!("an element's name: {tag}"));
    }
    Ok(name)
}

/// Words in which `&` begins one of the five entities, and no tag.
fn plain(words: &str) -> Result<(), String> {
    let entity = |after: &str| {
        ["amp;", "lt;", "gt;", "quot;", "apos;"]
            .iter()
            .any(|entity| after.starts_with(entity))
    };
    if words.contains('<') || words.split('&').skip(1).any(|after| !entity(after)) {
        return Err(format!("words with < or &: {words}"));
    }
    Ok(())
}
