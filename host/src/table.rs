//! The tables of layers and of alpha channels as another program reads them: CSV, which of layers is
//! the form that `psp compare` reads, and JSON.

use crate::csv;
use crate::heading::TITLES;
use crate::name;

/// A layer as an operator sees it.
#[derive(Clone, Debug, PartialEq, Eq)]
pub struct Layer {
    pub name: Vec<u8>,
    /// Left, top, width, height.
    pub rectangle: [i64; 4],
}

/// What else a program may want to know of a layer.
pub struct Besides {
    pub border: [i64; 4],
    pub visible: bool,
    pub masks: Vec<&'static str>,
}

/// The selection, or an alpha channel, which has a rank and a name.
#[derive(Clone, Debug, PartialEq, Eq)]
pub struct Alpha {
    pub ranked: Option<(u32, Vec<u8>)>,
    /// Left, top, width, height.
    pub rectangle: [i64; 4],
    pub border: [i64; 4],
}

impl Alpha {
    pub fn kind(&self) -> &'static str {
        match self.ranked {
            Some(_) => "alpha",
            None => "selection",
        }
    }
}

/// A heading, and a row a layer; names are the bytes of the file.
pub fn csv(layers: &[Layer]) -> Vec<u8> {
    let mut text = heading(&TITLES);
    for (order, layer) in layers.iter().enumerate() {
        let order = order.to_string();
        text.extend(row(&[order.as_bytes(), &layer.name], &layer.rectangle));
    }
    text
}

/// A heading, and a row each, likewise; what a selection has not is empty.
pub fn alphas_csv(alphas: &[Alpha]) -> Vec<u8> {
    let mut text = heading(&["kind", "rank", "name", "left", "top", "width", "height"]);
    for alpha in alphas {
        let (rank, name) = match &alpha.ranked {
            Some((rank, name)) => (rank.to_string(), name.as_slice()),
            None => Default::default(),
        };
        let fields = [alpha.kind().as_bytes(), rank.as_bytes(), name];
        text.extend(row(&fields, &alpha.rectangle));
    }
    text
}

fn heading(titles: &[&str]) -> Vec<u8> {
    format!("{}\n", titles.join(",")).into_bytes()
}

fn row(fields: &[&[u8]], rectangle: &[i64; 4]) -> Vec<u8> {
    let fields = fields.iter().map(|field| csv::written(field));
    let sides = rectangle.iter().map(|side| side.to_string().into_bytes());
    let mut row = fields.chain(sides).collect::<Vec<_>>().join(&b',');
    row.push(b'\n');
    row
}

/// An array with an object a layer, each on its own line.
pub fn json(layers: &[(Layer, Besides)]) -> String {
    let objects = layers.iter().enumerate();
    array(objects.map(|(order, (layer, besides))| object(order, layer, besides)))
}

fn object(order: usize, layer: &Layer, besides: &Besides) -> String {
    let masks: Vec<String> = besides.masks.iter().map(|mask| string(mask)).collect();
    format!(
        "{{\"order\":{},\"name\":{},{},\"border\":{{{}}},\"visible\":{},\"masks\":[{}]}}",
        order,
        string(&name::decoded(&layer.name)),
        sides(&layer.rectangle),
        sides(&besides.border),
        besides.visible,
        masks.join(",")
    )
}

/// The same with an object each; what a selection has not is null.
pub fn alphas_json(alphas: &[Alpha]) -> String {
    array(alphas.iter().map(alpha_object))
}

fn alpha_object(alpha: &Alpha) -> String {
    let [rank, name] = match &alpha.ranked {
        Some((rank, name)) => [rank.to_string(), string(&name::decoded(name))],
        None => ["null", "null"].map(str::to_string),
    };
    format!(
        "{{\"kind\":{},\"rank\":{},\"name\":{},{},\"border\":{{{}}}}}",
        string(alpha.kind()),
        rank,
        name,
        sides(&alpha.rectangle),
        sides(&alpha.border)
    )
}

fn array(objects: impl Iterator<Item = String>) -> String {
    let lines: Vec<String> = objects.collect();
    match lines.is_empty() {
        true => "[]\n".to_string(),
        false => format!("[\n{}\n]\n", lines.join(",\n")),
    }
}

fn sides(rectangle: &[i64; 4]) -> String {
    let [left, top, width, height] = rectangle;
    format!(
        "\"left\":{},\"top\":{},\"width\":{},\"height\":{}",
        left, top, width, height
    )
}

/// A string of JSON; what a terminal would obey, or an eye not see, is written `\u001B`.
fn string(text: &str) -> String {
    let show = |character: char| match character {
        '"' | '\\' => format!("\\{}", character),
        '\u{A0}' | '\u{AD}' => escape(character),
        _ if character.is_control() => escape(character),
        _ => character.to_string(),
    };
    format!("\"{}\"", text.chars().map(show).collect::<String>())
}

fn escape(character: char) -> String {
    format!("\\u{:04X}", u32::from(character))
}

#[cfg(test)]
mod tests {
    use super::*;

    fn odd() -> Layer {
        Layer {
            name: b"\"a,b\"\n\xE9\x80\x81\\ ".to_vec(),
            rectangle: [-1, 2, 3, 0],
        }
    }

    #[test]
    fn rows_stand_under_a_heading_and_names_are_bytes() {
        let expected =
            b"order,name,left,top,width,height\n0,\"\"\"a,b\"\"\n\xE9\x80\x81\\ \",-1,2,3,0\n";
        assert_eq!(csv(&[odd()]), expected);
    }

    #[test]
    fn json_has_characters_and_escapes() {
        let besides = Besides {
            border: [-1, 2, 4, 5],
            visible: true,
            masks: vec!["transparency", "user"],
        };
        let expected = concat!(
            "[\n",
            r#"{"order":0,"name":"\"a,b\"\u000Aé€\u0081\\ ","left":-1,"top":2,"width":3,"height":0,"#,
            r#""border":{"left":-1,"top":2,"width":4,"height":5},"#,
            r#""visible":true,"masks":["transparency","user"]}"#,
            "\n]\n"
        );
        assert_eq!(json(&[(odd(), besides)]), expected);
    }

    fn alphas() -> [Alpha; 2] {
        let selection = Alpha {
            ranked: None,
            rectangle: [1, 2, 3, 4],
            border: [0, 0, 9, 8],
        };
        let alpha = Alpha {
            ranked: Some((0, odd().name)),
            ..selection.clone()
        };
        [selection, alpha]
    }

    #[test]
    fn a_selection_has_neither_rank_nor_name() {
        let heading = &b"kind,rank,name,left,top,width,height\n"[..];
        let rows = b"selection,,,1,2,3,4\nalpha,0,\"\"\"a,b\"\"\n\xE9\x80\x81\\ \",1,2,3,4\n";
        assert_eq!(alphas_csv(&alphas()), [heading, rows].concat());
        assert_eq!(alphas_csv(&[]), heading);
        let expected = concat!(
            "[\n",
            r#"{"kind":"selection","rank":null,"name":null,"left":1,"top":2,"width":3,"height":4,"#,
            r#""border":{"left":0,"top":0,"width":9,"height":8}},"#,
            "\n",
            r#"{"kind":"alpha","rank":0,"name":"\"a,b\"\u000Aé€\u0081\\ ","left":1,"top":2,"#,
            r#""width":3,"height":4,"border":{"left":0,"top":0,"width":9,"height":8}}"#,
            "\n]\n"
        );
        assert_eq!(alphas_json(&alphas()), expected);
        assert_eq!(alphas_json(&[]), "[]\n");
    }
}
