//! `--csv` and `--json` of `psp layers` and `psp alphas`: their tables for other programs.

use crate::accepted::Input;
use crate::artwork::Artwork;
use crate::asked::Form;
use crate::failure::Failure;
use crate::holder::{Holder, Which};
use crate::name;
use crate::output;
use crate::shape::sides;
use crate::table::{self, Alpha, Besides, Layer};
use std::io::Write;

pub fn layers(input: Input, form: Form) -> Result<(), Failure> {
    let holders = Artwork::accepted(input)?.holders_of(Which::is_layer)?;
    let layers = || holders.iter().map(layer);
    match form {
        Form::Json => {
            let besides: Vec<_> = layers().zip(holders.iter().map(besides)).collect();
            print(table::json(&besides).as_bytes())
        }
        _ => {
            let layers: Vec<Layer> = layers().collect();
            print_csv(&table::csv(&layers), &holders)
        }
    }
}

pub fn alphas(input: Input, form: Form) -> Result<(), Failure> {
    let holders = Artwork::accepted(input)?.holders_of(|which| !which.is_layer())?;
    let alphas: Vec<Alpha> = holders.iter().filter_map(alpha).collect();
    match form {
        Form::Json => print(table::alphas_json(&alphas).as_bytes()),
        _ => print_csv(&table::alphas_csv(&alphas), &holders),
    }
}

/// The layers as they are compared, in file order.
pub fn compared(file: &Artwork) -> Result<Vec<Layer>, Failure> {
    let holders = file.holders_of(Which::is_layer)?;
    Ok(holders.iter().map(layer).collect())
}

/// The selection or an alpha channel, if it is one.
pub fn alpha(holder: &Holder) -> Option<Alpha> {
    let ranked = match (holder.which, &holder.name) {
        (Which::Layer(_), _) => return None,
        (Which::Alpha(rank), Some(name)) => Some((rank, name.clone())),
        _ => None,
    };
    let area = holder.chunk.area(0);
    Some(Alpha {
        ranked,
        rectangle: sides(&area.saved),
        border: sides(&area.border),
    })
}

fn layer(holder: &Holder) -> Layer {
    Layer {
        name: holder.name.clone().unwrap_or_default(),
        rectangle: sides(&holder.chunk.area(0).saved),
    }
}

fn besides(holder: &Holder) -> Besides {
    Besides {
        border: sides(&holder.chunk.area(0).border),
        visible: holder.is_visible(),
        masks: holder.masks().unwrap_or_default(),
    }
}

/// Prints names as their bytes, unless standard output is a terminal that would obey one.
fn print_csv(text: &[u8], holders: &[Holder]) -> Result<(), Failure> {
    let mut names = holders.iter().flat_map(|holder| &holder.name).flatten();
    if names.any(|&byte| name::moves_terminal(byte)) && output::is_terminal("/dev/stdout") {
        let why = "a name has bytes that a terminal obeys: write the table to a file";
        return Err(Failure::Use(why.to_string()));
    }
    print(text)
}

fn print(text: &[u8]) -> Result<(), Failure> {
    let mut out = output::standard();
    out.write_all(text)?;
    out.flush()?;
    Ok(())
}
