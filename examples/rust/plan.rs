//! Reads a plan, or its sheet if the file's name ends with .sheet. Without a label the table is checked, written back and compared with the
//! file; with one, the objects that have it for their description are listed, each with the groups around it, of a path its box, and of a
//! text what is shown: plan FILE [LABEL]. Or the table is stored as a sheet, to be read from then on without parsing the plan again:
//! plan store FILE SHEET.

use jdr::{Extent, Kind, Object, Refused, Table};
use std::ffi::OsStr;
use std::process::ExitCode;

/// What a file holds, with the library's calls for it and their names.
struct Form {
    read: fn(&[u8]) -> Result<Table, Refused>,
    read_name: &'static str,
    write: fn(&Table) -> Vec<u8>,
    write_name: &'static str,
}

const PLAN: Form = Form { read: Table::read, read_name: "read", write: Table::write, write_name: "write" };

const SHEET: Form = Form {
    read: Table::read_sheet,
    read_name: "sheet_read",
    write: Table::write_sheet,
    write_name: "sheet_write",
};

fn counts(table: &Table) -> String {
    format!("{} {}", table.objects().len(), table.view().bodies().len())
}

fn read_table(form: &Form, file: &[u8]) -> Option<Table> {
    match (form.read)(file) {
        Ok(table) => {
            println!("{}: 0 {} {}", form.read_name, file.len(), counts(&table));
            Some(table)
        }
        Err(refused) => {
            println!("{}: {} {} 0 0", form.read_name, refused.number(), refused.offset);
            None
        }
    }
}

/// Whether the table is written as long as the file that it was read from; a plan's true flags are written as 1, whatever they were.
fn comes_back(table: &Table, form: &Form, file: &[u8]) -> bool {
    let counts = counts(table);
    println!("check: 0 {} {counts}", table.view().file_len());
    let copy = (form.write)(table);
    println!("{}: 0 {} {counts}", form.write_name, copy.len());
    println!("{}", if copy == file { "the same file" } else { "the file with each true flag made 1" });
    copy.len() == file.len()
}

fn store(table: &Table, name: &OsStr) -> Result<bool, &'static str> {
    let sheet = table.write_sheet();
    println!("sheet_write: 0 {} {}", sheet.len(), counts(table));
    std::fs::write(name, sheet).map_err(|_| "the sheet cannot be written")?;
    Ok(true)
}

fn kind_name(kind: Kind) -> &'static str {
    match kind {
        Kind::Group => "group",
        Kind::Path => "path",
        Kind::Text => "text",
        Kind::Bitmap => "bitmap",
        Kind::TextPath => "textpath",
    }
}

/// An object with its kind, the rows of the groups around it, the box around a path, and what is shown of a text.
fn print_object(object: Object) {
    print!("row {} {} inside", object.row(), kind_name(object.kind()));
    object.groups().for_each(|group| print!(" {}", group.row()));
    if object.parent().is_none() {
        print!(" no group");
    }
    match object.extent() {
        Ok(Some(Extent { left, bottom, right, top })) => {
            print!(" box {left:.2} {bottom:.2} {right:.2} {top:.2}")
        }
        Ok(None) => (),
        Err(_) => print!(" box not a number"),
    }
    if let Some(text) = object.text() {
        print!(" shows {}", text.shown());
    }
    println!();
}

fn list_label(table: &Table, label: &str) -> bool {
    let found = table.find(label);
    println!("list: 0 0 {} 0", found.len());
    found.for_each(print_object);
    true
}

/// What is done with the table.
enum Task<'a> {
    ComeBack,
    List(&'a str),
    Store(&'a OsStr),
}

/// Whether all went well; a message where the command line is at fault.
fn run() -> Result<bool, &'static str> {
    let arguments: Vec<_> = std::env::args_os().skip(1).collect();
    let (name, task) = match &arguments[..] {
        [name] => (name, Task::ComeBack),
        [name, label] => (name, Task::List(label.to_str().ok_or("the label is not UTF-8")?)),
        [store, name, sheet] if store == "store" => (name, Task::Store(sheet)),
        _ => return Err("usage: plan FILE [LABEL], or plan store FILE SHEET"),
    };
    let file = std::fs::read(name).map_err(|_| "the file cannot be read")?;
    let form = if name.as_encoded_bytes().ends_with(b".sheet") { SHEET } else { PLAN };
    let Some(table) = read_table(&form, &file) else {
        return Ok(false);
    };
    match task {
        Task::ComeBack => Ok(comes_back(&table, &form, &file)),
        Task::List(label) => Ok(list_label(&table, label)),
        Task::Store(sheet) => store(&table, sheet),
    }
}

fn main() -> ExitCode {
    match run() {
        Ok(done) => ExitCode::from(u8::from(!done)),
        Err(message) => {
            eprintln!("{message}");
            ExitCode::from(2)
        }
    }
}
