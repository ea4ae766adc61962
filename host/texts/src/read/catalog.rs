use super::records::{Records, count, name};
use crate::limits::{COLUMNS, TABLES};
use crate::{Column, DataType, Name, Refusal, Table, Text};

/// Reads a catalog: any number of tables.
pub fn read(bytes: &[u8]) -> Result<Vec<Table>, Refusal> {
    let mut records = Records::new(Text::Catalog, bytes);
    let mut tables = Vec::new();
    while !records.at_end() {
        let table = table(&mut records, &tables)?;
        tables.push(table);
    }
    Ok(tables)
}

/// Reads a `table` record and its columns. The key position is compared once the columns are read.
fn table(records: &mut Records, earlier: &[Table]) -> Result<Table, Refusal> {
    let record = records.take()?;
    let (name, key) = head(&record.fields)
        .filter(|(name, _)| earlier.iter().all(|table| table.name != *name))
        .ok_or_else(|| records.wrong(record.line))?;
    records.limit(earlier.len() + 1, TABLES, record.line)?;
    let mut columns = Vec::new();
    while records.stands("column") {
        let column = column(records, columns.len())?;
        columns.push(column);
    }
    if key >= columns.len() {
        return Err(records.wrong(record.line));
    }
    Ok(Table { name, key, columns })
}

fn head(fields: &[&[u8]]) -> Option<(Name, usize)> {
    match fields {
        [b"table", table, key] => Some((name(table)?, count(key)?)),
        _ => None,
    }
}

/// Reads a `column` record and the default behind it.
fn column(records: &mut Records, earlier: usize) -> Result<Column, Refusal> {
    let record = records.take()?;
    let (name, datatype, nullable) = column_head(&record.fields).ok_or_else(|| records.wrong(record.line))?;
    records.limit(earlier + 1, COLUMNS, record.line)?;
    let default = if records.stands("nodefault") {
        records.take_word("nodefault")?;
        None
    } else {
        Some(records.take_literal()?)
    };
    Ok(Column { name, datatype, nullable, default })
}

fn column_head(fields: &[&[u8]]) -> Option<(Name, DataType, bool)> {
    let [b"column", column, datatype, nullable] = fields else {
        return None;
    };
    let nullable = match *nullable {
        b"null" => true,
        b"notnull" => false,
        _ => return None,
    };
    Some((name(column)?, DataType::of(datatype)?, nullable))
}
