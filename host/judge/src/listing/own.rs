//! A statement's own lines.

use texts::Tree;

use super::cells::Plan;
use super::fields::{Lines, decimal, literal, number, word};

impl Plan {
    /// The statement's own lines, or the last node of a SELECT.
    pub fn statement(&mut self, kind: &str, lines: &mut Lines) -> Result<Tree, String> {
        match kind {
            "select" => {
                let root = self.nodes.len().checked_sub(1).ok_or("a select without a node")?;
                Ok(Tree::list("select", [self.use_node(root.to_string().as_bytes())?]))
            }
            "drop" => match lines.take_word("drop")?.as_slice() {
                [name, if_exists @ (b"yes" | b"no")] => {
                    Ok(Tree::list("drop", [Tree::bytes(*name), Tree::word(word(if_exists)?)]))
                }
                _ => Err("a drop line that is wrong".to_string()),
            },
            "delete" => {
                let parts = self.over_source(&lines.take_word("delete")?)?;
                Ok(Tree::list("delete", parts))
            }
            "insert" => self.insert(lines),
            "update" => {
                let mut parts = self.over_source(&lines.take_word("update")?)?;
                while lines.next < lines.lines.len() {
                    let [position, cell] = lines.take_word("set")?[..] else {
                        return Err("a set line that is wrong".to_string());
                    };
                    parts.push(Tree::list("set", [number(position)?, self.use_cell(cell)?]));
                }
                Ok(Tree::list("update", parts))
            }
            "create" => create(lines),
            _ => Err(format!("a plan of no known kind: {kind}")),
        }
    }

    fn over_source(&mut self, fields: &[&[u8]]) -> Result<Vec<Tree>, String> {
        let [table, key, source] = fields else {
            return Err("a statement's own line that is wrong".to_string());
        };
        Ok(vec![Tree::bytes(*table), number(key)?, self.use_node(source)?])
    }

    fn insert(&mut self, lines: &mut Lines) -> Result<Tree, String> {
        let [table, source] = lines.take_word("insert")?[..] else {
            return Err("an insert line that is wrong".to_string());
        };
        let mut parts = vec![Tree::bytes(table), self.use_node(source)?];
        if lines.next < lines.lines.len() {
            let [count] = lines.take_word("columns")?[..] else {
                return Err("a columns line that is wrong".to_string());
            };
            let mut pairs = Vec::new();
            for value in 0..decimal(word(count)?)? {
                let [column, of] = lines.take_word("map")?[..] else {
                    return Err("a map line that is wrong".to_string());
                };
                if decimal::<usize>(word(of)?)? != value {
                    return Err("a map line out of order".to_string());
                }
                pairs.push(Tree::list("map", [number(column)?, number(of)?]));
            }
            parts.push(Tree::list("columns", pairs));
        }
        Ok(Tree::list("insert", parts))
    }
}

fn create(lines: &mut Lines) -> Result<Tree, String> {
    let [name, key] = lines.take_word("create")?[..] else {
        return Err("a create line that is wrong".to_string());
    };
    let mut parts = vec![Tree::bytes(name), number(key)?];
    while lines.next < lines.lines.len() {
        let fields = lines.take_word("column")?;
        let (fields, reference) = match fields.as_slice() {
            [fields @ .., reference] if fields.len() == 5 => (fields, Some(*reference)),
            fields => (fields, None),
        };
        let [column, rest @ ..] = fields else {
            return Err("a column line that is wrong".to_string());
        };
        let mut column = vec![Tree::bytes(*column)];
        if !matches!(
            rest,
            [b"bool" | b"int" | b"float" | b"text", b"null" | b"notnull", b"unique" | b"-", b"index" | b"-"]
        ) {
            return Err("a column line that is wrong".to_string());
        }
        for field in rest {
            column.push(Tree::word(word(field)?));
        }
        column.extend(reference.map(|name| Tree::list("reference", [Tree::bytes(name)])));
        let default = lines.take()?;
        if default != [b"nodefault"] {
            let value = literal(&default).ok_or("a default that is no literal")?;
            column.push(Tree::list("default", [value]));
        }
        parts.push(Tree::list("column", column));
    }
    Ok(Tree::list("create", parts))
}
