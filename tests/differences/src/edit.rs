//! Seeded faults. A file of edits has lines `file NAME`, then `old`, the old text, `new`, the new text, `end`, as
//! often as there are places to edit. Lines outside of these tell what the fault is, and after `by` which checks must
//! find it.

use std::fs;
use std::path::Path;

struct Edit {
    file: String,
    old: String,
    new: String,
}

fn edits(text: &str) -> Result<Vec<Edit>, String> {
    let mut edits = Vec::new();
    let mut file = None;
    let mut lines = text.lines();
    while let Some(line) = lines.next() {
        if let Some(name) = line.strip_prefix("file ") {
            file = Some(name.to_string());
        } else if line == "old" {
            let file = file.clone().ok_or("an edit before any `file`")?;
            let (old, new) = (until(&mut lines, "new")?, until(&mut lines, "end")?);
            edits.push(Edit { file, old, new });
        }
    }
    Ok(edits)
}

fn until<'a>(lines: &mut impl Iterator<Item = &'a str>, mark: &str) -> Result<String, String> {
    let mut text = Vec::new();
    for line in lines {
        if line == mark {
            return Ok(text.join("\n"));
        }
        text.push(line);
    }
    Err(format!("no `{mark}`"))
}

/// Makes the edits of a file in a folder.
pub fn edit(words: &[String]) -> Result<(), String> {
    let [file, folder] = words else { return Err("edit FILE FOLDER".to_string()) };
    let text = fs::read_to_string(file).map_err(|error| format!("{file}: {error}"))?;
    let edits = edits(&text).map_err(|what| format!("{file}: {what}"))?;
    if edits.is_empty() {
        return Err(format!("{file}: nothing to edit"));
    }
    for Edit { file: name, old, new } in edits {
        let path = Path::new(folder).join(&name);
        let before = fs::read_to_string(&path).map_err(|error| format!("{}: {error}", path.display()))?;
        let times = before.matches(&old).count();
        if times != 1 {
            return Err(format!("{file}: the old text stands {times} times in {name}"));
        }
        fs::write(&path, before.replacen(&old, &new, 1)).map_err(|error| format!("{}: {error}", path.display()))?;
    }
    Ok(())
}
