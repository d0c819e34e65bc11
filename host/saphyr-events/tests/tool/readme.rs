//! The page of the crate shows commands and what they print; each is run.
use crate::call::tool;
use std::fs;
use std::path::Path;

/// The commands of a page, each with the lines below it. A block is indented by four.
fn shown(page: &str) -> Vec<(String, String)> {
    let mut commands: Vec<(String, String)> = Vec::new();
    let mut inside = false;
    for line in page.lines() {
        let block = line.strip_prefix("    ");
        match block.map(|line| (line, line.strip_prefix("$ saphyr-events "))) {
            Some((_, Some(words))) => commands.push((words.to_owned(), String::new())),
            Some((line, None)) if inside => {
                let (_, lines) = commands.last_mut().expect("inside of one");
                *lines += &format!("{line}\n");
            }
            _ => {}
        }
        inside = block.is_some_and(|line| inside || line.starts_with("$ "));
    }
    commands
}

#[test]
fn the_page_shows_what_is_printed() {
    let page = Path::new(env!("CARGO_MANIFEST_DIR")).join("README.md");
    let commands = shown(&fs::read_to_string(page).expect("the page"));
    assert_eq!(commands.len(), 4);
    for (words, lines) in commands {
        let given = tool(&words.split(' ').collect::<Vec<_>>());
        assert_eq!(given.out + &given.err, lines, "{words}");
    }
}
