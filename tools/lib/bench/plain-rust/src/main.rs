//! How fast a plain Rust program does the work of the two largest kinds of `tools/bench kinds`, for `docs/MEASURED.md` to compare with.
//!
//! It answers the kinds `huge_image`, `walked_image`, `ignored` and `walked` byte for byte as `dfsolve` does, and knows nothing beyond what
//! these ask: it refuses nothing, runs `put` alone, knows the five forms of line that their ignore file has, and changes one tree in
//! place, so no tree is shared, and no instruction has a result of its own. `tools/bench plain` times it.
//!
//!     cargo run --release < bundle.json
use serde::Deserialize;
use std::borrow::Cow;
use std::collections::{BTreeMap, HashMap, HashSet};
use std::io::{self, BufWriter, Read, Write};
use std::sync::Arc;

#[derive(Deserialize)]
struct Bundle<'a> {
    dockerfile: Dockerfile,
    #[serde(borrow, default)]
    images: BTreeMap<String, Image<'a>>,
    #[serde(borrow, default)]
    context: Vec<Row<'a>>,
}

#[derive(Deserialize)]
struct Dockerfile {
    text: String,
}

#[derive(Deserialize)]
struct Image<'a> {
    #[serde(borrow)]
    tree: Vec<Row<'a>>,
}

#[derive(Deserialize)]
struct Row<'a> {
    #[serde(borrow)]
    path: Cow<'a, str>,
    #[serde(borrow)]
    text: Cow<'a, str>,
}

type Folder = BTreeMap<String, Node>;

enum Node {
    File(Arc<Vec<u8>>),
    Folder(Folder),
}

fn put(folder: &mut Folder, path: &[&str], bytes: Arc<Vec<u8>>) {
    let [name, rest @ ..] = path else { return };
    if rest.is_empty() {
        folder.insert(name.to_string(), Node::File(bytes));
    } else if let Some(Node::Folder(below)) = folder.get_mut(*name) {
        put(below, rest, bytes);
    } else {
        let mut below = Folder::new();
        put(&mut below, rest, bytes);
        folder.insert(name.to_string(), Node::Folder(below));
    }
}

fn components(path: &str) -> Vec<&str> {
    path.split('/').filter(|it| !it.is_empty() && *it != ".").collect()
}

/// The lines of an ignore file by their five forms.
#[derive(Default)]
struct Lines<'a> {
    roots: HashSet<&'a str>,
    beginnings: HashMap<u8, Vec<&'a str>>,
    endings: Vec<&'a str>,
    names: HashSet<&'a str>,
    kept: HashSet<&'a str>,
}

impl<'a> Lines<'a> {
    fn read(text: &'a str) -> Lines<'a> {
        let mut lines = Lines::default();
        for line in text.lines() {
            if let Some(path) = line.strip_prefix('!') {
                lines.kept.insert(path);
            } else if let Some(ending) = line.strip_prefix("**/*") {
                lines.endings.push(ending);
            } else if let Some(name) = line.strip_prefix("**/") {
                lines.names.insert(name);
            } else if let Some(beginning) = line.strip_suffix('*') {
                lines.beginnings.entry(beginning.as_bytes()[0]).or_default().push(beginning);
            } else {
                lines.roots.insert(line);
            }
        }
        lines
    }

    fn keep(&self, path: &str, names: &[&str]) -> bool {
        let first = names[0];
        let begins = |all: &Vec<&str>| all.iter().any(|it| first.starts_with(it));
        let is_left_out = self.roots.contains(first)
            || self.beginnings.get(&first.as_bytes()[0]).is_some_and(begins)
            || names.iter().any(|name| self.names.contains(name) || self.endings.iter().any(|it| name.ends_with(it)));
        !is_left_out || self.kept.contains(&path[1..])
    }
}

fn print(out: &mut impl Write, path: &mut String, node: &Node, is_first: &mut bool) -> io::Result<()> {
    if !*is_first {
        out.write_all(b",")?;
    }
    *is_first = false;
    match node {
        Node::File(bytes) => {
            out.write_all(b"{\"gid\":0,\"hex\":\"")?;
            for byte in bytes.iter() {
                write!(out, "{byte:02x}")?;
            }
            out.write_all(b"\",\"mode\":\"0644\",\"path\":")?;
            serde_json::to_writer(&mut *out, path)?;
            out.write_all(b",\"uid\":0}")
        }
        Node::Folder(below) => {
            out.write_all(b"{\"dir\":true,\"gid\":0,\"mode\":\"0755\",\"path\":")?;
            serde_json::to_writer(&mut *out, if path.is_empty() { "/" } else { path })?;
            out.write_all(b",\"uid\":0}")?;
            for (name, node) in below {
                let length = path.len();
                path.push('/');
                path.push_str(name);
                print(out, path, node, is_first)?;
                path.truncate(length);
            }
            Ok(())
        }
    }
}

fn main() -> io::Result<()> {
    let mut text = Vec::new();
    io::stdin().read_to_end(&mut text)?;
    let bundle: Bundle = serde_json::from_slice(&text)?;
    let lines = Lines::read(bundle.context.first().map_or("", |row| &row.text));
    let (mut root, mut seen) = (Folder::new(), HashSet::new());
    let image = bundle.images.values().flat_map(|image| &image.tree);
    for (row, is_context) in bundle.context.iter().map(|row| (row, true)).chain(image.map(|row| (row, false))) {
        assert!(seen.insert(&row.path), "a path stands there twice");
        let names = components(&row.path);
        if !is_context || lines.keep(&row.path, &names) {
            put(&mut root, &names, Arc::new(row.text.as_bytes().to_vec()));
        }
    }
    for line in bundle.dockerfile.text.lines().filter(|line| line.starts_with("RUN put ")) {
        let words: Vec<&str> = line.split(' ').collect();
        put(&mut root, &components(words[2]), Arc::new(words[3].as_bytes().to_vec()));
    }
    let mut out = BufWriter::with_capacity(65536, io::stdout().lock());
    out.write_all(b"{\"config\":{\"architecture\":\"amd64\",\"config\":{},\"os\":\"linux\",\"rootfs\":{\"diff_ids\":[],\"type\":\"layers\"}},")?;
    out.write_all(b"\"result\":\"built\",\"tree\":[")?;
    print(&mut out, &mut String::new(), &Node::Folder(root), &mut true)?;
    out.write_all(b"]}\n")
}
