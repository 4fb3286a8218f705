//! Track files, as far as the benchmarks' tracks use TOML.

mod lines;

use std::collections::HashMap;

#[derive(Clone, Copy, PartialEq, Eq)]
pub struct Leg {
    pub section: u32,
    pub rising: bool,
}

pub struct Section {
    pub name: String,
    pub length: u32,
    pub speeds: Vec<(u32, i32)>,
    pub grades: Vec<(u32, i32)>,
}

/// A group of a country and a number there.
pub type GroupName = (u32, u32);

pub struct Group {
    pub section: u32,
    pub offset: u32,
    pub rising: bool,
}

pub struct Route {
    pub name: String,
    pub after: Option<Leg>,
    pub legs: Vec<Leg>,
}

/// A track: sections, links, groups and routes in the order of its file.
pub struct Track {
    pub format: u32,
    pub farthest: u32,
    pub speed_steps: usize,
    pub grade_steps: usize,
    pub sections: Vec<Section>,
    pub section_names: HashMap<String, u32>,
    pub links: Vec<(Leg, Leg)>,
    pub groups: HashMap<GroupName, Group>,
    pub group_names: Vec<GroupName>,
    pub routes: Vec<Route>,
    pub route_names: HashMap<String, usize>,
}

type Table<'a> = HashMap<&'a str, &'a str>;

fn text(table: &Table, key: &str) -> Option<String> {
    Some(table.get(key)?.strip_prefix('"')?.strip_suffix('"')?.to_string())
}

fn number(table: &Table, key: &str) -> Option<u32> {
    table.get(key)?.parse().ok()
}

/// `[[0, 160], [300, 120]]`.
fn pairs(table: &Table, key: &str) -> Option<Vec<(u32, i32)>> {
    let inner = table.get(key)?.strip_prefix("[[")?.strip_suffix("]]")?;
    let pair = |pair: &str| {
        let (start, value) = pair.split_once(',')?;
        Some((start.trim().parse().ok()?, value.trim().parse().ok()?))
    };
    let mut rows: Vec<(u32, i32)> = inner.split("], [").map(pair).collect::<Option<_>>()?;
    rows.dedup_by_key(|row| row.1);
    Some(rows)
}

impl Track {
    fn leg(&self, word: &str) -> Option<Leg> {
        let (name, sign) = word.split_at(word.len().checked_sub(1)?);
        let rising = match sign {
            "+" => true,
            "-" => false,
            _ => return None,
        };
        Some(Leg { section: *self.section_names.get(name)?, rising })
    }

    fn add(&mut self, kind: &str, table: &Table) -> Option<()> {
        match kind {
            "" => {
                self.format = number(table, "format")?;
                self.farthest = if self.format == 1 { 32_000 } else { 80_000 };
                self.speed_steps = number(table, "speed_steps").unwrap_or(31) as usize;
                self.grade_steps = number(table, "grade_steps").unwrap_or(31) as usize;
            }
            "section" => {
                let name = text(table, "name")?;
                self.section_names.insert(name.clone(), self.sections.len() as u32);
                let (length, speeds, grades) = (number(table, "length")?, pairs(table, "speeds")?, pairs(table, "grades")?);
                self.sections.push(Section { name, length, speeds, grades });
            }
            "link" => self.links.push((self.leg(&text(table, "from")?)?, self.leg(&text(table, "to")?)?)),
            "group" => {
                let name = (number(table, "country")?, number(table, "number")?);
                let section = *self.section_names.get(&text(table, "section")?)?;
                let group = Group { section, offset: number(table, "offset")?, rising: text(table, "nominal")? == "+" };
                self.group_names.push(name);
                self.groups.insert(name, group);
            }
            "route" => {
                let after = match text(table, "after") {
                    Some(word) => Some(self.leg(&word)?),
                    None => None,
                };
                let list = table.get("legs")?.strip_prefix('[')?.strip_suffix(']')?;
                let legs = list.split(',').map(|word| self.leg(word.trim().trim_matches('"'))).collect::<Option<_>>()?;
                let name = text(table, "name")?;
                self.route_names.insert(name.clone(), self.routes.len());
                self.routes.push(Route { name, after, legs });
            }
            _ => return None,
        }
        Some(())
    }

    pub fn read(text: &str) -> Option<Track> {
        let mut track = Track {
            format: 0,
            farthest: 0,
            speed_steps: 0,
            grade_steps: 0,
            sections: Vec::new(),
            section_names: HashMap::new(),
            links: Vec::new(),
            groups: HashMap::new(),
            group_names: Vec::new(),
            routes: Vec::new(),
            route_names: HashMap::new(),
        };
        let (mut kind, mut table) = ("", Table::new());
        for line in text.lines().map(str::trim).filter(|line| !line.is_empty() && !line.starts_with('#')) {
            if let Some(next) = line.strip_prefix("[[").and_then(|line| line.strip_suffix("]]")) {
                track.add(kind, &table)?;
                (kind, table) = (next, Table::new());
            } else {
                let (key, value) = line.split_once('=')?;
                table.insert(key.trim(), value.trim());
            }
        }
        track.add(kind, &table)?;
        Some(track)
    }

    pub fn metres(&self, leg: Leg) -> u32 {
        self.sections[leg.section as usize].length
    }
}
