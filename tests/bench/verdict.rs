//! What the rows are held to. A row over its goal has to be explained on the page, up to a ratio that the page states; some limits nothing explains.

use crate::measure::{shown, Times};
use std::collections::BTreeSet;
use std::time::Duration;

/// The calls that there are.
const HEADER: &str = include_str!("../../include/fstf.h");
/// Under this title the page explains rows: their names in bold type, and behind the last of them `(up to 1.6)`, or `(up to 1.6; on x86-64 up to 4.0)`
/// where that processor has a limit of its own.
const TITLE: &str = "\n## Where the library is slower than 1.2 times, and why\n";

#[derive(Clone, Copy)]
pub struct Limit {
    /// Over it the page has to explain the row.
    goal: f64,
    /// Over it the row fails, whatever the page says.
    most: f64,
}

/// A row against the rival.
pub const ROW: Limit = Limit { goal: 1.2, most: f64::INFINITY };
/// What request #114 wants of opening 1 GiB.
pub const FIRST_ROW: Limit = Limit { goal: 1.2, most: 2.0 };
pub const BARE_LOOP: Limit = Limit { goal: 1.5, most: f64::INFINITY };
/// How much longer the worst upload may take than a usual one.
pub const WORST: Limit = Limit { goal: 20.0, most: 20.0 };
/// A look or a commit, whose sheet is chosen against the marks as well, and a file that is refused, beside a usual one that opens.
pub const WORST_SHEET: Limit = Limit { goal: 20.0, most: f64::INFINITY };
pub const WORST_REFUSED: Limit = WORST_SHEET;
/// How much more a unit of a larger input may cost than one of a smaller: twice, or where caches make more than that of it, a quarter more than for the
/// rival.
pub fn growth(rival: f64) -> Limit {
    let most = (1.25 * rival).max(2.0);
    Limit { goal: most, most }
}

struct Held {
    name: String,
    limit: Limit,
    ratio: f64,
}

impl Held {
    /// A ratio counts as it is printed, in hundredths.
    fn new(name: &str, limit: Limit, ratio: f64) -> Held {
        Held { name: name.to_string(), limit, ratio: (ratio * 100.0).round() / 100.0 }
    }
}

/// Where a row fails, it is measured so often at most, and the least times count: what disturbs it, others who fill the caches, comes and goes by seconds.
const TRIES: u32 = 4;
const PAUSE: Duration = Duration::from_secs(1);

pub struct Report {
    /// The rows that the page explains; nothing where there is to be no verdict.
    explained: Option<Vec<Explained>>,
    rows: Vec<Held>,
    called: BTreeSet<String>,
    reasons: Vec<String>,
}

impl Report {
    pub fn new(page: Option<&str>) -> Report {
        Report { explained: page.map(explained), rows: Vec::new(), called: BTreeSet::new(), reasons: Vec::new() }
    }

    /// Whether a row has to be measured once more.
    pub fn again(&self, name: &str, limit: Limit, ratio: f64, tries: u32) -> bool {
        let fails = |explained: &Vec<Explained>| over(&Held::new(name, limit, ratio), explained).is_some();
        let again = tries < TRIES && self.explained.as_ref().map_or(false, fails);
        if again {
            std::thread::sleep(PAUSE);
        }
        again
    }

    /// The times of a row.
    pub fn measured(&self, name: &str, limit: Limit, times: &mut dyn FnMut() -> Times) -> Times {
        let mut least = times();
        let mut tries = 1;
        while self.again(name, limit, least.ratio(), tries) {
            least = least.least(times());
            tries += 1;
        }
        least
    }

    /// Measures a row and prints it. `calls` are the calls that it measures, as include/fstf.h names them, without `fstf_`.
    pub fn row(&mut self, name: &str, calls: &[&str], limit: Limit, times: &mut dyn FnMut() -> Times) {
        let times = self.measured(name, limit, times);
        self.print(name, calls, limit, &times);
    }

    /// Prints a row that was measured.
    pub fn print(&mut self, name: &str, calls: &[&str], limit: Limit, times: &Times) {
        println!("| {} | {} | {} | {:.2} |", name, shown(times.ours), shown(times.theirs), times.ratio());
        self.called.extend(calls.iter().map(|call| call.to_string()));
        self.hold(name, limit, times.ratio());
    }

    /// Holds what was measured to its limit.
    pub fn hold(&mut self, name: &str, limit: Limit, ratio: f64) {
        self.rows.push(Held::new(name, limit, ratio));
    }

    pub fn fail(&mut self, reason: String) {
        self.reasons.push(reason);
    }

    /// Why the run fails: an empty list where it passes, and nothing where there is to be no verdict.
    pub fn verdict(mut self) -> Option<Vec<String>> {
        let explained = self.explained?;
        for row in &self.rows {
            if let Some(why) = over(row, &explained) {
                self.reasons.push(format!("{}: {:.2}, {}", row.name, row.ratio, why));
            }
        }
        for (name, most) in &explained {
            if !self.rows.iter().any(|row| row.name == *name) {
                self.reasons.push(format!("the page explains a row that is not there: {}", name));
            } else if most.is_none() {
                self.reasons.push(format!("the page does not say up to what it explains: {}", name));
            }
        }
        let calls = calls(HEADER);
        let missing = calls.difference(&self.called).map(|call| format!("no row for the call fstf_{}", call));
        let unknown = self.called.difference(&calls).map(|call| format!("a row for fstf_{}, which is no call", call));
        self.reasons.extend(missing.chain(unknown));
        Some(self.reasons)
    }
}

/// What is wrong with a row.
fn over(row: &Held, explained: &[Explained]) -> Option<String> {
    let stated = explained.iter().find(|(name, _)| *name == row.name).and_then(|(_, most)| *most);
    if row.ratio > row.limit.most {
        return Some(format!("over {:.1}, which nothing explains", row.limit.most));
    }
    if row.ratio <= row.limit.goal {
        return None;
    }
    match stated {
        None => Some(format!("over {:.1}, and the page does not explain it", row.limit.goal)),
        Some(most) if row.ratio > most => Some(format!("over {:.2}, up to which the page explains it", most)),
        Some(_) => None,
    }
}

/// A row that the page explains, and the ratio up to which it does, where that is stated.
type Explained = (String, Option<f64>);

/// `**a**, **b** (up to 1.6)` states it for both.
fn explained(page: &str) -> Vec<Explained> {
    let behind = page.split(TITLE).nth(1).unwrap_or("");
    let section = behind.split("\n## ").next().unwrap_or("");
    let text = section.split_whitespace().collect::<Vec<_>>().join(" ");
    let mut found = Vec::new();
    let mut waiting = Vec::new();
    for (number, piece) in text.split("**").enumerate() {
        if number % 2 == 1 {
            waiting.push(piece.to_string());
        } else if !["", ",", "and", ", and"].contains(&piece.trim()) {
            let most = most_stated(piece.trim());
            found.extend(waiting.drain(..).map(|name| (name, most)));
        }
    }
    found.extend(waiting.drain(..).map(|name| (name, None)));
    found
}

fn most_stated(behind: &str) -> Option<f64> {
    let stated = behind.strip_prefix("(up to ")?.split(')').next()?;
    let (most, on_x86) = stated.split_once("; on x86-64 up to ").unwrap_or((stated, stated));
    if cfg!(target_arch = "x86_64") { on_x86 } else { most }.parse().ok()
}

/// The names of the calls that a header declares, without `fstf_`.
fn calls(header: &str) -> BTreeSet<String> {
    let declared = |line: &str| {
        let (_, behind) = line.strip_prefix("Fstf")?.split_once(" fstf_")?;
        Some(behind.split('(').next()?.to_string())
    };
    header.lines().filter_map(declared).collect()
}
