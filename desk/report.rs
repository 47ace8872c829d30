//! What a command answers: a page for people, JSON for tools, and the exit status.

use crate::json::Json;
use crate::page::{Page, Style};

/// The exit statuses, from the best to the worst: of several answers the worst counts.
#[derive(Clone, Copy, Debug, PartialEq, Eq, PartialOrd, Ord)]
pub enum Status {
    Accepted = 0,
    Refused = 1,
    Misuse = 2,
    Disagreement = 3,
}

pub struct Report {
    pub page: Page,
    pub json: Json,
    pub status: Status,
}

/// Arguments that are not understood, or a file that cannot be read.
#[derive(Debug)]
pub struct Misuse(pub String);

/// What the library answers and the desk cannot explain, or works out otherwise.
#[derive(Debug, PartialEq)]
pub struct Disagreement(pub String);

impl Disagreement {
    pub fn that<T>(what: impl Into<String>) -> Result<T, Disagreement> {
        Err(Disagreement(what.into()))
    }

    pub fn show(&self, page: &mut Page, indent: usize) {
        page.heading(&format!("{:indent$}disagreement", ""), Style::Bad, "the desk cannot confirm this answer");
        page.sentence(indent, &self.0);
        page.sentence(
            indent,
            "The answer is the library's, which is proved; the explanation is this program's. One of the two has a \
             fault: please report it, with the pack and the arguments.",
        );
    }
}

/// The entry of a JSON object that says whether there is a disagreement.
pub fn disagreement_json(disagreement: Option<&Disagreement>) -> Json {
    disagreement.map_or(Json::Null, |disagreement| Json::text(&disagreement.0))
}
