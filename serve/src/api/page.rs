//! The page for people, and what it is made of.

use crate::http::response::Response;

/// A file of the page.
#[derive(PartialEq, Eq)]
pub struct Asset {
    path: &'static str,
    kind: &'static str,
    body: &'static str,
}

/// Coast lines of Natural Earth (public domain), 1:110 million: lists of longitude, latitude in tenths of a degree.
const COAST: &str = include_str!("../coast.json");

static ASSETS: [Asset; 6] = [
    Asset {
        path: "/",
        kind: "text/html; charset=utf-8",
        body: include_str!("../page.html"),
    },
    Asset {
        path: "/page.css",
        kind: "text/css; charset=utf-8",
        body: include_str!("../page.css"),
    },
    Asset {
        path: "/page.js",
        kind: "text/javascript; charset=utf-8",
        body: include_str!("../page.js"),
    },
    Asset {
        path: "/map.js",
        kind: "text/javascript; charset=utf-8",
        body: include_str!("../map.js"),
    },
    Asset {
        path: "/icon.svg",
        kind: "image/svg+xml",
        body: include_str!("../icon.svg"),
    },
    Asset {
        path: "/coast.json",
        kind: "application/json",
        body: COAST,
    },
];

/// Nothing from elsewhere, nothing within another page, no script that is not a file of the page.
const POLICY: &str = "Content-Security-Policy: default-src 'none'; script-src 'self'; style-src 'self'; \
    img-src 'self' data:; connect-src 'self'; base-uri 'none'; form-action 'none'; frame-ancestors 'none'\r\n\
    Referrer-Policy: no-referrer\r\nCross-Origin-Resource-Policy: same-origin\r\n";

pub fn find(path: &str) -> Option<&'static Asset> {
    ASSETS.iter().find(|asset| asset.path == path)
}

impl Asset {
    pub fn response(&self) -> Response {
        Response::new(200, self.kind, self.body).with(POLICY)
    }
}
