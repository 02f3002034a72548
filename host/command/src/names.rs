//! A backup's files by name, so that what the library refuses is told of the files it concerns, with what to do about it.

use crate::failure::Failure;
use crate::files;
use crate::report::{commas, counted, shown};
use cotelark::{Refusal, Sizes};
use std::ops::Range;
use std::path::Path;

/// The names of the files, the bytes of those that are as long as the bucket, and what the map says.
pub struct Names<'a> {
    /// The table if there is one, then the image.
    pub buckets: Vec<(&'a Path, usize)>,
    pub map: &'a Path,
    pub sizes: Sizes,
}

/// What a map says, if it keeps its rules.
pub fn sizes_of(map_file: &Path, map: &[u8]) -> Result<Sizes, Failure> {
    cotelark::read_map(map).map_err(|refusal| {
        let advice = "take another copy of it, or make a new backup with `cotelark init`".to_string();
        Failure::Refused { refusal, of: shown(map_file), advice }
    })
}

impl Names<'_> {
    pub fn image(&self) -> &Path {
        self.buckets[self.buckets.len() - 1].0
    }

    /// Where a page stands in table and image.
    pub fn page(&self, k: usize) -> Range<usize> {
        self.sizes.page_range(k).expect("a page that the library named")
    }

    /// Where a page's entry stands in the map.
    pub fn entry(&self, k: usize) -> Range<usize> {
        self.sizes.entry_range(k).expect("a page that the library named")
    }

    /// What the library refuses once it has read the map.
    pub fn refused(&self, refusal: Refusal) -> Failure {
        let (image, map) = (shown(self.image()), shown(self.map));
        let (of, advice) = match refusal {
            Refusal::PageNo => (format!("{map} has {}, counted from 0", counted(self.sizes.pages, "page")), "give a number below that".to_string()),
            Refusal::Damaged { .. } if self.sizes.n == 1 => (image, "n = 1 repairs nothing, so make a new backup with `cotelark init`".to_string()),
            Refusal::Damaged { page } => (image, format!("if it has one damaged symbol, `cotelark repair IMAGE MAP {page}` puts it right")),
            Refusal::Thin => (format!("{map} has n = 1"), "a repair wants a backup made with --n 2, 3 or 4".to_string()),
            _ => (self.lengths(), "give the files that belong together".to_string()),
        };
        Failure::Refused { refusal, of, advice }
    }

    fn lengths(&self) -> String {
        let length = |(file, bytes): &(&Path, usize)| format!("{} has {}, ", shown(file), counted(*bytes, "byte"));
        let lengths: String = self.buckets.iter().map(length).collect();
        format!("{lengths}and {} is the map of a bucket of {}", shown(self.map), commas(self.sizes.bucket.0))
    }
}

/// An image and its map, as long as they belong together.
pub struct Backup<'a> {
    pub image: Vec<u8>,
    pub map: Vec<u8>,
    pub names: Names<'a>,
}

impl<'a> Backup<'a> {
    pub fn read(image_file: &'a Path, map_file: &'a Path) -> Result<Backup<'a>, Failure> {
        let image = files::read(image_file)?;
        let (map, names) = map_of(image_file, &image, map_file)?;
        Ok(Backup { image, map, names })
    }
}

/// The map that belongs to an image.
pub fn map_of<'a>(image_file: &'a Path, image: &[u8], map_file: &'a Path) -> Result<(Vec<u8>, Names<'a>), Failure> {
    let map = files::read(map_file)?;
    let sizes = sizes_of(map_file, &map)?;
    let names = Names { buckets: vec![(image_file, image.len())], map: map_file, sizes };
    // A page number at the count is what the library refuses last.
    match cotelark::ask_page(image, &map, sizes.pages) {
        Err(refusal) if refusal != Refusal::PageNo => Err(names.refused(refusal)),
        _ => Ok((map, names)),
    }
}
