//! Images and key files on the disk.

use std::fs::{self, File};
use std::io::{self, Read, Write};
use std::path::{Path, PathBuf};
use std::process;

use range_filter::{Filter, Refusal};

use crate::ending::Failure;
use crate::text::{grouped, show_refusal};

/// Files with more bytes are not read as images.
///
/// No image is nearly so long. The nodes of 65,535 keys on the first four levels are at most
/// 1, 256, 32,767 and 32,767, for each but the root has two leaves below it; a dense node takes
/// under 97 bytes. There are at most 4,259,775 entries, and a sparse one takes under 1.33 bytes.
/// Slots of 16 bits take 131,070 bytes, the starts of 64 levels 256, the header and the thirteen
/// marks and lengths 100. Together these are under 12.3 million bytes.
const MOST_BYTES: u64 = 64 << 20;

/// Gives the bytes of a file that may be an image.
pub fn read_image(path: &Path) -> Result<Vec<u8>, Failure> {
    let name = path.display();
    let file = open(path)?;
    let length = file.metadata().map_or(0, |metadata| metadata.len());
    let mut image = Vec::new();
    if length <= MOST_BYTES {
        let read = file.take(MOST_BYTES + 1).read_to_end(&mut image);
        read.map_err(|error| unreadable(path, &error))?;
    }
    if length > MOST_BYTES || image.len() as u64 > MOST_BYTES {
        return Err(Failure::Refused(format!(
            "{name} is no image: it has over {} bytes, and no image has 12.3 million; \
             name a file that `range-filter build` wrote",
            grouped(MOST_BYTES as usize)
        )));
    }
    Ok(image)
}

/// Gives the filter of the bytes of a file, or says why they are refused.
pub fn open_filter<'a>(path: &Path, image: &'a [u8]) -> Result<Filter<'a>, Failure> {
    let refused = |refusal: Refusal| {
        let name = path.display();
        Failure::Refused(format!("{name} is {}", show_refusal(refusal)))
    };
    Filter::open(image).map_err(refused)
}

/// Opens a file to read it.
pub fn open(path: &Path) -> Result<File, Failure> {
    let file = File::open(path).map_err(|error| unreadable(path, &error))?;
    if file.metadata().is_ok_and(|metadata| metadata.is_dir()) {
        let name = path.display();
        return Err(Failure::Unable(format!(
            "{name} is a folder: name a file in it"
        )));
    }
    Ok(file)
}

/// Gives the failure of a file that can't be read.
pub fn unreadable(path: &Path, error: &io::Error) -> Failure {
    let name = path.display();
    Failure::Unable(format!(
        "{name} can't be read ({error}): check its name and its permissions"
    ))
}

/// Writes a file as a whole: under another name beside it, which then takes the place of the file.
/// A file that was there before stays as it was until then.
pub fn write_whole(path: &Path, bytes: &[u8]) -> Result<(), Failure> {
    // A link keeps pointing to the file, so the name is changed where the file lies.
    let goal = fs::canonicalize(path).unwrap_or_else(|_| path.to_path_buf());
    let unwritable = |error: io::Error| {
        let name = path.display();
        Failure::Unable(format!(
            "{name} can't be written ({error}): check its folder and its permissions"
        ))
    };
    if goal.exists() && !goal.is_file() {
        let name = path.display();
        return Err(Failure::Unable(format!(
            "{name} is not a plain file: name another output"
        )));
    }
    let beside = name_beside(&goal);
    let written = write_new(&beside, bytes).and_then(|()| fs::rename(&beside, &goal));
    if written.is_err() {
        // What is left of the other name goes too; it may not be there at all.
        let _ = fs::remove_file(&beside);
    }
    written.map_err(unwritable)
}

/// Gives the name of a file beside another, which no other running process takes.
fn name_beside(path: &Path) -> PathBuf {
    let mut name = path.file_name().unwrap_or_default().to_os_string();
    name.push(format!(".{}.part", process::id()));
    path.with_file_name(name)
}

/// Writes a file that is not there yet, down to the disk.
fn write_new(path: &Path, bytes: &[u8]) -> io::Result<()> {
    let mut file = File::create_new(path)?;
    file.write_all(bytes)?;
    file.sync_all()
}
