//! Files: inputs read no further than anything that is accepted goes, and outputs that appear
//! whole or not at all.

use std::ffi::OsStr;
use std::fs::{remove_file, rename, File, OpenOptions};
use std::io::{self, ErrorKind, Read, Write};
use std::os::unix::ffi::OsStrExt;
use std::path::{Path, PathBuf};
use std::process;

use super::arguments::Name;
use super::said::{line_about, Trouble};
use crate::job::{HIGHEST, LATEST_EDITION};
use crate::job_file::layout;
use crate::order_file::{HEADER, LINK, MOST_LINKS, MOST_ORDERS, MOST_STEPS, ORDER, WINDOW};
use crate::pddl::words::LONGEST_TEXT;

const LONGEST_ORDERS: usize =
    HEADER + MOST_STEPS * WINDOW + MOST_ORDERS * ORDER + MOST_LINKS * LINK;

fn path(name: &[u8]) -> &Path {
    Path::new(OsStr::from_bytes(name))
}

/// A name and the system's own words, without the number that Rust adds to them.
pub fn system_trouble(name: &[u8], error: &io::Error) -> Trouble {
    let words = error.to_string();
    let number = error.raw_os_error().unwrap_or(0);
    let added = format!(" (os error {number})");
    let words = words.strip_suffix(&added).unwrap_or(&words);
    Trouble(line_about(name, words))
}

// ---------------------------------------------------------------------------------------------
// Reading

/// Where inputs come from: files, and standard input under the name `-`.
pub struct Inputs<'a> {
    standard: &'a mut dyn Read,
}

impl<'a> Inputs<'a> {
    pub fn of(standard: &'a mut dyn Read) -> Inputs<'a> {
        Inputs { standard }
    }

    pub fn job(&mut self, name: Name) -> Result<Vec<u8>, Trouble> {
        let (_, longest) = layout(LATEST_EDITION, HIGHEST);
        self.read(name, longest)
    }

    pub fn orders(&mut self, name: Name) -> Result<Vec<u8>, Trouble> {
        self.read(name, LONGEST_ORDERS)
    }

    pub fn text(&mut self, name: Name) -> Result<Vec<u8>, Trouble> {
        self.read(name, LONGEST_TEXT)
    }

    /// Up to one byte more than the longest, which is refused by its length: so an endless input
    /// ends.
    fn read(&mut self, name: Name, longest: usize) -> Result<Vec<u8>, Trouble> {
        let up_to = longest as u64 + 1;
        let mut bytes = Vec::new();
        let read = match name.is_standard() {
            true => (&mut *self.standard).take(up_to).read_to_end(&mut bytes),
            false => {
                File::open(path(name.0)).and_then(|file| file.take(up_to).read_to_end(&mut bytes))
            }
        };
        match read {
            Ok(_) => Ok(bytes),
            Err(error) => Err(system_trouble(name.as_input(), &error)),
        }
    }
}

// ---------------------------------------------------------------------------------------------
// Writing

/// A new file in the same folder takes the name once all its bytes are on the disk.
pub fn put_whole(name: &[u8], bytes: &[u8]) -> Result<(), Trouble> {
    may_be_replaced(name)?;
    let put = new_file_beside(name).and_then(|(file, new)| {
        let put = fill(file, bytes).and_then(|()| rename(&new, path(name)));
        if put.is_err() {
            // The first error is the one to tell.
            let _ = remove_file(&new);
        }
        put
    });
    put.map_err(|error| system_trouble(name, &error))
}

/// What has the name already is a regular file that could be read and written.
fn may_be_replaced(name: &[u8]) -> Result<(), Trouble> {
    let opened = OpenOptions::new().read(true).write(true).open(path(name));
    match opened.and_then(|file| file.metadata()) {
        Ok(old) if old.is_file() => Ok(()),
        Ok(_) => Err(Trouble(line_about(name, "not a regular file"))),
        Err(error) if error.kind() == ErrorKind::NotFound => Ok(()),
        Err(error) => Err(system_trouble(name, &error)),
    }
}

/// A file that was not there before, and its path.
fn new_file_beside(name: &[u8]) -> io::Result<(File, PathBuf)> {
    let in_its_folder = name.iter().rposition(|&byte| byte == b'/');
    let folder = &name[..in_its_folder.map_or(0, |slash| slash + 1)];
    let mut tries = 0;
    loop {
        let own = format!(".jobs-{}-{tries}", process::id());
        let new = path(&[folder, own.as_bytes()].concat()).to_path_buf();
        match File::create_new(&new) {
            Err(error) if error.kind() == ErrorKind::AlreadyExists && tries < 100 => tries += 1,
            file => return Ok((file?, new)),
        }
    }
}

fn fill(mut file: File, bytes: &[u8]) -> io::Result<()> {
    file.write_all(bytes)?;
    file.sync_all()
}
