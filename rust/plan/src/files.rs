//! Reading images, and writing words, pictures and new images. A file is written whole or not at all. What is replaced is what a command saw when it
//! began: a file that someone else changed meanwhile stays, and so does another plan or slip, but where --force is given.

use crate::{Failure, Request};
use plan::check::{begins_as_image, cleared_exit, edition, first_fault, LONGEST};
use plan::pages;
use plan::view::View;
use plan::words::refused;
use std::ffi::OsStr;
use std::fs::{self, File, Metadata};
use std::io::{self, ErrorKind, IsTerminal, Read, Seek, Write};
use std::os::fd::AsFd;
use std::os::unix::fs::{fchown, MetadataExt};
use std::path::{Path, PathBuf};
use telephone::{Refusal, Table, SLIP_MAX};

/// A word of the command line as it can be shown in one line.
pub fn shown(word: &OsStr) -> String {
    match word.is_empty() {
        true => "''".to_string(),
        false => word.to_string_lossy().escape_debug().collect(),
    }
}

/// What could not be done with a file.
fn failed(path: &Path, error: io::Error) -> Failure {
    format!("{}: {error}", shown(path.as_os_str()))
}

/// The bytes of an image file.
pub fn image_bytes(path: &Path) -> Result<Vec<u8>, Failure> {
    bytes(path, LONGEST)
}

/// The bytes of a file with a slip.
pub fn slip_bytes(path: &Path) -> Result<Vec<u8>, Failure> {
    bytes(path, SLIP_MAX)
}

/// The bytes of a file.
fn bytes(path: &Path, longest: usize) -> Result<Vec<u8>, Failure> {
    let read = File::open(path).and_then(|file| first_bytes(&file, longest));
    read.map_err(|error| failed(path, error))
}

/// The bytes of an open file. Of one that is too long, no more is read than shows it.
fn first_bytes(file: &File, longest: usize) -> io::Result<Vec<u8>> {
    let mut bytes = Vec::new();
    file.take(longest as u64 + 1).read_to_end(&mut bytes)?;
    Ok(bytes)
}

/// The table of an image file, and the image's edition.
pub fn load(path: &OsStr) -> Result<(Table, u16), Failure> {
    let bytes = image_bytes(Path::new(path))?;
    let table = Table::load(&bytes)
        .map_err(|refusal| refused_image(path, refusal, &broken_rule(&bytes)))?;
    Ok((table, edition_of(&bytes)?))
}

/// The edition of an image that the library accepts.
pub fn edition_of(image: &[u8]) -> Result<u16, Failure> {
    edition(image).map(|edition| edition.number.into()).map_err(|fault| fault.words)
}

/// The refusal of an image file, and what to look at.
pub fn refused_image(path: &OsStr, refusal: Refusal, why: &str) -> Failure {
    format!("{}: {}; {why}", shown(path), refused(refusal))
}

/// The first rule that bytes break which the library refused.
pub fn broken_rule(bytes: &[u8]) -> String {
    let empty = if bytes.is_empty() { " (> FILE empties FILE before it is read)" } else { "" };
    match first_fault(bytes) {
        Some(fault) => format!("rule {}, byte {}: {}{empty}", fault.rule, fault.byte, fault.words),
        None => "no broken rule was found".to_string(),
    }
}

/// A standard stream as a file, which tells every error: the streams of the standard library pass over one that they cannot read or write.
fn stream(stream: impl AsFd) -> io::Result<File> {
    stream.as_fd().try_clone_to_owned().map(File::from)
}

/// Standard input.
pub fn input() -> Result<File, Failure> {
    stream(io::stdin()).map_err(input_failed)
}

pub fn input_failed(error: io::Error) -> Failure {
    format!("standard input: {error}")
}

/// Writes to standard output.
pub fn print(text: &str) -> Result<(), Failure> {
    write(text.as_bytes())
}

/// Where the reader of a pipe went away, the failure has no words: nobody misses what was not written.
fn write(bytes: &[u8]) -> Result<(), Failure> {
    let written = stream(io::stdout()).and_then(|mut out| out.write_all(bytes));
    written.map_err(|error| match error.kind() {
        ErrorKind::BrokenPipe => String::new(),
        _ => format!("standard output: {error}"),
    })
}

/// Writes to standard error.
pub fn say(text: &str) -> Result<(), Failure> {
    let written = stream(io::stderr()).and_then(|mut err| err.write_all(text.as_bytes()));
    written.map_err(|error| format!("standard error: {error}"))
}

/// Gives a text to standard output, or stores it where the command line says.
pub fn give(request: &Request, text: &str) -> Result<(), Failure> {
    give_all(request, text.as_bytes(), &[])
}

/// Says words and gives an image to standard output, or stores it where the command line says, and with it the slip of a clearing. A terminal gets no
/// image, and then no slip is stored.
pub fn give_image(
    request: &Request,
    words: &str,
    image: &[u8],
    slip: &[u8],
) -> Result<(), Failure> {
    let Request { output, slip: slip_path, .. } = request;
    let edition = edition_of(image)?;
    places(request, image, slip).try_for_each(|(place, bytes)| place.spares(bytes))?;
    say(words)?;
    if goes_nowhere(request) {
        let both = if slip_path.is_some() { " and the slip" } else { "" };
        return say(&format!("not stored: -o FILE stores the new image{both}\n"));
    }
    give_all(request, image, slip)?;
    let named = |path: &PathBuf| shown(path.as_os_str());
    let given = match output {
        Some(path) => format!("stored in {}, edition {edition}\n", named(path)),
        None => format!("edition {edition} to standard output\n"),
    };
    let slip = slip_path.as_ref().map(|path| format!("slip stored in {}\n", named(path)));
    // it is given, whether or not somebody hears of it
    let _ = say(&(given + &slip.unwrap_or_default()));
    Ok(())
}

/// The places where something is stored, and what goes there.
fn places<'a>(
    request: &'a Request,
    bytes: &'a [u8],
    slip: &'a [u8],
) -> impl Iterator<Item = (&'a Place, &'a [u8])> {
    request.places.iter().map(move |place| (place, if place.ending == SLIP { slip } else { bytes }))
}

/// Gives bytes to standard output, or stores them where the command line says, and stores a slip where it asks for one. Nothing is given before all is
/// written beside its place and each place is seen to be as it was.
fn give_all(request: &Request, bytes: &[u8], slip: &[u8]) -> Result<(), Failure> {
    let places = || places(request, bytes, slip);
    let parts = places().map(|(place, bytes)| place.begin(bytes));
    let parts: Vec<Option<Part>> = parts.collect::<Result<_, _>>()?;
    lock(&request.places);
    request.places.iter().try_for_each(Place::is_as_seen)?;
    places().try_for_each(|(place, bytes)| place.feed(bytes))?;
    if request.output.is_none() {
        write(bytes)?;
    }
    put_all(parts.into_iter().flatten().collect())
}

/// Puts parts in their places, all or none. A place where nothing stood comes first, since it can be emptied again.
fn put_all(mut parts: Vec<Part>) -> Result<(), Failure> {
    parts.sort_by_key(|part| part.place.stood.is_some());
    for at in 0..parts.len() {
        if let Err(failure) = parts[at].put() {
            parts[..at].iter().for_each(Part::undo);
            return Err(failure);
        }
    }
    Ok(())
}

/// Whether the image of a command goes nowhere: it is not stored, and a terminal gets none.
pub fn goes_nowhere(request: &Request) -> bool {
    request.output.is_none() && io::stdout().is_terminal()
}

/// Looks at the places where the command line says that something is stored: whether it can be, and what stands there. It is done before any work is, so
/// that no work is lost. Files that the command reads may be replaced.
pub fn look(request: &Request, read: &[PathBuf]) -> Result<Vec<Place>, Failure> {
    let Request { output, slip, .. } = request;
    output.iter().chain(read).try_for_each(|other| apart("a slip", slip, other))?;
    let mut places = Vec::new();
    for (option, path, ending) in [("-o", output, IMAGE), ("--slip", slip, SLIP)] {
        let Some(path) = path else { continue };
        let given_up = request.force || read.iter().any(|read| same(path, read));
        let place = Place::look(option, path, ending, given_up);
        let place = place.map_err(|error| failed(path, error))?;
        // whether an image or a slip comes out as the one that stands there is seen at the end
        let may_stay = |bytes: &[u8]| match ending {
            SLIP => cleared_exit(bytes).is_some(),
            _ => Table::load(bytes).is_ok(),
        };
        place.spares_unless(may_stay)?;
        places.push(place);
    }
    Ok(places)
}

/// Whether no plan and no slip stands where something is going to be stored, but the image that was read.
pub fn nothing_held(request: &Request) -> Result<(), Failure> {
    request.places.iter().try_for_each(|place| place.spares_unless(|_| false))
}

/// Whether what goes to a file leaves another file alone, which holds something else.
pub fn apart(what: &str, stored: &Option<PathBuf>, other: &Path) -> Result<(), Failure> {
    match stored {
        Some(path) if same(path, other) => {
            Err(format!("{}: {what} has to go to a file of its own", shown(path.as_os_str())))
        }
        _ => Ok(()),
    }
}

/// Whether two paths name one file.
fn same(path: &Path, other: &Path) -> bool {
    full(path) == full(other)
}

/// A path past all links; where nothing stands there, its folder's with its name.
fn full(path: &Path) -> PathBuf {
    let folder = path.parent().filter(|folder| !folder.as_os_str().is_empty());
    let named = || {
        let folder = fs::canonicalize(folder.unwrap_or(Path::new("."))).ok()?;
        Some(folder.join(path.file_name()?))
    };
    fs::canonicalize(path).ok().or_else(named).unwrap_or_else(|| path.into())
}

/// What bytes hold that is not to be lost: a plan, something that was meant for one, or the slip of a clearing.
fn held(bytes: &[u8]) -> Option<String> {
    if let (Ok(table), Ok(edition)) = (Table::load(bytes), edition_of(bytes)) {
        return Some(format!("a plan, edition {edition}, {}", pages::numbers(&View::of(&table))));
    }
    if begins_as_image(bytes) {
        return Some("an image that is not accepted".to_string());
    }
    let (step, exit) = cleared_exit(bytes)?;
    Some(format!("the slip of clearing exit {exit} of step {step}"))
}

/// How the names of parts end: of an image or a picture, and of a slip.
const IMAGE: &str = "part";
const SLIP: &str = "slip";

/// A place where a command stores something, as it was when the command began.
pub struct Place {
    /// The option that names it, and the path as it is named there.
    option: &'static str,
    named: PathBuf,
    /// How the name of a part ends.
    ending: &'static str,
    /// The path, past all links, of a plain file that may be written, or of none: it is replaced. None for anything else, as a device: it is opened once,
    /// and written to.
    plain: Option<PathBuf>,
    stood: Option<Stood>,
    /// Whether a plan or a slip that stood there may be lost.
    given_up: bool,
}

/// A plain file that stood at a place, and its bytes, as many as an image can have. It stays open, so that the system gives its number to no other file.
struct Stood {
    file: File,
    number: Number,
    bytes: Vec<u8>,
}

/// The device and the number there, by which the system tells files apart.
type Number = (u64, u64);

fn number(there: &Metadata) -> Number {
    (there.dev(), there.ino())
}

impl Stood {
    fn open(path: &Path) -> io::Result<Stood> {
        let file = File::options().read(true).write(true).open(path)?;
        let (there, bytes) = (file.metadata()?, first_bytes(&file, LONGEST)?);
        Ok(Stood { file, number: number(&there), bytes })
    }

    /// Whether the file still has the bytes that were read.
    fn is_as_read(&self) -> io::Result<bool> {
        (&self.file).rewind()?;
        Ok(first_bytes(&self.file, LONGEST)? == self.bytes)
    }
}

/// Keeps other runs from replacing the files that stood at the places, until these are closed, and waits for one that is about to. All runs take them in
/// one order, so that no two wait for each other. A filesystem that knows no locks has to do without.
fn lock(places: &[Place]) {
    let mut files: Vec<&Stood> = places.iter().filter_map(|place| place.stood.as_ref()).collect();
    files.sort_by_key(|stood| stood.number);
    files.dedup_by_key(|stood| stood.number);
    for stood in files {
        while stood.file.lock().is_err_and(|error| error.kind() == ErrorKind::Interrupted) {}
    }
}

impl Place {
    fn look(
        option: &'static str,
        named: &Path,
        ending: &'static str,
        given_up: bool,
    ) -> io::Result<Place> {
        let (plain, stood) = match fs::metadata(named) {
            Ok(there) if there.is_dir() => return Err(ErrorKind::IsADirectory.into()),
            Ok(there) if !there.is_file() => (None, None),
            Ok(_) => (Some(fs::canonicalize(named)?), Some(Stood::open(named)?)),
            // a link that leads nowhere is not replaced
            Err(error) if named.is_symlink() || named.as_os_str().is_empty() => return Err(error),
            Err(_) => (Some(named.into()), None),
        };
        let place = Place { option, named: named.into(), ending, plain, stood, given_up };
        Part::of(&place)?;
        Ok(place)
    }

    fn name(&self) -> String {
        shown(self.named.as_os_str())
    }

    fn failed(&self, error: io::Error) -> Failure {
        failed(&self.named, error)
    }

    /// Whether no plan and no slip is lost where these bytes take the place.
    fn spares(&self, bytes: &[u8]) -> Result<(), Failure> {
        self.spares_unless(|stood| stood == bytes)
    }

    /// The same, but where what stands there may be what takes the place.
    fn spares_unless(&self, may_stay: impl FnOnce(&[u8]) -> bool) -> Result<(), Failure> {
        let stood = self.stood.as_ref().filter(|stood| !self.given_up && !may_stay(&stood.bytes));
        match stood.and_then(|stood| held(&stood.bytes)) {
            Some(what) => Err(format!("{}: it holds {what}; --force replaces it", self.name())),
            None => Ok(()),
        }
    }

    /// Whether the place is as the command saw it. Where nothing stood, that is seen when something is put there.
    fn is_as_seen(&self) -> Result<(), Failure> {
        let (Some(stood), Some(plain)) = (&self.stood, &self.plain) else { return Ok(()) };
        let there = [fs::metadata(&self.named), fs::symlink_metadata(plain)];
        let names_it = there.iter().flatten().filter(|there| number(there) == stood.number);
        if names_it.count() == 2 && stood.is_as_read().map_err(|error| self.failed(error))? {
            return Ok(());
        }
        Err(self.changed("changed by someone else since it was read"))
    }

    /// What to do where someone else was faster.
    fn changed(&self, how: &str) -> Failure {
        let (name, option) = (self.name(), self.option);
        format!(
            "{name}: {how}; nothing is stored: give the command again, or {option} another file"
        )
    }

    /// Writes bytes beside the plain file that they are going to replace.
    fn begin(&self, bytes: &[u8]) -> Result<Option<Part<'_>>, Failure> {
        let part = Part::of(self).and_then(|mut part| {
            part.iter_mut().try_for_each(|part| part.take(bytes))?;
            Ok(part)
        });
        part.map_err(|error| self.failed(error))
    }

    /// Writes bytes to a device.
    fn feed(&self, bytes: &[u8]) -> Result<(), Failure> {
        let open = || File::options().write(true).open(&self.named);
        let fed = match self.plain {
            Some(_) => Ok(()),
            None => open().and_then(|mut device| device.write_all(bytes)),
        };
        fed.map_err(|error| self.failed(error))
    }
}

/// A file beside another, with a name that no other run uses. It goes with this value, unless it was put in the other's place.
struct Part<'a> {
    file: File,
    name: PathBuf,
    place: &'a Place,
    path: &'a Path,
    moved: bool,
}

impl Part<'_> {
    /// An empty part beside a plain file; none beside a device.
    fn of(place: &Place) -> io::Result<Option<Part<'_>>> {
        let Some(path) = &place.plain else { return Ok(None) };
        let mut again = 0;
        loop {
            let (run, ending) = (std::process::id(), place.ending);
            let name = path.with_file_name(format!(".plan-{run}-{again}.{ending}"));
            match File::create_new(&name) {
                // a run on another machine has the number of this one, or one that was ended left it behind
                Err(error) if error.kind() == ErrorKind::AlreadyExists => again += 1,
                made => {
                    return made.map(|file| Some(Part { file, name, place, path, moved: false }))
                }
            }
        }
    }

    /// Takes all bytes, and the permissions of the other file and, where the system allows it, its owner.
    fn take(&mut self, bytes: &[u8]) -> io::Result<()> {
        self.file.write_all(bytes)?;
        if let Some(stood) = &self.place.stood {
            let there = stood.file.metadata()?;
            let _ = fchown(&self.file, Some(there.uid()), Some(there.gid()));
            self.file.set_permissions(there.permissions())?;
        }
        self.file.sync_all()
    }

    /// Puts it in its place: over the file that stood there, or where none stood, and none that came meanwhile is replaced.
    fn put(&mut self) -> Result<(), Failure> {
        let put = match self.place.stood {
            Some(_) => self.rename(),
            None => fs::hard_link(&self.name, self.path).or_else(|error| match error.kind() {
                ErrorKind::AlreadyExists => Err(error),
                _ => self.claim(),
            }),
        };
        put.map_err(|error| match error.kind() {
            ErrorKind::AlreadyExists => {
                self.place.changed("made by someone else since the command began")
            }
            _ => self.place.failed(error),
        })
    }

    fn rename(&mut self) -> io::Result<()> {
        fs::rename(&self.name, self.path)?;
        self.moved = true;
        Ok(())
    }

    /// Puts it where none stood, on a filesystem without links: an empty file, which can only be made where there is none, has the place until then.
    fn claim(&mut self) -> io::Result<()> {
        File::create_new(self.path)?;
        self.rename()
    }

    /// Empties the place again, where nothing stood.
    fn undo(&self) {
        if self.place.stood.is_none() {
            let _ = fs::remove_file(self.path);
        }
    }
}

impl Drop for Part<'_> {
    fn drop(&mut self) {
        if !self.moved {
            let _ = fs::remove_file(&self.name);
        }
    }
}

#[cfg(test)]
mod tests {
    use super::*;

    /// An empty folder, which goes with this value.
    struct Folder(PathBuf);

    impl Folder {
        fn new(name: &str) -> Folder {
            let folder = std::env::temp_dir().join(format!("plan-{}-{name}", std::process::id()));
            let _ = fs::remove_dir_all(&folder);
            fs::create_dir(&folder).unwrap();
            Folder(folder)
        }

        /// The bytes of its files, in the order of their names.
        fn files(&self) -> Vec<(String, Vec<u8>)> {
            let files = fs::read_dir(&self.0).unwrap().map(|file| file.unwrap());
            let named = |file: &fs::DirEntry| file.file_name().to_string_lossy().to_string();
            let mut files: Vec<_> =
                files.map(|file| (named(&file), fs::read(file.path()).unwrap())).collect();
            files.sort();
            files
        }
    }

    impl Drop for Folder {
        fn drop(&mut self) {
            let _ = fs::remove_dir_all(&self.0);
        }
    }

    /// Two new files are put in their places both or not at all, whichever someone else makes meanwhile.
    #[test]
    fn two_new_files() {
        let folder = Folder::new("two");
        let new = |name: &str| (name.to_string(), b"new".to_vec());
        let names = ["a.img", "a.slip"];
        let places = [(names[0], IMAGE), (names[1], SLIP)]
            .map(|(name, ending)| Place::look("-o", &folder.0.join(name), ending, false).unwrap());
        let parts =
            || places.iter().map(|place| place.begin(b"new").unwrap().unwrap()).collect::<Vec<_>>();
        for name in names {
            let parts = parts();
            fs::write(folder.0.join(name), b"other").unwrap();
            let failure = put_all(parts).unwrap_err();
            assert!(failure.contains(&format!("{name}: made by someone else")), "{failure}");
            assert_eq!(folder.files(), [(name.to_string(), b"other".to_vec())]);
            fs::remove_file(folder.0.join(name)).unwrap();
        }
        put_all(parts()).unwrap();
        assert_eq!(folder.files(), names.map(new));
    }

    /// What stands in for a link takes a place where nothing stands, and no other.
    #[test]
    fn without_links() {
        let folder = Folder::new("links");
        let place = Place::look("-o", &folder.0.join("a.img"), IMAGE, false).unwrap();
        for bytes in [b"one", b"two"] {
            let mut part = place.begin(bytes).unwrap().unwrap();
            let claimed = part.claim().map_err(|error| error.kind());
            let expected = if bytes == b"one" { Ok(()) } else { Err(ErrorKind::AlreadyExists) };
            assert_eq!(claimed, expected);
        }
        assert_eq!(folder.files(), [("a.img".to_string(), b"one".to_vec())]);
    }
}
