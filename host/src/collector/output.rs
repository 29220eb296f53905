//! Files that are either written whole or left as they are.
use crate::options::{Asked, Options, Windows};
use crate::text::name;
use std::fs::{self, File, OpenOptions};
use std::io::{self, BufWriter, Write};
use std::path::{Path, PathBuf};

/// A file that is complete, but under another name beside its target. Unless it is kept, it is gone with this.
#[derive(Debug)]
pub struct Draft {
    path: PathBuf,
    target: PathBuf,
}
impl Draft {
    pub fn new(target: &Path, fill: &mut dyn FnMut(&mut dyn Write) -> io::Result<()>) -> Result<Draft, String> {
        let said = |why: io::Error| format!("{}: cannot be written: {why}", name(target));
        let target = resolved(target).map_err(said)?;
        let before = fs::metadata(&target).ok();
        // A device must not be replaced by a file, nor what its owner has locked.
        match &before {
            Some(file) if !file.is_file() => return Err(said(io::Error::other("it is no ordinary file"))),
            Some(file) if file.permissions().readonly() => return Err(said(io::ErrorKind::PermissionDenied.into())),
            _ => {}
        }
        let (path, file) = fresh(target.parent().unwrap_or(Path::new("."))).map_err(said)?;
        let draft = Draft { path, target };
        let mut out = BufWriter::with_capacity(1 << 16, file);
        fill(&mut out).and_then(|()| out.flush()).map_err(said)?;
        if let Some(before) = before {
            fs::set_permissions(&draft.path, before.permissions()).map_err(said)?;
        }
        Ok(draft)
    }
    pub fn keep(self) -> Result<(), String> {
        fs::rename(&self.path, &self.target).map_err(|why| format!("{}: cannot be written: {why}", name(&self.target)))
    }
}
impl Drop for Draft {
    fn drop(&mut self) {
        // After `keep` there is none under this name.
        let _ = fs::remove_file(&self.path);
    }
}

/// A new file in a folder.
fn fresh(folder: &Path) -> io::Result<(PathBuf, File)> {
    let mut last = io::Error::from(io::ErrorKind::AlreadyExists);
    for number in 0..100 {
        let path = folder.join(format!(".collector-{}-{number}.tmp", std::process::id()));
        match OpenOptions::new().write(true).create_new(true).open(&path) {
            Ok(file) => return Ok((path, file)),
            Err(why) if why.kind() == io::ErrorKind::AlreadyExists => last = why,
            Err(why) => return Err(why),
        }
    }
    Err(last)
}

/// The path without links: that of the file, or if there is none, of its folder.
fn resolved(path: &Path) -> io::Result<PathBuf> {
    fs::canonicalize(path).or_else(|why| match (path.parent(), path.file_name()) {
        (Some(folder), Some(file)) if why.kind() == io::ErrorKind::NotFound => {
            let folder = if folder.as_os_str().is_empty() { Path::new(".") } else { folder };
            Ok(fs::canonicalize(folder)?.join(file))
        }
        _ => Err(why),
    })
}

/// No two of the files may be the same.
pub fn check_names(options: &Options) -> Result<(), String> {
    let plan = match &options.windows {
        Windows::Plan(path) => Some(path),
        Windows::Fixed { .. } => None,
    };
    let same = |first: Option<&PathBuf>, second: Option<&PathBuf>| match (first, second) {
        (Some(first), Some(second)) => {
            first == second || resolved(first).ok().zip(resolved(second).ok()).is_some_and(|(first, second)| first == second)
        }
        _ => false,
    };
    let (output, svg) = (options.output.as_ref(), options.svg.as_ref());
    if same(output, svg) {
        return Err("--output and --svg name the same file".to_string());
    }
    let traces = match &options.asked {
        Asked::Variance(trace, _) | Asked::Shape(trace, _) => [(trace.path(), "the trace"), (None, "")],
        Asked::Pair([first, second], _) => [(first.path(), "the first trace"), (second.path(), "the second trace")],
    };
    for (target, option) in [(output, "--output"), (svg, "--svg")] {
        let mut sources = traces.into_iter().chain([(plan, "the plan")]);
        if let Some((_, what)) = sources.find(|(source, _)| same(target, *source)) {
            return Err(format!("{option} names the file of {what}"));
        }
    }
    Ok(())
}
