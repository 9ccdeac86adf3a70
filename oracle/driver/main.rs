//! Answers a journal from the original Rust, for one P, E, epoch length and unlocking length.
//!
//! With an argument, a file: takes over there what an earlier binary left (line count, P, E,
//! settings, image; nothing where the file is empty), and leaves the same at the end of its input.
mod accounts;
mod calls;
mod checks;
mod derived;
mod handed;
mod journal;
mod leaf;
mod refusal;
mod site;
mod split;

use {
    journal::Fields,
    site::{Answer, Site},
    std::{
        ffi::OsStr,
        io::{BufRead, BufReader, Write},
        os::unix::ffi::OsStrExt,
        path::{Path, PathBuf},
        process::ExitCode,
    },
};

/// Why a run ends before its input does.
enum End {
    /// The line isn't of the journal's forms.
    Wrong(&'static str),
    /// The call is for a binary of other sizes or settings.
    NotOurs(String),
    /// Input, output or the file taken over.
    Broken(std::io::Error),
}

impl From<&'static str> for End {
    fn from(what: &'static str) -> Self {
        End::Wrong(what)
    }
}

impl From<std::io::Error> for End {
    fn from(e: std::io::Error) -> Self {
        End::Broken(e)
    }
}

fn path<'a>(f: &mut Fields<'a>) -> Result<&'a Path, &'static str> {
    let name = f.field()?;
    f.end()?;
    Ok(Path::new(OsStr::from_bytes(name)))
}

fn two_numbers(f: &mut Fields) -> Result<(u64, u64), &'static str> {
    let two = (f.number()?, f.number()?);
    f.end()?;
    Ok(two)
}

fn image(site: &mut Site, f: &mut Fields) -> Result<Answer, &'static str> {
    let words = f.image()?;
    f.end()?;
    Ok(match words {
        Some(words) => site.put_image(words),
        None => site.image(),
    })
}

/// Whether the image may be saved is known for the sizes that this binary was built for.
fn save(site: &Site, f: &mut Fields) -> Result<Answer, End> {
    let path = path(f)?;
    site.fits().map_err(End::NotOurs)?;
    Ok(site.save(path)?)
}

/// The lines that the Rust answers, and `split`.
fn question(site: &mut Site, name: &[u8], f: &mut Fields) -> Result<Answer, End> {
    match name {
        b"leaf" => {
            site.fits().map_err(End::NotOurs)?;
            Ok(leaf::answer(f)?)
        }
        b"bench" => {
            let n = f.number()?;
            let call = f.field().and_then(|name| f.call(name))?;
            site.fits().map_err(End::NotOurs)?;
            Ok(site.bench(n, &call))
        }
        _ => {
            let call = f.call(name)?;
            site.fits().map_err(End::NotOurs)?;
            Ok(site.call(&call))
        }
    }
}

/// None for a line that is passed over.
fn answer(site: &mut Site, line: &[u8]) -> Result<Option<Answer>, End> {
    let mut f = Fields::new(line);
    let name = match f.field() {
        Ok(name) if name[0] != b'#' => name,
        _ => return Ok(None),
    };
    Ok(Some(match name {
        b"new" => two_numbers(&mut f).map(|(p, e)| site.new_image(p, e))?,
        b"settings" => two_numbers(&mut f).map(|(s, u)| site.settings(s, u))?,
        b"image" => image(site, &mut f)?,
        b"nonzero" => f.end().map(|()| site.nonzero())?,
        // Nothing of the Rust says how a pool is shown, nor how the calls are told.
        b"show" => f.end().map(|()| Answer::Outside(None))?,
        b"help" => f.help().map(|()| Answer::Outside(None))?,
        b"load" => path(&mut f).and_then(|p| site.load(p))?,
        b"save" => save(site, &mut f)?,
        b"quit" => f.end().map(|()| Answer::Quit)?,
        _ => question(site, name, &mut f)?,
    }))
}

fn show(out: &mut impl Write, line: u64, answer: Answer) -> std::io::Result<()> {
    match answer {
        Answer::Ok(values) => writeln!(out, "ok{values}"),
        Answer::Quit => writeln!(out, "ok"),
        Answer::Refused(n) => writeln!(out, "refused {n}"),
        Answer::Outside(note) => {
            if let Some(note) = note {
                eprintln!("line {line}: no number for {note}");
            }
            writeln!(out, "outside")
        }
    }
}

/// Line after line; what is answered is written out before the run waits for more input.
fn run(site: &mut Site, out: &mut impl Write) -> Result<(), End> {
    let mut input = BufReader::with_capacity(1 << 16, std::io::stdin().lock());
    let mut line = Vec::new();
    loop {
        if !input.buffer().contains(&b'\n') {
            out.flush()?;
        }
        line.clear();
        if input.read_until(b'\n', &mut line)? == 0 {
            return Ok(());
        }
        site.line += 1;
        // one carriage return at a line's end is passed over
        let text = line.strip_suffix(b"\n").unwrap_or(&line);
        let text = text.strip_suffix(b"\r").unwrap_or(text);
        if let Some(answer) = answer(site, text)? {
            let over = matches!(answer, Answer::Quit);
            show(out, site.line, answer)?;
            if over {
                return Ok(());
            }
        }
    }
}

fn whole_run(carry: Option<&Path>, out: &mut impl Write) -> Result<(), End> {
    let mut site = carry.map_or_else(|| Ok(Site::new()), Site::taken_over)?;
    let end = run(&mut site, out);
    if let Err(End::Wrong(what)) = end {
        writeln!(out, "line {}: {what}", site.line)?;
    }
    out.flush()?;
    end?;
    carry.map_or(Ok(()), |file| site.hand_over(file))?;
    Ok(())
}

fn main() -> ExitCode {
    refusal::install_hook();
    let carry = std::env::args_os().nth(1).map(PathBuf::from);
    let mut out = std::io::BufWriter::with_capacity(1 << 16, std::io::stdout().lock());
    match whole_run(carry.as_deref(), &mut out) {
        Ok(()) => ExitCode::SUCCESS,
        Err(End::Wrong(_)) => ExitCode::from(1),
        Err(End::NotOurs(what)) => {
            eprintln!("oracle: {what}");
            ExitCode::from(2)
        }
        Err(End::Broken(e)) => {
            eprintln!("oracle: {e}");
            ExitCode::from(3)
        }
    }
}
