//! The commands.

use crate::arguments::{number, Arguments, Shape};
use crate::input::{one_standard, read, STANDARD};
use crate::output::{apart, permit, say, write, Draft, Readers};
use crate::refusal::{explain, grouped, unknown_part, Lent};
use crate::stop::{shown, Stop};
use crate::{help, tour};
use skimdral::{Answer, Set, Verdict};
use std::ffi::OsString;
use std::io::Write;

/// A command: what it takes, its help, and what it does.
pub struct Command {
    pub shape: Shape,
    pub help: &'static str,
    run: fn(&Arguments, &mut dyn Write) -> Result<Answer, Stop>,
}

/// All commands.
#[rustfmt::skip]
pub const COMMANDS: [Command; 6] = [
    command("keys", &["--set", "--seeds", "--public", "--secret"], true, &[], 0, help::KEYS, keys),
    command("seal", &["--set", "--secret", "--random"], true, &["MESSAGE", "SEAL"], 0, help::SEAL, seal),
    command("check", &["--set", "--public"], false, &["MESSAGE", "SEAL"], 0, help::CHECK, check),
    command("part", &["--set"], true, &["SEAL", "NUMBER", "[OUT]"], 1, help::PART, part),
    command("digits", &["--set"], false, &["VALUE-IN-HEX"], 0, help::DIGITS, digits),
    command("try", &[], false, &[], 0, help::TRY, tour::run),
];

const fn command(
    name: &'static str,
    options: &'static [&'static str],
    force: bool,
    places: &'static [&'static str],
    optional: usize,
    help: &'static str,
    run: fn(&Arguments, &mut dyn Write) -> Result<Answer, Stop>,
) -> Command {
    Command { shape: Shape { name, options, force, places, optional }, help, run }
}

/// Runs a command line. What it has to show goes to `out`; the answer is 0, or 5 for a seal that was rejected.
pub fn run(words: &[OsString], out: &mut dyn Write) -> Result<Answer, Stop> {
    let [name, words @ ..] = words else { return Err(Stop::usage(help::ALL.trim_end())) };
    if name == "--help" || name == "-h" {
        return say(out, help::ALL.as_bytes()).map(|()| Answer::Done);
    }
    let unknown = || Stop::usage(format!("there is no command {}; see skimdral --help", shown(name)));
    let command = COMMANDS.iter().find(|command| command.shape.name == name).ok_or_else(unknown)?;
    let arguments = Arguments::sort(&command.shape, words)?;
    if arguments.help {
        return say(out, command.help.as_bytes()).map(|()| Answer::Done);
    }
    (command.run)(&arguments, out)
}

fn keys(given: &Arguments, out: &mut dyn Write) -> Result<Answer, Stop> {
    let (set, file) = (given.set()?, given.need("--seeds")?);
    let (public, secret) = (given.need("--public")?, given.need("--secret")?);
    if secret == STANDARD {
        return Err(Stop::usage("a secret key is not written to standard output"));
    }
    apart(public, &[file, secret])?;
    apart(secret, &[file])?;
    let seeds = read(file)?;
    permit(public, given.force)?;
    permit(secret, given.force)?;
    let keys = make_keys(set, &seeds)?;
    let secret = Draft::write(secret, &keys.secret, Readers::Owner)?;
    if public == STANDARD {
        let secret = secret.publish(given.force)?;
        say(out, &keys.public)?;
        secret.keep();
    } else {
        let public = Draft::write(public, &keys.public, Readers::Usual)?;
        let secret = secret.publish(given.force)?;
        public.publish(given.force)?.keep();
        secret.keep();
    }
    Ok(Answer::Done)
}

/// Secret seed, prf seed and public seed joined: n bytes, n bytes and the rest. If they are not 3n then the rest is not
/// n, and so the library's refusal is that of a seed's length.
fn make_keys(set: u32, seeds: &[u8]) -> Result<skimdral::Keys, Stop> {
    let n = Set::of(set).map_or(0, |set| set.n);
    let (secret, rest) = seeds.split_at(n.min(seeds.len()));
    let (prf, public) = rest.split_at(n.min(rest.len()));
    skimdral::make_keys(set, secret, prf, public).map_err(|answer| {
        let all = |set: &Set| vec![3 * set.n];
        let lent = Lent { what: "file of seeds", length: seeds.len(), answer: Answer::InputLength, allowed: all };
        explain(answer, set, &[lent])
    })
}

fn seal(given: &Arguments, out: &mut dyn Write) -> Result<Answer, Stop> {
    let (set, secret) = (given.set()?, given.need("--secret")?);
    let (message, target) = (given.need_place(0)?, given.need_place(1)?);
    let inputs: Vec<_> = [Some(secret), given.get("--random"), Some(message)].into_iter().flatten().collect();
    one_standard(&inputs)?;
    apart(target, &inputs)?;
    let random = given.get("--random").map_or(Ok(Vec::new()), read)?;
    let (secret, message) = (read(secret)?, read(message)?);
    permit(target, given.force)?;
    let seal = skimdral::seal(set, &secret, &message, &random).map_err(|answer| {
        let wrong = Answer::InputLength;
        let key = |set: &Set| vec![set.secret_key];
        let hedge = |set: &Set| vec![set.n, 0];
        let key = Lent { what: "secret key", length: secret.len(), answer: wrong, allowed: key };
        let hedge = Lent { what: "randomizer input", length: random.len(), answer: wrong, allowed: hedge };
        explain(answer, set, &[key, hedge])
    })?;
    write(target, &seal, given.force, out)?;
    Ok(Answer::Done)
}

fn check(given: &Arguments, out: &mut dyn Write) -> Result<Answer, Stop> {
    let (set, public) = (given.set()?, given.need("--public")?);
    let (message, seal) = (given.need_place(0)?, given.need_place(1)?);
    one_standard(&[public, message, seal])?;
    let (public, message, seal) = (read(public)?, read(message)?, read(seal)?);
    let Verdict { answer, f_calls } = skimdral::check(set, &public, &message, &seal);
    let calls = grouped(f_calls as usize);
    let line = match answer {
        Answer::Done => format!("accepted; {calls} F calls\n"),
        Answer::RootDiffers => format!("rejected, {answer}; {calls} F calls\n"),
        refusal => {
            let key = |set: &Set| vec![set.public_key];
            let key = Lent { what: "public key", length: public.len(), answer: Answer::InputLength, allowed: key };
            return Err(explain(refusal, set, &[key, presented(&seal)]));
        }
    };
    say(out, line.as_bytes())?;
    Ok(answer)
}

/// A seal that is presented.
fn presented(seal: &[u8]) -> Lent {
    Lent { what: "seal", length: seal.len(), answer: Answer::SealLength, allowed: |set| vec![set.seal] }
}

fn part(given: &Arguments, out: &mut dyn Write) -> Result<Answer, Stop> {
    let (set, file, text) = (given.set()?, given.need_place(0)?, given.need_place(1)?);
    let number = number(text).ok_or_else(|| Stop::usage("a part's number is a number"))?;
    let target = given.place(2);
    target.map_or(Ok(()), |target| apart(target, &[file]))?;
    let seal = read(file)?;
    target.map_or(Ok(()), |target| permit(target, given.force))?;
    let range = skimdral::part_range(set, &seal, number).map_err(|answer| match answer {
        Answer::UnknownPart => unknown_part(set, number),
        answer => explain(answer, set, &[presented(&seal)]),
    })?;
    match target {
        Some(target) => write(target, &seal[range], given.force, out)?,
        None => say(out, format!("start {}, length {}\n", range.start, range.len()).as_bytes())?,
    }
    Ok(Answer::Done)
}

fn digits(given: &Arguments, out: &mut dyn Write) -> Result<Answer, Stop> {
    let (set, text) = (given.set()?, given.need_place(0)?);
    let value = text.to_str().and_then(unhex).ok_or_else(|| Stop::usage("a value is pairs of hex digits"))?;
    let digits = skimdral::digits(set, &value).map_err(|answer| {
        let n = |set: &Set| vec![set.n];
        explain(answer, set, &[Lent { what: "value", length: value.len(), answer: Answer::InputLength, allowed: n }])
    })?;
    let digits: Vec<String> = digits.iter().map(u32::to_string).collect();
    say(out, format!("{}\n", digits.join(" ")).as_bytes())?;
    Ok(Answer::Done)
}

fn unhex(text: &str) -> Option<Vec<u8>> {
    let digits: Vec<u8> = text.chars().map(|c| c.to_digit(16).map(|digit| digit as u8)).collect::<Option<_>>()?;
    let pairs = digits.chunks_exact(2);
    pairs.remainder().is_empty().then(|| pairs.map(|pair| 16 * pair[0] + pair[1]).collect())
}
