//! Writes the calls and the source's answers that a program is run on: `record replay|risks|hrp_accounts|hcaa_accounts CALLS ANSWERS [SEED]`.
//! Without a seed they are those of the repository. The last three share one run of cases, of which each has the calls of its opcodes.
mod account_calls;
mod account_cases;
mod calls;
mod cases;
mod hcaa_calls;
mod hcaa_cases;
mod kinds;
mod random;
mod rules;
mod tail_cases;

fn main() -> std::io::Result<()> {
    let names: Vec<String> = std::env::args().skip(1).collect();
    let played: &'static [usize] = match names[0].as_str() {
        "replay" => &[1, 2, 3, 4, 5, 6, 7, 8, 9, 10, 11, 12, 13],
        "risks" => &[1, 2, 3, 4, 7, 8, 9],
        "hrp_accounts" => &[5],
        "hcaa_accounts" => &[6],
        other => panic!("no program {other}"),
    };
    let mut out = calls::Record { played, ..Default::default() };
    let seed = names.get(3).map_or(20260731, |s| s.parse().expect("a seed"));
    let mut rng = random::Random::new(seed);
    match names[0].as_str() {
        "replay" => cases::all(&mut out, &mut rng),
        _ => account_cases::all(&mut out, &mut rng),
    }
    std::fs::write(&names[1], &out.calls)?;
    std::fs::write(&names[2], &out.answers)?;
    for (code, (calls, done)) in played.iter().map(|code| (code, out.counts[*code])) {
        eprintln!("opcode {code:x}: {calls} calls, {done} done, {} refused", calls - done);
    }
    Ok(())
}
