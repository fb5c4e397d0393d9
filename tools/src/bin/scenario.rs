//! Makes a trace of a scenario.
//!
//!     scenario [FILE] > my.trace
//!
//! docs/BENCH.md tells the language.

use tools::scenario::read;

const USAGE: &str = "scenario [FILE] > TRACE: makes a trace of the scenario in FILE, or on standard input
A scenario is plain text, one directive to a line:
    good 20000
    from 5001 for 800 fas lost
    mark every 10000
Status: 0 made, 1 a mistake in the scenario or a file that cannot be read, 2 a mistake in the command line.
docs/BENCH.md tells the language; examples/scenarios has some to begin with.
";

fn main() -> std::process::ExitCode {
    tools::program::run(USAGE, |_| Ok(()), |given, ()| read(&given.text), |scenario, out| scenario.write(out))
}
