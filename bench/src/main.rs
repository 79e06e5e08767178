//! Times the proved library beside the Rust code written from the documents and, for tags, OpenSSL, and prints tables.
//! `bench/run` builds what this links and starts it.

mod agreement;
mod inputs;
mod measure;
mod openssl;
mod rattle;
mod rust;
mod sides;
mod tables;

use measure::Rounds;
use openssl::Openssl;

const USAGE: &str = "usage: bench [--quick]
  --quick   fewer and shorter rounds, to see that all runs; the figures are rough";

/// The names under which systems keep libcrypto.
const LIBCRYPTO: [&str; 2] = ["libcrypto.so.3", "libcrypto.so"];

fn main() {
    let rounds = match std::env::args().skip(1).collect::<Vec<_>>().as_slice() {
        [] => Rounds { count: 51, span: 4e6 },
        [only] if only == "--quick" => Rounds { count: 5, span: 5e5 },
        _ => {
            eprintln!("{USAGE}");
            std::process::exit(2);
        }
    };
    let with = LIBCRYPTO.iter().find_map(|name| Openssl::open(name));
    let without = std::env::var("LIBCRYPTO_WITHOUT_ASSEMBLY").ok().map(|path| {
        Openssl::open(&path).unwrap_or_else(|| {
            eprintln!("bench: LIBCRYPTO_WITHOUT_ASSEMBLY is no libcrypto that can be opened: {path}");
            std::process::exit(2);
        })
    });
    agreement::check(with.as_ref(), without.as_ref());
    println!("{} rounds a row, each {} bytes deeper in the stack.", rounds.count, measure::step());
    println!();
    tables::tags(rounds, with.as_ref(), without.as_ref());
    tables::calls(rounds);
    tables::question(rounds);
    tables::growth(rounds);
}
