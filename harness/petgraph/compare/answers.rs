//! Results of the unchanged original on generated sheets. Built once with the
//! stand-in and once with petgraph; the two must print the same.

use sheets::codec::encode;
use sheets::generate::PROFILES;

fn main() {
    std::panic::set_hook(Box::new(|_| {}));
    // Sheets about refusal 7 are where the original, which has none, takes long.
    for profile in PROFILES.iter().filter(|profile| profile.name != "near-7") {
        for seed in 0..400 {
            let sheet = profile.sheet(seed);
            let answer = std::panic::catch_unwind(|| original::run(&sheet));
            let words = answer.map(|answer| encode(&answer.result));
            println!("{} {seed} {:?}", profile.name, words.ok());
        }
    }
}
