//! The words of crate `finite` that are known without their page, compared with
//! their own definitions: a page that uses each is evaluated both ways.

use pages::{Evaluator, Program, Value, OF_FINITE};
use std::path::{Path, PathBuf};
use std::{env, fs, process};

const SMALL: &str = "
use Rattle.std.specs.Prelude.{Bool, List, ℕ, ◌+◌, ◌*◌, get_or, eqb}
use Rattle.finite.specs.Logic.{◌and◌, ◌or◌}
use Rattle.finite.specs.Below.{any_below, all_below, least}
use Rattle.finite.specs.Lists.{tabulate}
use Rattle.finite.specs.Closure.{through}
use Rattle.finite.specs.Walk.{walk}

passes : List ℕ → ℕ → Bool
passes l k = eqb (get_or l k 0) 1

related : List ℕ → ℕ → ℕ → Bool
related l i j = eqb (get_or l (i * 5 + j) 0) 1

logic : List ℕ → Bool
logic l = passes l 0 and passes l 1 or passes l 2 and (passes l 3 or passes l 4)

below : List ℕ → ℕ → List ℕ
below l n = tabulate (λ k. get_or l (k + least n (passes l)) 7) n

some : List ℕ → ℕ → Bool
some l n = any_below n (passes l)

all : List ℕ → ℕ → Bool
all l n = all_below n (passes l)

lowest : List ℕ → ℕ → ℕ
lowest l n = least n (passes l)

reached : List ℕ → ℕ → ℕ → ℕ → Bool
reached l n i j = through (related l) n i j

walked : List ℕ → ℕ → ℕ → ℕ → ℕ → Bool
walked l n x k z = walk n (related l) x k z
";

/// A folder of crates with `finite` and the page above, or with the same under
/// another name, by which no word is known without its page.
fn crates(name: &str) -> PathBuf {
    // Not below the repository, where every page must belong to a crate.
    let folder = env::temp_dir().join(format!("stramashly-natives-{name}-{}", process::id()));
    let renamed = |text: &str| text.replace("Rattle.finite", &format!("Rattle.{name}"));
    let pages = folder.join(format!("{name}/specs"));
    fs::create_dir_all(&pages).unwrap();
    fs::create_dir_all(folder.join("small/specs")).unwrap();
    fs::write(folder.join("small/specs/Small.antt"), renamed(SMALL)).unwrap();
    let own = Path::new(env!("CARGO_MANIFEST_DIR")).join("../../crates/finite/specs");
    for page in fs::read_dir(own).unwrap() {
        let page = page.unwrap();
        let text = fs::read_to_string(page.path()).unwrap();
        fs::write(pages.join(page.file_name()), renamed(&text)).unwrap();
    }
    folder
}

/// The same numbers each time, of which about a third are 1.
struct Numbers(u64);

impl Numbers {
    fn below(&mut self, bound: u64) -> u64 {
        self.0 = self
            .0
            .wrapping_mul(6364136223846793005)
            .wrapping_add(1442695040888963407);
        (self.0 >> 33) % bound
    }

    fn list(&mut self, count: usize) -> Vec<u64> {
        let share = 2 + self.below(4);
        (0..count)
            .map(|_| u64::from(self.below(share) == 0))
            .collect()
    }
}

#[test]
fn every_native_is_tried() {
    for (word, ..) in OF_FINITE {
        let word = word.trim_matches('◌');
        assert!(
            SMALL
                .split_whitespace()
                .filter(|part| *part == word)
                .count()
                > 0,
            "{word}"
        );
    }
}

/// What a definition gives, as text.
fn told(pages: &mut Evaluator, definition: &str, arguments: &[Value]) -> String {
    match pages.ask(definition, arguments).unwrap() {
        Value::Number(number) => number.to_string(),
        Value::Truth(truth) => truth.to_string(),
        list => {
            let numbers = list.parts().iter().map(|value| match pages.force(value) {
                Ok(Value::Number(number)) => number,
                _ => panic!("no number in {definition}"),
            });
            format!("{:?}", numbers.collect::<Vec<u64>>())
        }
    }
}

#[test]
fn natives_give_what_their_definitions_give() {
    let folders = ["finite", "slow"].map(crates);
    let [mut quick, mut own] = folders
        .clone()
        .map(|crates| Evaluator::new(Program::new(crates)));
    let mut numbers = Numbers(1);
    let mut truths = [0, 0];
    for _ in 0..300 {
        quick.forget();
        own.forget();
        let list = Value::list(numbers.list(5).into_iter().map(Value::Number));
        let grid = Value::list(numbers.list(25).into_iter().map(Value::Number));
        // A relation may be asked of numbers past the bound.
        let [n, x, k, z] = [6, 5, 6, 5].map(|bound| numbers.below(bound));
        let given = |first: &Value, rest: &[u64]| {
            let rest = rest.iter().map(|number| Value::Number(*number));
            [first.clone()]
                .into_iter()
                .chain(rest)
                .collect::<Vec<Value>>()
        };
        for (name, arguments) in [
            ("logic", given(&list, &[])),
            ("below", given(&list, &[n])),
            ("some", given(&list, &[n])),
            ("all", given(&list, &[n])),
            ("lowest", given(&list, &[n])),
            ("reached", given(&grid, &[n, x, z])),
            ("walked", given(&grid, &[n, x, k, z])),
        ] {
            let name = format!("small/Small.{name}");
            let told = told(&mut own, &name, &arguments);
            assert_eq!(told, self::told(&mut quick, &name, &arguments), "{name}");
            truths[usize::from(told == "true")] += 1;
        }
    }
    assert!(truths.iter().all(|count| *count > 400), "{truths:?}");
    for folder in folders {
        fs::remove_dir_all(folder).unwrap();
    }
}
