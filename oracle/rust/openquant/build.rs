//! Copies hrp.rs and hcaa.rs for `src/lib.rs` to include beside functions that call their private ones. `include!` takes no inner
//! doc comment, so each `//!` becomes `//`; nothing else changes. Of hcaa.rs a second copy is made, in which one line more changes:
//! that of the Nearest rule, which calls document 02's.
use std::{env, fs, path::Path};

const SOURCE_RULE: &str = "    stats::quantile(values, q, QuantileMethod::Nearest).unwrap_or(0.0)";

const OUR_RULE: &str = "    crate::nearest::quantile(values, q)";

fn main() {
    let out = env::var("OUT_DIR").unwrap();
    let put = |name: &str, text: String| fs::write(Path::new(&out).join(name), text).unwrap();
    for name in ["hrp.rs", "hcaa.rs"] {
        let from = Path::new("src").join(name);
        let text = fs::read_to_string(&from).unwrap();
        let plain: String = text.lines().map(|l| l.strip_prefix("//!").map_or(format!("{l}\n"), |t| format!("//{t}\n"))).collect();
        if name == "hcaa.rs" {
            assert_eq!(plain.lines().filter(|l| *l == SOURCE_RULE).count(), 1, "hcaa.rs has its Nearest rule in one line");
            put("hcaa_ruled.rs", plain.replace(SOURCE_RULE, OUR_RULE));
        }
        put(name, plain);
        println!("cargo:rerun-if-changed={}", from.display());
    }
}
