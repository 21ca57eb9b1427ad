//! Links the copies of an old and a new archive that `compare` makes, where `FELKNOST_COPIES` names their folder. `FELKNOST_DEAREST_COPIES` and
//! `FELKNOST_LAZY_COPIES` tell, by yes or no, whether both archives have felknost_dearest_points and felknost_run_lazy.

/// The variables about services that an archive may lack, and the names that stand for them in the program.
const LATER: [(&str, &str); 2] = [
    ("FELKNOST_DEAREST_COPIES", "dearest_copies"),
    ("FELKNOST_LAZY_COPIES", "lazy_copies"),
];

fn main() {
    println!("cargo:rustc-check-cfg=cfg(copies, dearest_copies, lazy_copies)");
    println!("cargo:rerun-if-env-changed=FELKNOST_COPIES");
    for (variable, _) in LATER {
        println!("cargo:rerun-if-env-changed={variable}");
    }
    if let Ok(folder) = std::env::var("FELKNOST_COPIES") {
        println!("cargo:rerun-if-changed={folder}/libfelknost_copies.a");
        println!("cargo:rustc-cfg=copies");
        for (variable, name) in LATER {
            if std::env::var(variable).is_ok_and(|both| both == "yes") {
                println!("cargo:rustc-cfg={name}");
            }
        }
        println!("cargo:rustc-link-search=native={folder}");
        println!("cargo:rustc-link-lib=static=felknost_copies");
    }
}
