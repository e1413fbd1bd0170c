//! Takes the Rust where it lies, applies checked patches, and writes one file of modules to OUT_DIR.
use std::env;
use std::fs;
use std::path::{Path, PathBuf};

/// A text of one file, how often it must occur, and what stands in its place.
struct Patch {
    search: &'static str,
    times: usize,
    replace: &'static str,
}

/// The search: every query is announced, counted and answered to the meter.
const SAT: &[Patch] = &[
    Patch {
        search: "            self.propagation_head += 1;\n",
        times: 1,
        replace: "            self.propagation_head += 1;\n            crate::meter::propagated();\n",
    },
    Patch {
        search: "                let (learned, backtrack_level) = self.analyze(conflict);\n",
        times: 1,
        replace: "                let (learned, backtrack_level) = self.analyze(conflict);\n                crate::meter::learn(learned.len(), || learned.iter().map(|literal| literal.watch_index()).collect());\n",
    },
    Patch {
        search: "            self.activity_increment *= 1.0e-100;\n",
        times: 1,
        replace: "            self.activity_increment *= 1.0e-100;\n            crate::meter::rescaled();\n",
    },
    Patch {
        search: "        loop {\n            if let Some(conflict) = self.propagate() {\n",
        times: 1,
        replace: "        loop {\n            crate::meter::turn(|| self.state());\n            if let Some(conflict) = self.propagate() {\n",
    },
    Patch {
        search: "    let mut solver = Solver::new(aig.nodes().len().saturating_sub(1));\n",
        times: 1,
        replace: "    crate::meter::begin(aig, assumptions);\n    let mut solver = Solver::new(aig.nodes().len().saturating_sub(1));\n",
    },
    Patch {
        search: "    solver.solve()\n}",
        times: 1,
        replace: "    let model = solver.solve();\n    crate::meter::end(model.as_deref());\n    model\n}",
    },
];

/// What a state of the search shows: literals by the number of their watch list.
const SAT_STATE: &str = "
impl Solver {
    /// What stands before a turn of the loop.
    fn state(&self) -> crate::meter::State {
        let number = |literal: &SatLiteral| literal.watch_index();
        crate::meter::State {
            clauses: self.clauses.iter().map(|clause| clause.literals.iter().map(number).collect()).collect(),
            watched: self.clauses.iter().map(|clause| clause.watched).collect(),
            watches: self.watches.clone(),
            trail: self.trail.iter().map(number).collect(),
            trail_limits: self.trail_limits.clone(),
            propagation_head: self.propagation_head,
            levels: self.levels.clone(),
            reasons: self.reasons.clone(),
            phases: self.phases.clone(),
            activity: self.activity.iter().map(|score| score.to_bits()).collect(),
            activity_increment: self.activity_increment.to_bits(),
        }
    }
}
";

/// The queries: each says its number and depth before it is solved; query 1 and the pair's checks can be called alone. Query 1 with depth 0 is query 0 of depth 1.
const EQUIVALENCE: &[Patch] = &[
    Patch {
        search: "    let model = solve(&proof, &[any_mismatch])?;\n",
        times: 1,
        replace: "    crate::meter::query(depth.max(1), usize::from(depth > 0));\n    let model = solve(&proof, &[any_mismatch])?;\n",
    },
    Patch {
        search: "    solve(&proof, &[any_mismatch]).is_none()\n",
        times: 1,
        replace: "    crate::meter::query(depth, 2);\n    solve(&proof, &[any_mismatch]).is_none()\n",
    },
    Patch {
        search: "    solve(&proof, &assumptions).is_none()\n",
        times: 1,
        replace: "    crate::meter::query(depth, if include_named_state { 3 } else { 4 });\n    solve(&proof, &assumptions).is_none()\n",
    },
    Patch {
        search: "\nfn base_counterexample(\n",
        times: 1,
        replace: "\npub(crate) fn base_counterexample(\n",
    },
    Patch {
        search: "\nfn validate_problem(\n",
        times: 1,
        replace: "\npub(crate) fn validate_problem(\n",
    },
];

/// A netlist of given nodes and registers, one for one; the builder would merge some.
const RAW_NETLIST: &str = "
impl NetId {
    /// The net with this number.
    pub const fn raw(index: u32) -> Self {
        Self(index)
    }
}

impl Netlist {
    /// The netlist with these nodes and registers; ports are as add_input and add_output make them.
    pub fn from_raw(name: String, nodes: Vec<(NodeKind, Vec<NetId>)>, registers: Vec<RegisterCell>) -> Self {
        let mut netlist = Self::new(name);
        for (kind, inputs) in nodes {
            let port = match &kind {
                NodeKind::Input(name) => Some((name.clone(), PortDirection::Input)),
                NodeKind::Output(name) => Some((name.clone(), PortDirection::Output)),
                _ => None,
            };
            let net = netlist.add_node(kind, inputs);
            if let Some((name, direction)) = port {
                netlist.ports.push(Port { name, direction, bits: vec![net] });
            }
        }
        netlist.registers = registers;
        netlist
    }
}
";

/// The folder of the Rust.
fn source() -> PathBuf {
    if let Ok(folder) = env::var("STRUO_SRC") {
        return PathBuf::from(folder);
    }
    let package = PathBuf::from(env::var("CARGO_MANIFEST_DIR").expect("cargo names the package's folder"));
    package.join("../../shared/docs/src")
}

/// A file's text with its patches.
fn patched(folder: &Path, file: &str, patches: &[Patch], added: &str) -> String {
    let path = folder.join(file);
    println!("cargo:rerun-if-changed={}", path.display());
    let mut text = fs::read_to_string(&path)
        .unwrap_or_else(|error| panic!("{}: {error}; set STRUO_SRC to the folder of the Rust", path.display()));
    for patch in patches {
        let times = text.matches(patch.search).count();
        assert!(
            times == patch.times,
            "{file}: a patch's text occurs {times} times, not {}:\n{}",
            patch.times,
            patch.search
        );
        text = text.replace(patch.search, patch.replace);
    }
    text + added
}

/// A module that holds a file's text.
fn module(name: &str, before: &str, text: &str) -> String {
    format!("#[allow(dead_code, unused, clippy::all)]\npub mod {name} {{\n{before}{text}\n}}\n\n")
}

/// Writes the modules.
fn main() {
    println!("cargo:rerun-if-env-changed=STRUO_SRC");
    println!("cargo:rerun-if-changed=build.rs");
    let folder = source();
    let formal = |file: &str, patches: &[Patch], added: &str| {
        patched(&folder, &format!("crates/struo-formal/src/{file}.rs"), patches, added)
    };
    let ir = patched(&folder, "crates/struo-ir/src/lib.rs", &[], RAW_NETLIST);
    let names = "use crate::struo_ir;\n";
    let whole = module("struo_ir", "", &ir)
        + &module("aig", "", &formal("aig", &[], ""))
        + &module("sat", "", &formal("sat", SAT, SAT_STATE))
        + &module("plain_sat", "", &formal("sat", &[], ""))
        + &module("transition", names, &formal("transition", &[], ""))
        + &module("equivalence", names, &formal("equivalence", EQUIVALENCE, ""));
    let out = PathBuf::from(env::var("OUT_DIR").expect("cargo names OUT_DIR"));
    fs::write(out.join("struo.rs"), whole).expect("OUT_DIR can be written");
}
