//! Clusters of real members, for some seconds. They need `simplex_node_cli`: `make hosts-test` runs them where it is built.
#![allow(clippy::unwrap_used)]

use letsvaku_hosts::cluster::{remove, Cluster, Goal, Outcome, Plan};
use std::time::Duration;

fn run(name: &str, python: usize) -> Outcome {
    let folder = std::env::temp_dir().join(format!("clusters-{}-{name}", std::process::id()));
    let plan = Plan {
        members: 4,
        python,
        member: env!("CARGO_BIN_EXE_member").into(),
        program: None,
        folder: folder.clone(),
        pace: Duration::from_millis(10),
        retention: 20,
        // So long that a busy machine passes too.
        timeout: Duration::from_secs(10),
        has_logs: false,
    };
    let goal = Goal {
        transfers: 20,
        views: 5,
        time: Duration::from_secs(120),
        enough: None,
        every: None,
        seed: 7,
    };
    let outcome = Cluster::start(&plan).and_then(|mut cluster| cluster.drive(&goal));
    remove(&folder).unwrap();
    outcome.unwrap_or_else(|why| panic!("{why}"))
}

fn check(outcome: &Outcome) {
    assert!(outcome.views >= 5 && outcome.blocks >= 1, "{outcome}");
    assert_eq!(outcome.balances.values().sum::<u64>(), 5000);
}

#[test]
#[ignore = "needs simplex_node_cli"]
fn four_members_in_rust_agree() {
    let outcome = run("rust", 0);
    check(&outcome);
    assert!(outcome.host_syncs >= outcome.blocks);
}

#[test]
#[ignore = "needs simplex_node_cli"]
fn two_members_in_python_and_two_in_rust_agree() {
    check(&run("mixed", 2));
}
