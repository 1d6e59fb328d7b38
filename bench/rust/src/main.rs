//! The same work as `bench wire`, in plain Rust: encodes, decodes and verifies a certificate of SIZE members.
//! `bench_wire WORK SIZE TIMES`, where WORK is `encode`, `decode`, `verify` or `all`.

mod wire;

use wire::{Attestation, Certificate, Keyed, Proposal, Round, Signed, Subject};

const KEY_BASE: u64 = 1;

fn main() {
    let words: Vec<String> = std::env::args().collect();
    let work = words.get(1).map_or("all", String::as_str);
    let size: u32 = words[2].parse().expect("how many members");
    let times: u32 = words[3].parse().expect("how many times");
    let members = size.clamp(1, 127);
    let proposal = Proposal {
        round: Round {
            epoch: 3,
            view: 300,
        },
        parent: 299,
        payload: [17; 32],
    };
    let scheme = Keyed::new(KEY_BASE, members);
    let subject = Subject::Notarize(proposal);
    let certificate = Certificate::Notarization(Signed {
        about: proposal,
        certificate: (0..members)
            .map(|signer| Attestation {
                signer,
                signature: scheme.signature(signer, &subject),
            })
            .collect(),
    });
    let bytes = certificate.encode();
    if matches!(work, "encode" | "all") {
        let written: usize = (0..times)
            .map(|_| std::hint::black_box(&certificate).encode().len())
            .sum();
        println!("wire encode {size} {times} {written}");
    }
    if matches!(work, "decode" | "all") {
        let views: u64 = (0..times)
            .map(|_| {
                let bytes = std::hint::black_box(bytes.as_slice());
                std::hint::black_box(Certificate::decode(bytes).unwrap()).view()
            })
            .sum();
        println!("wire decode {size} {times} {views}");
    }
    if matches!(work, "verify" | "all") {
        let verified = (0..times)
            .filter(|_| std::hint::black_box(&certificate).verify(&scheme))
            .count();
        println!("wire verify {size} {times} {verified}");
    }
}
