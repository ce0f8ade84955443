//! Live lists of every kind of length.

use super::sample;
use crate::draft::*;
use crate::random::{self, MEDIUM, SMALL};
use crate::rng::Rng;
use crate::script::Script;

pub fn lives(script: &mut Script) {
    script.line("# lives");
    script.line("live 0 0");
    script.line("live 0 2");
    for draft in [figures(), vec![sample()]].concat() {
        script.bytes("table", &draft.bytes());
        for length in 0..8 {
            script.line(&format!("live 0 {}", length));
        }
        for signal in [
            "1",
            "2",
            "31",
            "32",
            "255",
            "256",
            "65536",
            "4294967295",
            "4294967296",
            "18446744073709551615",
        ] {
            script.line(&format!("live {} 2", signal));
        }
    }
    for line in [
        "live 18446744073709551616 0",
        "live 0 601",
        "live 0 18446744073709551615",
        "live 00 0002",
    ] {
        script.line(line);
    }
    large_lives(script);
    let mut rng = Rng::new(4);
    for round in 0..420 {
        let bytes = match round % 14 {
            0 => random::draft(&mut rng, MEDIUM).bytes(),
            1 => random::spoiled(&mut rng, round / 14 % 13, SMALL),
            _ => random::draft(&mut rng, SMALL).bytes(),
        };
        script.lives(&mut rng, &bytes);
    }
}

fn large_lives(script: &mut Script) {
    for (draft, lengths) in [
        (crowded(16, 1), vec![0, 155, 156, 157]),
        (crowded(16, 9), vec![156]),
        (crowded(12, 2), vec![75, 90]),
        (wide(), vec![200, 201, 250, 251]),
        (
            Draft::default()
                .task(0, 1, 1)
                .task(0, 511, 511)
                .signals(1)
                .writes(0, 0)
                .reads(1, 0),
            vec![511, 512, 513, 600],
        ),
        (
            Draft::default()
                .task(0, 10_000, 10_000)
                .signals(1)
                .writes(0, 0)
                .reads(0, 0),
            vec![1, 2, 3],
        ),
        (longest(), vec![0, 1, 2]),
    ] {
        script.bytes("table", &draft.bytes());
        for length in lengths {
            script.line(&format!("live 0 {}", length));
            script.line(&format!("live {} {}", draft.defaults.len() - 1, length));
        }
    }
}
