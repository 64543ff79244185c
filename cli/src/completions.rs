//! `completions`: what a shell reads to complete the command's words.

use clap::CommandFactory;
use clap_complete::shells::{Bash, Fish, Zsh};
use clap_complete::{generate, Generator};

use crate::args::{Line, Shell};
use crate::many::Answer;
use crate::status::Status;

pub fn completions(shell: Shell) -> Answer {
    let out = match shell {
        Shell::Bash => script(Bash),
        Shell::Zsh => script(Zsh),
        Shell::Fish => script(Fish),
    };
    Answer { out, err: String::new(), status: Status::Listed }
}

fn script(shell: impl Generator) -> Vec<u8> {
    let mut out = Vec::new();
    generate(shell, &mut Line::command(), "cakirotu", &mut out);
    out
}
