//! The commands, a file for each; what several of them share is in command.rs, input.rs and words.rs.

#[cfg(feature = "port")]
mod bench;
pub mod command;
#[cfg(feature = "port")]
mod compare;
#[cfg(feature = "oracle")]
mod evaluate;
#[cfg(feature = "oracle")]
mod families;
#[cfg(feature = "oracle")]
mod flat;
mod generate;
mod help;
mod input;
#[cfg(not(feature = "port"))]
mod no_library;
#[cfg(not(feature = "oracle"))]
mod no_sources;
#[cfg(feature = "oracle")]
mod picture;
#[cfg(feature = "oracle")]
mod report;
mod sample;
mod show;
#[cfg(feature = "oracle")]
mod slips;
#[cfg(feature = "oracle")]
mod tables;
pub mod words;

use command::Command;

// A command whose feature is off says so when it is run.
#[cfg(not(feature = "port"))]
use {no_library as bench, no_library as compare};
#[cfg(not(feature = "oracle"))]
use {
    no_sources as evaluate, no_sources as families, no_sources as flat, no_sources as picture,
    no_sources as report, no_sources as slips, no_sources as tables,
};

pub const COMMANDS: [Command; 13] = [
    Command {
        name: "report",
        arguments: &[],
        help: "the report on the image on standard input, by Vine's own code, with span 0",
        run: report::run,
    },
    Command {
        name: "flat",
        arguments: &[],
        help: "the image on standard input, normalised by Vine's own code if it is layered",
        run: flat::run,
    },
    Command {
        name: "picture",
        arguments: &["LOCAL"],
        help: "the Graphviz text of docs/PICTURE.md for the image on standard input",
        run: picture::run,
    },
    Command {
        name: "show",
        arguments: &[],
        help: "a listing of the image on standard input, a line for each record",
        run: show::run,
    },
    Command { name: "sample", arguments: &["NAME"], help: "a sample's image", run: sample::run },
    Command {
        name: "generate",
        arguments: &["FAMILY", "SEED"],
        help: "the image that a family has for a seed",
        run: generate::run,
    },
    Command {
        name: "families",
        arguments: &["N"],
        help: "N images of each family through Vine's own code, and counts of what came up",
        run: families::run,
    },
    Command {
        name: "slips",
        arguments: &["[N]"],
        help: "for each slip of docs/SLIPS.md the smallest image found, from N seeds, 100 if not said",
        run: slips::run,
    },
    Command {
        name: "evaluate",
        arguments: &["[N]"],
        help: "the definitions against Vine's own code on N short images of each family, 12 if not said",
        run: evaluate::run,
    },
    Command {
        name: "tables",
        arguments: &["NAME"],
        help: "the antt text of RustInvocations, RustWires or RustErrors, by Vine's own code",
        run: tables::run,
    },
    Command {
        name: "compare",
        arguments: &["[N]"],
        help: "the port's check against the harness's own on N images, 20000 if not said",
        run: compare::run,
    },
    Command {
        name: "bench",
        arguments: &[],
        help: "the table of docs/BENCHMARK.md: the port's check beside the harness's own",
        run: bench::run,
    },
    Command { name: "help", arguments: &[], help: "this text", run: help::run },
];
