//! The samples: their images, the line that each input must give, and the images that are kept beside programs.

use yarnspire::files::{bytes, names, path};
use yarnspire::samples::{expected, grammar, image, Expected};
use yarnspire::{check, harbour, notation, recognise, reference, Answer, Limits};

const SAMPLES: [&str; 7] = ["bulletin", "harbour", "heredoc", "indentation", "tags", "tides", "typedef"];

#[test]
fn every_folder_is_a_sample() {
    let folders: Vec<String> = names("samples").into_iter().filter(|name| path("samples").join(name).is_dir()).collect();
    assert_eq!(folders, SAMPLES);
    for sample in SAMPLES {
        let others: Vec<String> = names(&format!("samples/{sample}")).into_iter().filter(|name| !name.ends_with(".text")).collect();
        assert_eq!(others, ["grammar.nez"], "{sample}");
    }
}

#[test]
fn both_readers_give_a_sample_one_image() {
    for sample in SAMPLES {
        let by_reader = notation::compile(&grammar(sample), None).unwrap_or_else(|stop| panic!("{sample}: {stop:?}"));
        assert_eq!(image(sample), by_reader.image, "{sample}");
        assert_eq!(check(&image(sample)), Ok(()), "{sample}");
    }
}

#[test]
fn the_harbour_sample_is_image_h() {
    assert_eq!(image("harbour"), harbour::H);
}

/// The line that the program `recognise` writes.
fn line(answer: Answer) -> String {
    match answer {
        Answer::Accepted { consumed, steps, depth, symbols } => format!("accept {consumed} {steps} {depth} {symbols}"),
        Answer::Failed { steps, depth } => format!("fail {steps} {depth}"),
        Answer::Refused { refusal, .. } => format!("refuse {} {}", refusal.number, refusal.place),
    }
}

/// samples/expected is what the reference gives; the library is held to it.
#[test]
fn every_input_gives_its_line() {
    for entry in expected() {
        let (image, input) = (image(&entry.sample), entry.input());
        let Expected { name, line: wanted, .. } = entry;
        let mut slots = vec![0; Limits::AMPLE.slots()];
        let (numbers, _) = reference::recognise(&image, &input, Limits::AMPLE, &mut slots, None);
        assert_eq!(line(numbers.into()), wanted, "{name}, by the reference");
        let mut own_slots = vec![0; Limits::AMPLE.slots()];
        assert_eq!(line(recognise(&image, &input, Limits::AMPLE, &mut own_slots)), wanted, "{name}, by the library");
        assert_eq!(own_slots, slots, "{name}");
    }
}

#[test]
fn every_input_has_a_line() {
    let files = SAMPLES.iter().flat_map(|sample| names(&format!("samples/{sample}")).into_iter().map(move |name| format!("{sample}/{name}")));
    let inputs: Vec<String> = files.filter(|name| name.ends_with(".text")).collect();
    let mut with_lines: Vec<String> = expected().into_iter().map(|entry| entry.name).collect();
    with_lines.sort();
    assert_eq!(with_lines, inputs);
}

/// The prover runs these programs on the files of their folder `data`, where no image can be compiled first.
#[test]
fn images_beside_programs_are_those_of_samples() {
    let kept: Vec<String> = names("crates").into_iter().filter(|name| path("crates").join(name).join("data/rules").is_file()).collect();
    let sources = [("inspect", "harbour"), ("names", "bulletin"), ("recognise", "harbour")];
    assert_eq!(kept, sources.map(|(program, _)| program));
    for (program, sample) in sources {
        assert_eq!(bytes(&format!("crates/{program}/data/rules")), image(sample), "{program}, from samples/{sample}/grammar.nez");
    }
}
