//! `studio FOLDER` writes the studio example: a tree in both orders and as text, an afternoon of calls with the
//! model's answers, and three damaged files. The afternoon keeps the link's discipline.

use outside::calls::{print_call, replay, Call, Departure, State};
use outside::curves::Curve;
use outside::file::{file_of, Order};
use outside::history::held;
use outside::tree::{Class, Tree};
use std::path::Path;

const SPEECH: u32 = 3;
const REMOTE: u32 = 4;
const PICTURE: u32 = 5;
const COPIES: u32 = 6;
const MAIL: u32 = 7;

/// The stamp comes round to zero 20,000 ticks into the afternoon.
const FIRST_STAMP: u32 = u32::MAX - 19_999;

const COPIES_START: u128 = 18_000;

fn studio_tree() -> Tree {
    let class = |parent, share, curve| Class { parent, share, curve };
    Tree::under_root(&[
        class(0, 49_152, Curve::None),                                            // 1 the studio
        class(0, 16_384, Curve::None),                                            // 2 the office
        class(1, 16_384, Curve::FrontLoaded { m1: 14_418, d: 1_000, m2: 3_605 }), // 3 speech: 200 bytes, 220 on the link, in 1,000 ticks and every 4,000
        class(1, 8_192, Curve::Delayed { d: 2_000, m: 6_554 }),                   // 4 remote control
        class(1, 24_576, Curve::Straight { m: 16_384 }),                          // 5 picture
        class(2, 12_288, Curve::None),                                            // 6 nightly copies
        class(2, 4_096, Curve::None),                                             // 7 mail
    ])
}

const HEADING: &str = "\
# An afternoon in the studio, in ticks of one byte.
# 1 the studio, 2 the office (interior); 3 speech, 4 remote control, 5 picture, 6 nightly copies, 7 mail (leaves).
# Speech comes every 4,000 ticks. The copies start early today, at tick 18,000. The stamp comes round at 20,000.
";

#[derive(Clone, Copy)]
struct Arrival {
    at: u128,
    class: u32,
    length: u32,
}

/// What comes, in order of time.
fn arrivals() -> Vec<Arrival> {
    let speech = (0..9).map(|number| Arrival { at: 4_000 * number, class: SPEECH, length: 200 });
    let picture = (0..4).map(|number| Arrival { at: 500 + 9_000 * number, class: PICTURE, length: 1_200 });
    let remote = [1_500, 9_000, 9_000, 21_000, 30_500].map(|at| Arrival { at, class: REMOTE, length: 60 });
    let mail = [6_000, 6_000, 26_000].map(|at| Arrival { at, class: MAIL, length: 700 });
    let copies = [1_500, 1_500, 9_000, 1_500, 1_500, 1_500].map(|length| Arrival { at: COPIES_START, class: COPIES, length });
    let mut all: Vec<Arrival> = speech.chain(picture).chain(remote).chain(mail).chain(copies).collect();
    all.sort_by_key(|arrival| arrival.at);
    all
}

fn stamp(at: u128) -> u32 {
    FIRST_STAMP.wrapping_add(at as u32)
}

/// The calls file: an arrival when it comes, a departure as soon as the link is free and a packet waits.
fn calls() -> String {
    let mut state = State::start(&studio_tree(), FIRST_STAMP).expect("the studio tree is right");
    let mut text = format!("{HEADING}{}\n", print_call(Call::Start { stamp: FIRST_STAMP }));
    let mut coming = arrivals().into_iter().peekable();
    let (mut link_free, mut copies_began) = (0, false);
    loop {
        let departs_at = state.history.clock().max(link_free);
        let waits = !state.history.waiting_leaves().is_empty();
        match coming.next_if(|arrival| !waits || arrival.at <= departs_at) {
            Some(Arrival { at, class, length }) => {
                if class == COPIES && !copies_began {
                    text += "# the nightly copies start\n";
                    copies_began = true;
                }
                state.arrive(stamp(at), class, length).expect("an arrival of the afternoon is accepted");
                text += &(print_call(Call::Arrive { stamp: stamp(at), class, length }) + "\n");
            }
            None => {
                text += &(print_call(Call::Depart { stamp: stamp(departs_at) }) + "\n");
                match state.depart(stamp(departs_at)).expect("a departure of the afternoon is accepted") {
                    Departure::Packet(packet) => link_free = departs_at + held(packet.length),
                    Departure::NoneWaits => return text,
                }
            }
        }
    }
}

/// The last word is missing: the total differs from the bytes given (5).
fn cut() -> Vec<u8> {
    let mut bytes = file_of(&studio_tree(), Order::Big);
    bytes.truncate(bytes.len() - 4);
    bytes
}

/// Remote control has no share (7, class 4).
fn no_share() -> Vec<u8> {
    let mut tree = studio_tree();
    tree.classes[REMOTE as usize].share = 0;
    file_of(&tree, Order::Big)
}

/// The picture is promised the whole link (10).
fn too_much() -> Vec<u8> {
    let mut tree = studio_tree();
    tree.classes[PICTURE as usize].curve = Curve::Straight { m: 65_536 };
    file_of(&tree, Order::Big)
}

fn main() {
    let Some(folder) = std::env::args().nth(1) else {
        println!("usage: studio FOLDER");
        std::process::exit(2)
    };
    let folder = Path::new(&folder);
    std::fs::create_dir_all(folder).expect("make the folder");
    let put = |name: &str, bytes: &[u8]| std::fs::write(folder.join(name), bytes).expect("write a file of the example");
    let tree_file = file_of(&studio_tree(), Order::Big);
    let calls = calls();
    put("studio.tree", &tree_file);
    put("studio-little.tree", &file_of(&studio_tree(), Order::Little));
    put("studio.txt", studio_tree().print().as_bytes());
    put("studio.calls", calls.as_bytes());
    put("studio.out", replay(&tree_file, calls.as_bytes()).printed.as_bytes());
    put("damaged-cut.tree", &cut());
    put("damaged-share.tree", &no_share());
    put("damaged-fit.tree", &too_much());
}
