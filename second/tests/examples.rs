//! The examples of the papers.

use second::listing::Listing;
use second::packet;
use second::script::{write_bytes, Player};
use second::stream::answer_lines;
use second::{Pid, Plain};

fn play(script: &str) -> Vec<String> {
    let mut player = Player::new(Plain);
    let mut out = Vec::new();
    answer_lines(&mut script.as_bytes(), &mut out, |line, out| {
        player.play(line, out)
    })
    .unwrap();
    lines(out)
}

fn list(input: &[u8]) -> Vec<String> {
    let mut listing = Listing::new().unwrap();
    let mut out = Vec::new();
    let mut input = input;
    answer_lines(&mut input, &mut out, |line, out| listing.answer(line, out)).unwrap();
    out.extend_from_slice(listing.last_line().as_bytes());
    lines(out)
}

fn lines(out: Vec<u8>) -> Vec<String> {
    String::from_utf8(out)
        .unwrap()
        .lines()
        .map(str::to_owned)
        .collect()
}

/// The answer to the last line.
fn last(script: &str) -> String {
    play(script).pop().unwrap()
}

const DESK: &str = "start full 256\naddress 1\nconfigure 0 normal out bulk 1 8\narm 0 0 16 8\n\
                    configure 1 normal in bulk 1 8\narm 1 0 32 1\n";

#[test]
fn listing_example() {
    let input = b"E18158\nC3FF00FF\nE18158\nC3FF00FF\nE18158\n4B0000\n698158\nD2\n698158\n";
    let output = [
        "-",
        "D2",
        "-",
        "D2",
        "-",
        "5A",
        "C30040BF",
        "-",
        "5A",
        "out 1 in 1",
    ];
    assert_eq!(list(input), output);
}

#[test]
fn listing_edges() {
    assert_eq!(list(b""), ["out 0 in 0"]);
    assert_eq!(
        list(b"\r\n0\nE1 8158\nzz\n\n#\n"),
        [
            "bad line",
            "bad line",
            "bad line",
            "bad line",
            "-",
            "bad line",
            "out 0 in 0"
        ]
    );
    assert_eq!(
        list(b"e18158\nbad\nc3ff00ff"),
        ["-", "bad line", "D2", "out 1 in 0"]
    );
    assert_eq!(list(b"A5B1FA\n\n\n"), ["-", "-", "-", "out 0 in 0"]);
}

#[test]
fn state_line_example() {
    let script =
        format!("{DESK}packet E18158\npacket C3FF00FF\npacket E18158\npacket C3FF00FF\nstate");
    assert_eq!(
        last(&script),
        "M 256 address 1 speed full events 0 wait nothing \
         | 0 normal out bulk 1 8 1 72 1 0 16,8,1,1 off | 1 normal in bulk 1 8 0 0 0 0 32,1,0,0 off"
    );
}

#[test]
fn before_the_first_start() {
    assert_eq!(
        play("state\npacket -\narm 0 0 0 0\n"),
        ["M 0 address 0 speed full events 0 wait nothing", "0 -", "8",]
    );
    assert_eq!(
        play("start high 131073\nstate\n"),
        ["15", "M 0 address 0 speed full events 0 wait nothing",]
    );
}

#[test]
fn lines_without_answer() {
    assert_eq!(play("\n# note\n\nevents"), ["0 0"]);
    assert_eq!(play(" # note\n\r\nEVENTS"), ["bad line"; 3]);
}

#[test]
fn lends() {
    let wrong = format!("{DESK}packet 698158\nlend 255 1026\ntimeout\nlend 256 1026\npacket D2\n");
    assert_eq!(play(&wrong)[7..], ["ok", "2", "ok", "3 -"]);
    let right = format!("{wrong}lend default\npacket D2\ndisarm 1 0\n");
    assert_eq!(play(&right)[11..], ["ok", "0 -", "0 1"]);
}

#[test]
fn firmware_memory() {
    assert_eq!(
        play("fill 131072 -\nfill 131071 AABB\nfill 131071 aa\nshow 131070 2\nshow 0 0"),
        ["ok", "bad line", "ok", "00AA", "-"]
    );
    assert_eq!(
        play("show 0 4097\nreply 1041\nreply 2\nreply 0\nlend 131073 0"),
        ["bad line", "bad line", "0000", "-", "bad line"]
    );
}

#[test]
fn data_packets() {
    assert_eq!(
        play("encode 3 00\nreply 5\nencode 1 00\nencode 16 -\nencode 15 -"),
        ["0 C30040BF", "C30040BF00", "6 -", "6 -", "0 0F0000"]
    );
    assert_eq!(
        play("decode C30000\ndecode 4BFF00FF\ndecode C300\ndecode -"),
        ["good 3 -", "good 11 FF", "not good", "not good"]
    );
}

#[test]
fn retry_takes_the_sent_buffer() {
    let mut token = Vec::new();
    write_bytes(&packet::token(Pid::In, packet::place(0, 1)), &mut token);
    let token = String::from_utf8(token).unwrap();
    let script = format!(
        "start full 256\nconfigure 0 normal in bulk 1 8\nfill 0 0102\narm 0 1 1 1\n\
         packet {token}\ntimeout\narm 0 0 0 1\npacket {token}\npacket D2\npacket {token}\n"
    );
    let answers = play(&script);
    assert_eq!(&answers[4][..6], "0 C302");
    assert_eq!(&answers[7][..6], "0 C302");
    assert_eq!(&answers[9][..6], "0 4B01");
}

#[test]
fn frames() {
    assert_eq!(
        play("frame 0\nframe 0\nframe 5\nframe 2048\nframe 5"),
        ["0 0", "0 1", "0 0", "16 0", "0 1"]
    );
    let many = "frame 7\n".repeat(20);
    assert_eq!(last(&many), "0 15");
    assert_eq!(
        play("force frame 0 1 0\nframe 1\nforce frame 1 2047 15\nframe 2047"),
        ["ok", "16 0", "ok", "0 15"]
    );
}

#[test]
fn refusal_one_comes_first() {
    let script = "start full 64\nforce address 128\narm 16 2 0 0\ndisarm 0 0\nevents\npacket -\n\
                  reset high\nforce address 127\nevents";
    assert_eq!(
        play(script)[2..],
        ["1", "1 0", "1 0", "1 -", "1", "ok", "0 0"]
    );
}
