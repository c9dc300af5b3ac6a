//! Document 01's own cases, as unit checks of the second program: P1 to P10,
//! the cases under "Run and compared", and the lines of the session program.

mod desk;
mod line;

use desk::{Answer, Desk, Which, NEVER};

fn accepted(value: u64, time: u32) -> Answer {
    Answer {
        code: 0,
        value,
        time,
    }
}

fn refused(code: u32) -> Answer {
    Answer {
        code,
        value: 0,
        time: 0,
    }
}

/// A desk with channel 0; thread 0 has input connection 0 and output connection 1.
fn small_desk() -> Desk {
    let mut desk = Desk::fresh();
    assert_eq!(desk.channel(0), accepted(0, 0));
    assert_eq!(desk.attach_input(0, 0), accepted(0, 0));
    assert_eq!(desk.attach_output(0, 0), accepted(1, 0));
    desk
}

/// "item 5 UNSEEN on the only input connection, mark 0, virtual time never".
fn desk_of_p5() -> Desk {
    let mut desk = small_desk();
    assert_eq!(desk.put(0, 1, 5, 500), accepted(0, 0));
    assert_eq!(desk.set(0, NEVER), accepted(0, 0));
    desk
}

/// "thread at 3, its only connection has consumed item 3". The item came
/// over an output connection that is detached again.
fn desk_of_p9() -> Desk {
    let mut desk = small_desk();
    assert_eq!(desk.set(0, 3), accepted(0, 0));
    assert_eq!(desk.put(0, 1, 3, 300), accepted(0, 0));
    assert_eq!(desk.detach(0, 1), accepted(0, 0));
    assert_eq!(desk.get(0, 0, Which::Earliest), accepted(300, 3));
    assert_eq!(desk.consume(0, 0, 3), accepted(0, 0));
    desk
}

#[test]
fn p1_fresh_desk() {
    let desk = Desk::fresh();
    assert_eq!(desk.weak_bound(), accepted(0, 0));
    assert_eq!(desk.strong_bound(), accepted(0, 0));
}

#[test]
fn p2_p3_p4_put_at_visible_time_5() {
    let mut desk = small_desk();
    assert_eq!(desk.set(0, 5), accepted(0, 0));
    assert_eq!(desk.put(0, 1, 5, 500), accepted(0, 0));
    assert_eq!(desk.visible_time(0), accepted(0, 5));
    let before = desk.clone();
    assert_eq!(desk.put(0, 1, 4, 400), refused(6));
    assert_eq!(desk.put(0, 1, 5, 501), refused(7));
    assert_eq!(desk, before);
    assert_eq!(desk.put(0, 1, 6, 600), accepted(0, 0));
}

#[test]
fn p5_unseen_item() {
    let desk = desk_of_p5();
    assert_eq!(desk.connections[0].mark, 0);
    assert_eq!(desk.state(0, 5), accepted(1, 0));
    assert_eq!(desk.weak_bound(), accepted(0, 0));
    assert_eq!(desk.strong_bound(), accepted(0, 5));
    assert_eq!(desk.visible_time(0), accepted(0, NEVER));
}

#[test]
fn p6_open_item() {
    let mut desk = desk_of_p5();
    assert_eq!(desk.get(0, 0, Which::Named(5)), accepted(500, 5));
    assert_eq!(desk.state(0, 5), accepted(2, 0));
    assert_eq!(desk.visible_time(0), accepted(0, 5));
    assert_eq!(desk.strong_bound(), accepted(0, 5));
}

#[test]
fn p7_strong_sweep_with_an_empty_slice() {
    let mut desk = desk_of_p5();
    assert_eq!(desk.consume_until(0, 0, 5), accepted(0, 0));
    let before = desk.clone();
    assert_eq!(
        desk.strong_sweep(&mut []),
        Answer {
            code: 12,
            value: 1,
            time: 0
        }
    );
    assert_eq!(desk, before);
    let mut slice = [7; 3];
    assert_eq!(desk.strong_sweep(&mut slice), accepted(1, NEVER));
    assert_eq!(slice, [500, 7, 7]);
    assert_eq!(desk.strong_sweep(&mut []), accepted(0, NEVER));
}

#[test]
fn p8_consume_until_the_largest_timestamp() {
    let mut desk = small_desk();
    assert_eq!(desk.consume_until(0, 0, NEVER - 1), accepted(0, 0));
    assert_eq!(desk.connections[0].mark, NEVER);
    assert_eq!(desk.state(0, NEVER - 1), accepted(3, 0));
}

#[test]
fn p9_a_late_reader_may_come() {
    let mut desk = desk_of_p9();
    assert_eq!(desk.state(0, 3), accepted(3, 0));
    assert_eq!(desk.strong_bound(), accepted(0, 3));
    assert_eq!(desk.strong_sweep(&mut []), accepted(0, 3));
    assert_eq!(desk.items_present(), accepted(1, 0));
}

#[test]
fn p10_the_late_reader_comes() {
    let mut desk = desk_of_p9();
    assert_eq!(desk.new_thread(0, 2), refused(6));
    assert_eq!(desk.new_thread(0, 3), accepted(1, 0));
    assert_eq!(desk.attach_input(1, 0), accepted(1, 3));
    assert_eq!(desk.get(1, 1, Which::Named(3)), accepted(300, 3));
}

#[test]
fn item_65_is_refused_until_one_leaves() {
    let mut desk = small_desk();
    for timestamp in 0..64 {
        assert_eq!(desk.put(0, 1, timestamp, 1000), accepted(0, 0));
    }
    assert_eq!(desk.items_present(), accepted(64, 0));
    assert_eq!(desk.put(0, 1, 64, 1000), refused(8));
    assert_eq!(desk.put(0, 1, 63, 1000), refused(7));
    assert_eq!(desk.consume_until(0, 0, 0), accepted(0, 0));
    assert_eq!(desk.set(0, 1), accepted(0, 0));
    assert_eq!(desk.weak_sweep(&mut [0; 64]), accepted(1, 1));
    assert_eq!(desk.put(0, 1, 64, 1000), accepted(0, 0));
    assert_eq!(desk.put(0, 1, 65, 1000), refused(8));
}

#[test]
fn full_tables() {
    let mut desk = Desk::fresh();
    for number in 1..16 {
        assert_eq!(desk.new_thread(0, 0), accepted(number, 0));
    }
    assert_eq!(desk.new_thread(0, 0), refused(9));
    for number in 0..8 {
        assert_eq!(desk.channel(15), accepted(number, 0));
    }
    assert_eq!(desk.channel(15), refused(9));
    for number in 0..32 {
        assert_eq!(desk.attach_output(3, 7), accepted(number, 0));
    }
    assert_eq!(desk.attach_input(0, 0), refused(9));
    assert_eq!(desk.end(3), accepted(0, 0));
    assert_eq!(desk.attach_input(0, 0), accepted(0, 0));
    assert_eq!(desk.new_thread(0, 0), accepted(3, 0));
}

#[test]
fn one_get_on_each_connection() {
    let mut desk = small_desk();
    assert_eq!(desk.attach_input(0, 0), accepted(2, 0));
    assert_eq!(desk.put(0, 1, 5, 500), accepted(0, 0));
    assert_eq!(desk.consume(0, 0, 5), refused(11));
    assert_eq!(desk.get(0, 0, Which::Named(5)), accepted(500, 5));
    assert_eq!(desk.get(0, 0, Which::Named(5)), refused(10));
    assert_eq!(desk.get(0, 2, Which::Latest), accepted(500, 5));
}

#[test]
fn a_reader_at_never_lowers_itself() {
    let mut desk = desk_of_p5();
    assert_eq!(desk.set(0, 5), refused(6));
    assert_eq!(desk.get(0, 0, Which::Earliest), accepted(500, 5));
    assert_eq!(desk.set(0, 4), refused(6));
    assert_eq!(desk.set(0, 5), accepted(0, 0));
    assert_eq!(desk.threads[0].virtual_time, 5);
}

#[test]
fn a_consumed_timestamp_stays_consumed_after_a_strong_sweep() {
    let mut desk = desk_of_p5();
    assert_eq!(desk.get(0, 0, Which::Earliest), accepted(500, 5));
    assert_eq!(desk.consume(0, 0, 5), accepted(0, 0));
    assert_eq!(desk.connections[0].mark, 0);
    assert_eq!(desk.strong_sweep(&mut [0; 64]), accepted(1, NEVER));
    assert_eq!(desk.state(0, 5), accepted(3, 0));
    assert_eq!(desk.connections[0].consumed.count(), 0);
}

#[test]
fn no_living_thread() {
    let mut desk = desk_of_p5();
    assert_eq!(desk.end(0), accepted(0, 0));
    assert_eq!(desk.channel(0), refused(1));
    assert_eq!(desk.new_thread(0, NEVER), refused(1));
    assert_eq!(desk.visible_time(0), refused(1));
    assert_eq!(desk.state(0, 5), refused(3));
    assert_eq!(desk.items_present(), accepted(1, 0));
    assert_eq!(desk.weak_bound(), accepted(0, NEVER));
    assert_eq!(desk.strong_bound(), accepted(0, NEVER));
    assert_eq!(desk.weak_sweep(&mut [0]), accepted(1, NEVER));
}

#[test]
fn order_of_refusals() {
    let mut desk = small_desk();
    assert_eq!(desk.new_thread(0, 4), accepted(1, 0));
    assert_eq!(desk.put(2, 9, NEVER, 0), refused(1));
    assert_eq!(desk.put(1, 1, NEVER, 0), refused(3));
    assert_eq!(desk.put(0, 0, NEVER, 0), refused(4));
    assert_eq!(desk.put(0, 1, NEVER, 0), refused(5));
    assert_eq!(desk.get(0, 1, Which::Named(NEVER)), refused(4));
    assert_eq!(desk.get(0, 0, Which::Named(NEVER)), refused(5));
    assert_eq!(desk.get(0, 0, Which::Earliest), refused(10));
    assert_eq!(desk.consume(0, 0, NEVER), refused(5));
    assert_eq!(desk.consume_until(0, 0, NEVER), refused(5));
    assert_eq!(desk.consume_until(0, 1, NEVER), refused(4));
    assert_eq!(desk.state(40, NEVER), refused(3));
    assert_eq!(desk.state(1, NEVER), refused(4));
    assert_eq!(desk.state(0, NEVER), refused(5));
    assert_eq!(desk.attach_input(0, 1), refused(2));
    assert_eq!(desk.attach_output(NEVER, NEVER), refused(1));
}

/// The first number that a fresh desk with one channel prints for the line.
fn code_of(text: &[u8]) -> u32 {
    let mut desk = small_desk();
    let mut output = Vec::new();
    line::answer(&mut desk, text, &mut output);
    let text = String::from_utf8(output).unwrap();
    text.split(' ').next().unwrap().parse().unwrap()
}

#[test]
fn readable_lines() {
    let zeros = |number: usize| [b"c ".to_vec(), vec![b'0'; number]].concat();
    assert_eq!(code_of(&zeros(78)), 0);
    assert_eq!(code_of(b"p 0 1 4294967294 18446744073709551615"), 0);
    assert_eq!(
        code_of(b"p 0000 01 0000000000000000004 00000000000000000000000007"),
        0
    );
    assert_eq!(code_of(b"c 4294967295"), 1);
    assert_eq!(code_of(b"i 0 4294967295"), 2);
    assert_eq!(code_of(b"d 0 40"), 3);
    assert_eq!(code_of(b"u 0 0 4294967295"), 5);
    assert_eq!(code_of(b"w"), 0);
    assert_eq!(code_of(&zeros(79)), 99);
}

#[test]
fn lines_not_readable() {
    let lines: [&[u8]; 28] = [
        b"",
        b" ",
        b"c",
        b"c ",
        b"c  0",
        b" c 0",
        b"c 0 ",
        b"c 0\r",
        b"c\t0",
        b"c 0\0",
        b"\0",
        b"c +0",
        b"c -0",
        b"c 0 0",
        b"c 4294967296",
        b"p 0 1 4294967296 0",
        b"p 0 1 5 18446744073709551616",
        b"p 0 1 5",
        b"p 0 1 5 5 5",
        b"w 0",
        b"W ",
        b"ww",
        b"C 0",
        b"a 0",
        b"c0",
        b"c 0x0",
        b"c :",
        b"c /",
    ];
    for line in lines {
        assert_eq!(code_of(line), 99, "{}", line.escape_ascii());
    }
}
