use crate::judge;

/// A job file with the head that its sections need.
fn job(language: u8, locations: u8, sections: &[&str]) -> Vec<u8> {
    let sections: Vec<String> = sections
        .iter()
        .map(|text| {
            text.split(',').filter(|line| !line.is_empty()).map(|l| format!("{l}\n")).collect()
        })
        .collect();
    let mut head = String::new();
    loop {
        let mut offset = head.len();
        let mut next = format!("J {language} {} {locations}\n", sections.len() - 1);
        for section in &sections {
            next += &format!("D {offset} {}\n", section.len());
            offset += section.len();
        }
        if next == head {
            return (head + &sections.concat()).into_bytes();
        }
        head = next;
    }
}

fn report(file: &[u8]) -> String {
    let mut buffer = [0xAA; 2500];
    let length = judge(file, &mut buffer);
    assert!(buffer[length..].iter().all(|&byte| byte == 0));
    String::from_utf8(buffer[..length].to_vec()).unwrap()
}

fn check(language: u8, locations: u8, sections: &[&str], expected: &str) {
    let file = job(language, locations, sections);
    assert_eq!(report(&file), expected, "{}", String::from_utf8_lossy(&file));
}

const LOAD_BUFFERING: [&str; 3] = [
    "L 0 0 0,C 1 1,S 1 1 0",
    "L 0 1 0,S 0 0 0",
    "T 0,G 1 1 0 1,X,R 0,N,H 1,E,T 1,R 1,W 0 1,E,T 0,R 1,N,H 1,E",
];

#[test]
fn load_buffering() {
    let file = b"J 0 2 2\nD 32 22\nD 54 16\nD 70 60\nL 0 0 0\nC 1 1\nS 1 1 0\nL 0 1 0\nS 0 0 0\n\
        T 0\nG 1 1 0 1\nX\nR 0\nN\nH 1\nE\nT 1\nR 1\nW 0 1\nE\nT 0\nR 1\nN\nH 1\nE\n";
    assert_eq!(job(0, 2, &LOAD_BUFFERING), file);
    let expected = "OK 16\nm 0 0 0 0 0\nm 1 0 0 0 0\nm 1 0 1 1 0\nm 0 0 1 1 0\nc 0 1 1\nc 1 1 1\n";
    assert_eq!(report(file), expected);
}

#[test]
fn small_buffers_stay() {
    let file = job(0, 2, &LOAD_BUFFERING);
    let mut buffer = [7; 2399];
    assert_eq!(judge(&file, &mut buffer), 0);
    assert_eq!(buffer, [7; 2399]);
    let mut buffer = [7; 2400];
    assert_eq!(judge(&file, &mut buffer), 70);
    assert!(buffer[70..].iter().all(|&byte| byte == 0));
}

#[test]
fn data_dependency() {
    let sections = ["L 0 0 0,C 1 1,S 1 0 0", "L 0 1 0,S 0 0 0", "T 0,G 1 1 0 1,X,R 0,N,H 1,E"];
    check(0, 2, &sections, "NO 12 2 3 6\n");
}

#[test]
fn parallel_updates() {
    let add = "C 0 1,U 1 0 0 0 0";
    check(0, 1, &[add, add, "T 0,N,U 0 1,E,T 1,N,U 0 2,E"], "NO 13 2 3 7\n");
    let expected = "OK 8\nm 0 0 0 0 0\nm 0 0 1 1 0\nm 0 1 2 2 0\nc 0 1\nc 1 2\n";
    check(0, 1, &[add, add, "T 0,N,U 0 1,E,T 1,N,U 1 2,E"], expected);
}

#[test]
fn message_passing() {
    let writer = "S 0 1 0,S 1 1 1";
    let trace = "T 0,W 0 1,W 0 1,E,T 1,R 1,R 0,E";
    check(1, 2, &[writer, "R 1 1 1,R 0 0 0", trace], "NO 11 2 3 7\n");
    let expected = "OK 8\nm 0 0 0 0 0\nm 1 0 0 0 0\nm 0 0 1 1 0\nm 1 0 1 1 0\nc 0 1 1\nc 1 0 1\n";
    check(1, 2, &[writer, "R 1 1 0,R 0 0 0", trace], expected);
    let fenced = "T 0,W 0 1,W 0 1,E,T 1,R 1,N,R 0,E";
    check(1, 2, &[writer, "R 1 1 0,F 0,R 0 0 0", fenced], "NO 11 2 3 8\n");
}

#[test]
fn own_promise() {
    let mut sections = LOAD_BUFFERING;
    sections[0] = "L 0 1 0,C 1 1,S 1 1 0";
    check(0, 2, &sections, "NO 11 2 3 15\n");
}

#[test]
fn sequential_fences() {
    let sections =
        ["S 0 1 0,F 3,R 1 0 0", "S 1 1 0,F 3,R 0 0 0", "T 0,W 0 1,N,R 0,E,T 1,W 0 1,N,R 0,E"];
    check(1, 2, &sections, "NO 11 2 3 9\n");
}

#[test]
fn closing_line() {
    let programs = ["S 0 5 0,S 1 1 0", "S 0 1 0"];
    let low = "T 1,W 0 1,E,T 0,G 1 1 0 1,X,W 1 2,H 1,E";
    check(1, 2, &[programs[0], programs[1], low], "NO 14 2 3 7\n");
    let high = "T 1,W 0 1,E,T 0,G 1 1 0 1,X,W 2 3,H 1,E";
    let expected = "OK 9\nm 0 0 0 0 0\nm 1 0 0 0 0\nm 0 0 1 1 0\nm 1 0 1 1 1\nc 0 0 0\nc 1 1 0\n";
    check(1, 2, &[programs[0], programs[1], high], expected);
}

#[test]
fn heads() {
    assert_eq!(report(b""), "NO 3 1 0 1\n");
    assert_eq!(report(b"J 0 1 1"), "NO 3 1 0 1\n");
    assert_eq!(report(b"J 2 1 1\n"), "NO 4 1 0 1\n");
    assert_eq!(report(b"J 2 1 01\n"), "NO 3 1 0 1\n");
    assert_eq!(report(b"J 0 0 1\n"), "NO 4 1 0 1\n");
    assert_eq!(report(b"J 0 4 9\n"), "NO 4 1 0 1\n");
    assert_eq!(report(b"J 0 1 1\n"), "NO 3 1 0 2\n");
    assert_eq!(report(b"J 0 1 1\nD 22 0\nD 22 0\n"), "OK 0\nm 0 0 0 0 0\nc 0 0\n");
    assert_eq!(report(b"J 0 1 1\nD 22 0\nD 22 1\n"), "NO 5 0 0 3\n");
    assert_eq!(report(b"J 0 1 1\nD 21 0\nD 22 1\n"), "NO 5 0 0 2\n");
    assert_eq!(report(b"J 0 1 1\nD 21 0\nD 65536 1\n"), "NO 4 1 0 3\n");
    assert_eq!(report(&[b'J'; 65_536]), "NO 2 0 0 0\n");
    assert_eq!(report(&[b'J'; 65_535]), "NO 3 1 0 1\n");
}

#[test]
fn lines() {
    let only = |trace: &str, expected: &str| check(0, 1, &["S 0 0 0", trace], expected);
    only("R 70000 01", "NO 3 1 2 1\n");
    only("R 70000", "NO 4 1 2 1\n");
    only("R 99999999999999999999999999999999", "NO 4 1 2 1\n");
    only("R 0", "NO 7 2 2 1\n");
    only("T 1", "NO 4 1 2 1\n");
    only("T 0,T 1", "NO 4 1 2 2\n");
    only("T 0", "NO 17 0 2 1\n");
    only("T 0,G 1 0 0 1", "NO 4 1 2 2\n");
    only("T 0,G 0 0 0 1,E", "NO 16 2 2 3\n");
    only("T 0,W 1 1", "NO 13 2 2 2\n");
    only("T 0,W 1 0", "NO 11 2 2 2\n");
    only("T 0,X", "NO 7 2 2 2\n");
    only("T 0,G 0 0 0 1,X,X", "NO 7 2 2 4\n");
    only("T 0,G 0 0 0 1,X,H 1,N", "NO 7 2 2 5\n");
    only("T 0,G 0 0 0 1,X,G 0 0 1 2", "NO 7 2 2 4\n");
}

#[test]
fn program_lines() {
    let fences = ["F 0"; 64].join(",");
    let more = fences.clone() + ",F 0";
    check(0, 1, &[&fences, ""], "OK 0\nm 0 0 0 0 0\nc 0 0\n");
    check(0, 1, &[&more, ""], "NO 6 0 1 65\n");
    check(0, 1, &[&(fences.clone() + ",F 4"), ""], "NO 4 1 1 65\n");
    check(0, 1, &[&(fences + ",f 0"), ""], "NO 3 1 1 65\n");
    check(0, 1, &["B 0 64", ""], "OK 0\nm 0 0 0 0 0\nc 0 0\n");
    check(0, 1, &["B 0 65", ""], "NO 4 1 1 1\n");
    check(1, 1, &["B 0 64", ""], "NO 3 1 1 1\n");
}

#[test]
fn capacities() {
    let writes = |count: u16| -> String {
        let steps = (0..count).map(|end| format!("W {end} {},N,", end + 1));
        String::from("T 0,N,") + &steps.collect::<String>() + "E"
    };
    let program = "C 0 1,S 0 0 0,B 0 1";
    assert!(report(&job(0, 1, &[program, &writes(63)])).starts_with("OK 129\n"));
    check(0, 1, &[program, &writes(64)], "NO 15 3 2 129\n");
    let prints = |count: usize| String::from("T 0,N,") + &"N,N,".repeat(count) + "E";
    let program = "C 0 1,P 0,B 0 1";
    assert!(report(&job(0, 1, &[program, &prints(64)])).starts_with("OK 131\n"));
    check(0, 1, &[program, &prints(65)], "NO 15 3 2 131\n");
}
