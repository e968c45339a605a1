//! The report, and the line of a refusal, against plain Rust.

mod common;

use common::{list_compares, positions, text, Random, ALPHABETS};
use hirtxonda::{refusal_line, report, report_into, Refusal, LONGEST_INPUT, LONGEST_NEEDLE, LONGEST_REPORT};

/// The lines that `hits` prints, or the number that refuses the input.
fn expected(input: &[u8]) -> Result<Vec<u8>, Refusal> {
    if input.len() > LONGEST_INPUT {
        return Err(Refusal::Input);
    }
    let feed = input.iter().position(|&byte| byte == b'\n').ok_or(Refusal::Feed)?;
    if feed > LONGEST_NEEDLE {
        return Err(Refusal::Needle);
    }
    let (needle, text) = (&input[..feed], &input[feed + 1..]);
    let found = positions(text, needle);
    let lines: String = found.iter().map(|position| format!("{position:8}\n")).collect();
    Ok(format!("{lines}{:8}{:10}\n", found.len(), list_compares(text, needle)).into_bytes())
}

/// The report, and that the 5,000 bytes after it stay; refused, the page's first 5,000. The page is
/// what earlier reports left.
fn check_report(input: &[u8], page: &mut [u8; LONGEST_REPORT]) {
    let expected = expected(input);
    let lines = expected.as_deref().unwrap_or(&[]);
    let after: Vec<u8> = page[lines.len()..].iter().take(5000).copied().collect();
    let told = report_into(input, page);
    assert_eq!(told, expected.as_ref().map(Vec::len).map_err(|&refusal| refusal));
    assert!(page.starts_with(lines), "report of {:02x?}", &input[..input.len().min(100)]);
    assert!(page[lines.len()..].starts_with(&after), "the rest of the page stays");
}

fn new_page() -> Box<[u8; LONGEST_REPORT]> {
    vec![0x80; LONGEST_REPORT].into_boxed_slice().try_into().expect("that many bytes")
}

#[test]
fn reports() {
    let mut random = Random::for_test("reports");
    let mut page = new_page();
    for number in 0..40_000 {
        let alphabet = random.below(ALPHABETS);
        let n = random.size(16, if number % 50 == 0 { 5000 } else { 120 });
        let m = random.size(16, 40);
        let mut text: Vec<u8> = text(&mut random, alphabet, n);
        let mut input: Vec<u8> = if m <= n { text[n - m..].to_vec() } else { common::text(&mut random, alphabet, m) };
        if random.one_in(8) && n > 0 {
            text[random.below(n)] = b'\n';
        }
        if !random.one_in(20) {
            input.push(b'\n');
        }
        input.append(&mut text);
        check_report(&input, &mut page);
    }
}

#[test]
fn reports_at_the_edges() {
    let mut page = new_page();
    let mut check = |input: &[u8]| check_report(input, &mut page);
    check(b"");
    check(b"\n");
    check(b"\n\n");
    check(b"A");
    check(b"AB\nABZAB");
    for m in [LONGEST_NEEDLE, LONGEST_NEEDLE + 1] {
        check(&[vec![b'A'; m], b"\n".to_vec(), vec![b'A'; 2000]].concat());
    }
    for size in [LONGEST_INPUT - 1, LONGEST_INPUT, LONGEST_INPUT + 1, 200_000] {
        check(&vec![b'\n'; size]);
        check(&vec![b'A'; size]);
        check(&[b"AB\n", &b"ABZAB".repeat(size)[..size - 3]].concat());
    }
    assert_eq!(report(&vec![b'\n'; LONGEST_INPUT]).map(|lines| lines.len()), Ok(LONGEST_REPORT));
}

/// A refused report leaves every byte of the page, and its number has its line.
#[test]
fn refused_reports_leave_the_page() {
    let long_needle = [vec![b'A'; LONGEST_NEEDLE + 1], b"\n".to_vec()].concat();
    let long_input = vec![b'\n'; LONGEST_INPUT + 1];
    for (input, refusal) in [(&b"A"[..], Refusal::Feed), (&long_needle, Refusal::Needle), (&long_input, Refusal::Input)]
    {
        let mut page = new_page();
        assert_eq!(report_into(input, &mut page), Err(refusal));
        assert!(page.iter().all(|&byte| byte == 0x80));
        assert_eq!(refusal_line(refusal).to_vec(), format!("{:8}\n", refusal.number()).into_bytes());
    }
}
