"""Pairs of bodies: those that come to the same must be known as such, and those that are near to that must not. No prover is asked.

Each pair is of the function whose head stands here, in a crate with these types and functions. A body is written without its braces.
"""
from about import About, Head
from same import is_same

CRATE = """
use other::{MOST, first, second, Wide};
const MOST: usize = 16;
fn second(n: u32) -> u32 { }
const LANES: usize = 16;
const LEAST: u8 = 3;
struct Step { width: u8, depth: i32, used: usize }
struct Pair { first: u32, second: u32 }
fn is_space(b: u8) -> bool { }
fn is_digit(b: u8) -> bool { }
fn has_room(b: u8) -> bool requires { b < 9 } { }
fn taken(from: &mut Reader) -> bool { }
fn twice(n: u32) -> u32 { }
"""
HEAD = """fn judged(a: u32, b: u32, c: u32, n: usize, m: usize, x: u8, y: u8, s: i32, t: i32, ratio: f64, yes: bool, no: bool,
    some: Option<u8>, other: Option<u8>, list: &[u8], kind: Kind, step: &Step, left: &mut Step, from: &mut Reader, size: &mut usize) -> u32"""

# Bodies that come to the same.
SAME = (
    # Operands that change places.
    ("a + b", "b + a"),
    ("a * b", "b * a"),
    ("a + b + c", "c + b + a"),
    ("a + (b + c)", "a + b + c"),
    ("s + t == 3", "t + s == 3"),
    ("a & b | c", "c | b & a"),
    ("a ^ b ^ c", "c ^ a ^ b"),
    ("twice(a) + twice(b)", "twice(b) + twice(a)"),
    ("10 * a + (x - 48) as u32", "a * 10 + (x - b'0') as u32"),
    ("if a == b { 1 } else { 2 }", "if b == a { 1 } else { 2 }"),
    ("if list.len() - n >= LANES { 1 } else { 2 }", "if LANES <= list.len() - n { 1 } else { 2 }"),
    ("a.min(b)", "b.min(a)"),
    # Comparisons.
    ("if a > 22 { 1 } else { 2 }", "if a >= 23 { 1 } else { 2 }"),
    ("if s > 22 { 1 } else { 2 }", "if 23 <= s { 1 } else { 2 }"),
    ("if a <= 22 { 1 } else { 2 }", "if a < 23 { 1 } else { 2 }"),
    ("if !(a < b) { 1 } else { 2 }", "if a >= b { 1 } else { 2 }"),
    ("if !(a == b) { 1 } else { 2 }", "if a != b { 1 } else { 2 }"),
    ("if a != 0 { 1 } else { 2 }", "if a > 0 { 1 } else { 2 }"),
    ("if step.width != 0 { 1 } else { 2 }", "if step.width > 0 { 1 } else { 2 }"),
    ("if list[n] == 0 { 1 } else { 2 }", "if list[n] < 1 { 1 } else { 2 }"),
    ("if list.len() == 0 { 1 } else { 2 }", "if list.is_empty() { 1 } else { 2 }"),
    ("if x == 255 { 1 } else { 2 }", "if x >= 255 { 1 } else { 2 }"),
    ("if x >= 9 && x <= 13 { 1 } else { 2 }", "if (9..=13).contains(&x) { 1 } else { 2 }"),
    ("if x >= 9 && x <= 13 { 1 } else { 2 }", "if (9..14).contains(&x) { 1 } else { 2 }"),
    ("if matches!(x, 9..=13 | b' ') { 1 } else { 2 }", "if x == 32 || 9 <= x && x < 14 { 1 } else { 2 }"),
    ("if x & 1 == 1 { 1 } else { 2 }", "if x & 1 != 0 { 1 } else { 2 }"),
    ("if x / 2 == 3 { 1 } else { 2 }", "if x >> 1 == 3 { 1 } else { 2 }"),
    # Truths.
    ("if yes == true { 1 } else { 2 }", "if yes { 1 } else { 2 }"),
    ("if is_space(x) == false { 1 } else { 2 }", "if !is_space(x) { 1 } else { 2 }"),
    ("if taken(from) == false { 1 } else { 2 }", "if !taken(from) { 1 } else { 2 }"),
    ("if !yes { 1 } else { 2 }", "if yes { 2 } else { 1 }"),
    ("if taken(from) { 1 } else { 2 }", "if !taken(from) { 2 } else { 1 }"),
    ("if yes && no { 1 } else { 2 }", "if no && yes { 1 } else { 2 }"),
    ("if is_space(x) && a > 1 { 1 } else { 2 }", "if a > 1 && is_space(x) { 1 } else { 2 }"),
    ("if !(yes && no) { 1 } else { 2 }", "if !yes || !no { 1 } else { 2 }"),
    ("if !(yes || a < b) { 1 } else { 2 }", "if !yes && a >= b { 1 } else { 2 }"),
    ("if yes & (a > 0) { 1 } else { 2 }", "if yes && a != 0 { 1 } else { 2 }"),
    ("if ((yes)) { (1) } else { 2 }", "if yes { 1 } else { 2 }"),
    ("let both = if yes { no } else { false }; u32::from(both)", "u32::from(yes && no)"),
    ("let one = if yes { true } else { false }; u32::from(one)", "u32::from(yes)"),
    # What may be missing.
    ("if some.is_none() { 1 } else { 2 }", "if some.is_some() { 2 } else { 1 }"),
    ("if some.is_some() { 1 } else { 2 }", "if matches!(some, Some(_)) { 1 } else { 2 }"),
    ("if some.is_some() { 1 } else { 2 }", "if let Some(_) = some { 1 } else { 2 }"),
    ("if let None = some { 1 } else { 2 }", "if !some.is_some() { 1 } else { 2 }"),
    ("if some == None { 1 } else { 2 }", "match some { Some(_) => 2, None => 1 }"),
    ("if let Some(it) = some { it as u32 } else { 2 }", "match some { None => 2, Some(found) => found as u32 }"),
    ("let Some(it) = some else { return 2; }; it as u32", "match some { Some(it) => it as u32, None => 2 }"),
    # Ways out.
    ("if yes { return a; } b", "if yes { a } else { b }"),
    ("if yes { return a; } if no { return b; } c", "if yes { a } else if no { b } else { c }"),
    ("if yes { return a; } if no { return a; } c", "if yes || no { return a; } c"),
    ("if yes { if no { return a; } } b", "if yes && no { return a; } b"),
    ("return a;", "a"),
    ("match kind { Kind::Text => return a, _ => {} } b", "match kind { Kind::Text => a, _ => b }"),
    ("while *size < n { *size += 1; } a", "loop { if *size >= n { break; } *size += 1; } a"),
    ("for at in 0..n { if yes { continue; } left.width = 1; } a", "for at in 0..n { if !yes { left.width = 1; } } a"),
    # Arms.
    ("match x { b'a' => 1, b'b' => 2, _ => 3 }", "match x { b'b' => 2, b'a' => 1, _ => 3 }"),
    ("match x { b'a' | b'b' => 1, _ => 3 }", "match x { b'b' | b'a' => 1, _ => 3 }"),
    ("match x { b'a' => 1, b'b' => 1, _ => 3 }", "match x { b'a'..=b'b' => 1, _ => 3 }"),
    ("match kind { Kind::Text => 1, Kind::Byte => 2, _ => 3 }", "match kind { Kind::Byte => 2, Kind::Text => 1, _ => 3 }"),
    ("match x { 9..=13 => 1, _ => 3 }", "match x { 9..14 => 1, _ => 3 }"),
    ("match yes { true => 1, false => 2 }", "if yes { 1 } else { 2 }"),
    # Names.
    ("let first = twice(a); let second = twice(b); first + second", "let one = twice(a); let two = twice(b); one + two"),
    ("let one = a > b; if one { 1 } else { 2 }", "if a > b { 1 } else { 2 }"),
    ("let one = taken(from); if one { 1 } else { 2 }", "if taken(from) { 1 } else { 2 }"),
    ("let one = a + 1; let two = b + 2; one * two", "let two = b + 2; let one = a + 1; one * two"),
    ("let wide = step.width; if wide == 0 { 1 } else { 2 }", "if step.width == 0 { 1 } else { 2 }"),
    ("let ten = 10; return ten;", "10"),
    ("{ let one = twice(a); one }", "twice(a)"),
    # Numbers.
    ("if x == b'0' { 1 } else { 2 }", "if x == 48 { 1 } else { 2 }"),
    ("if x == 0x30 { 1 } else { 2 }", "if x == b'\\x30' { 1 } else { 2 }"),
    ("a + 1_000", "a + 1000u32"),
    ("0xff", "255"),
    ("a % 64 + b / 8", "(a & 63) + (b >> 3)"),
    ("if n >= LANES { 1 } else { 2 }", "if n > 15 { 1 } else { 2 }"),
    ("a + 0", "a"),
    ("a * 1", "a"),
    ("a + 2 + 3", "a + 5"),
    ("a * (2 + 3)", "a * 5"),
    ("if is_space(b' ') { 1 } else { 2 }", "if is_space(32) { 1 } else { 2 }"),
    ("(x as u8) as u32", "x as u32"),
    ("a as u32", "a"),
    ("for at in 0..=22 { left.width = 1; } a", "for at in 0..23 { left.width = 1; } a"),
    ("if list[..4] == list[0..4] { 1 } else { 2 }", "if list[0..=3] == list[..4] { 1 } else { 2 }"),
    ("*size += 3; a", "*size = *size + 3; a"),
    ("*size += 3; a", "*size += 1; *size += 2; a"),
    ("left.used += n; a", "left.used = n + left.used; a"),
    ("let it = Pair { first: a, second: b }; it.first", "let it = Pair { second: b, first: a }; it.first"),
    ("if list.iter().any(|it| *it == x) { 1 } else { 2 }", "if list.contains(&x) { 1 } else { 2 }"),
)

# Bodies that are near to one another, and may differ.
NEAR = (
    ("a - b", "b - a"),
    ("a / b", "b / a"),
    ("a - b - c", "a - (b - c)"),
    ("a * b + c", "a * (b + c)"),
    ("a << b", "b << a"),
    # (the first sum may overflow, and the other not)
    ("(s + t + a as i32) as u32", "(a as i32 + s + t) as u32"),
    ("a * b * c", "c * b * a"),
    ("a + b - c", "a - c + b"),
    ("if a - b >= c { 1 } else { 2 }", "if a >= b + c { 1 } else { 2 }"),
    ("if x + 200 >= 255 { 1 } else { 2 }", "if x >= 55 { 1 } else { 2 }"),
    ("u32::from(taken(from)) + second(from)", "second(from) + u32::from(taken(from))"),
    ("first(a) + second(b)", "second(b) + first(a)"),
    ("if a > 22 { 1 } else { 2 }", "if a >= 22 { 1 } else { 2 }"),
    ("if a > 22 { 1 } else { 2 }", "if a > 23 { 1 } else { 2 }"),
    ("if a <= 22 { 1 } else { 2 }", "if a < 22 { 1 } else { 2 }"),
    ("if !(a < b) { 1 } else { 2 }", "if a > b { 1 } else { 2 }"),
    # (of floats neither may hold)
    ("if !(ratio < 1.5) { 1 } else { 2 }", "if ratio >= 1.5 { 1 } else { 2 }"),
    ("if unknown(a) > other(b) { 1 } else { 2 }", "if !(unknown(a) <= other(b)) { 1 } else { 2 }"),
    # (a number with a sign may be below zero)
    ("if s != 0 { 1 } else { 2 }", "if s > 0 { 1 } else { 2 }"),
    ("if step.depth != 0 { 1 } else { 2 }", "if step.depth > 0 { 1 } else { 2 }"),
    ("if unknown(a) != 0 { 1 } else { 2 }", "if unknown(a) > 0 { 1 } else { 2 }"),
    ("if s / 2 == -3 { 1 } else { 2 }", "if s >> 1 == -3 { 1 } else { 2 }"),
    ("if x >= 254 { 1 } else { 2 }", "if x == 255 { 1 } else { 2 }"),
    ("if x >= 9 && x <= 13 { 1 } else { 2 }", "if (9..13).contains(&x) { 1 } else { 2 }"),
    ("if x >= 9 && x <= 13 { 1 } else { 2 }", "if (9..=14).contains(&x) { 1 } else { 2 }"),
    ("if matches!(x, 9..=13 | b' ') { 1 } else { 2 }", "if x == 32 || 9 < x && x < 14 { 1 } else { 2 }"),
    ("if x & 1 == 1 { 1 } else { 2 }", "if x & 1 == 0 { 1 } else { 2 }"),
    ("if yes == true { 1 } else { 2 }", "if yes == false { 1 } else { 2 }"),
    ("if !yes { 1 } else { 2 }", "if yes { 1 } else { 2 }"),
    ("if yes && no { 1 } else { 2 }", "if yes || no { 1 } else { 2 }"),
    ("if !(yes && no) { 1 } else { 2 }", "if !yes && !no { 1 } else { 2 }"),
    ("if !(yes || no) { 1 } else { 2 }", "if !yes && no { 1 } else { 2 }"),
    ("if yes && no || a > 1 { 1 } else { 2 }", "if yes && (no || a > 1) { 1 } else { 2 }"),
    # (what is read is read in each case, or where the first test holds)
    ("if yes && taken(from) { 1 } else { 2 }", "if taken(from) && yes { 1 } else { 2 }"),
    ("if yes & taken(from) { 1 } else { 2 }", "if yes && taken(from) { 1 } else { 2 }"),
    # (the second fails, or asks for what isn't so, where the first is false)
    ("if n < list.len() && list[n] == x { 1 } else { 2 }", "if list[n] == x && n < list.len() { 1 } else { 2 }"),
    ("if b != 0 && a / b == 1 { 1 } else { 2 }", "if a / b == 1 && b != 0 { 1 } else { 2 }"),
    ("if x < 9 && has_room(x) { 1 } else { 2 }", "if has_room(x) && x < 9 { 1 } else { 2 }"),
    ("if yes && unknown(a) { 1 } else { 2 }", "if unknown(a) && yes { 1 } else { 2 }"),
    ("if some.is_none() { 1 } else { 2 }", "if some.is_some() { 1 } else { 2 }"),
    ("if some.is_some() { 1 } else { 2 }", "if matches!(some, Some(0)) { 1 } else { 2 }"),
    ("if some.is_some() { 1 } else { 2 }", "if other.is_some() { 1 } else { 2 }"),
    ("if let Some(it) = some { it as u32 } else { 2 }", "match some { None => 3, Some(it) => it as u32 }"),
    ("let Some(it) = some else { return 2; }; it as u32", "match some { Some(it) => x as u32, None => 2 }"),
    ("if yes { return a; } b", "if yes { b } else { a }"),
    ("if yes { return a; } if no { return b; } c", "if no { b } else if yes { a } else { c }"),
    ("if yes { left.width = 1; } b", "if yes { left.width = 1; return b; } a"),
    ("if yes { if no { return a; } return c; } b", "if yes && no { return a; } b"),
    ("while *size < n { *size += 1; } a", "loop { if *size > n { break; } *size += 1; } a"),
    ("loop { if *size >= n { break; } *size += 1; } a", "loop { *size += 1; if *size >= n { break; } } a"),
    ("for at in 0..n { if yes { continue; } left.width = 1; } a", "for at in 0..n { if yes { break; } left.width = 1; } a"),
    ("match x { b'a' => 1, b'b' => 2, _ => 3 }", "match x { b'a' => 2, b'b' => 1, _ => 3 }"),
    # (arms that overlap: the first one counts)
    ("match x { 9..=20 => 1, 15..=30 => 2, _ => 3 }", "match x { 15..=30 => 2, 9..=20 => 1, _ => 3 }"),
    ("match x { it if it > 9 => 1, 20 => 2, _ => 3 }", "match x { 20 => 2, it if it > 9 => 1, _ => 3 }"),
    # (a constant may be the number, and `Self` the other type)
    ("match x { LEAST => 1, 3 => 2, _ => 3 }", "match x { 3 => 2, LEAST => 1, _ => 3 }"),
    ("match kind { Kind::Text => 1, Self::Text => 2, _ => 3 }", "match kind { Self::Text => 2, Kind::Text => 1, _ => 3 }"),
    ("match x { b'a' | b'b' => 1, _ => 3 }", "match x { b'a' | b'c' => 1, _ => 3 }"),
    ("match x { 9..=13 => 1, _ => 3 }", "match x { 9..13 => 1, _ => 3 }"),
    ("let first = twice(a); let second = twice(b); first - second", "let first = twice(b); let second = twice(a); first - second"),
    ("let first = twice(a); let second = twice(b); first - second", "let first = twice(a); let second = twice(b); second - first"),
    ("let one = a; let one = one + b; one", "let one = a; let two = one + b; one"),
    # (the place is changed between)
    ("let was = left.width; left.width = 1; was as u32", "left.width = 1; left.width as u32"),
    ("let was = *size; *size += 1; was as u32", "*size += 1; *size as u32"),
    ("let one = taken(from); left.width = 1; if one { 1 } else { 2 }", "left.width = 1; if taken(from) { 1 } else { 2 }"),
    ("let one = taken(from); if yes && one { 1 } else { 2 }", "if yes && taken(from) { 1 } else { 2 }"),
    # (the sum is taken, and may overflow, in each case)
    ("let one = a + b; if yes { one } else { 0 }", "if yes { a + b } else { 0 }"),
    ("let one = taken(from); let two = second(from); two", "let two = second(from); let one = taken(from); two"),
    ("if x == b'0' { 1 } else { 2 }", "if x == 49 { 1 } else { 2 }"),
    ("if x == 0x30 { 1 } else { 2 }", "if x == 30 { 1 } else { 2 }"),
    # (of a type that isn't known a number may be too large)
    ("shown(b'0')", "shown(48)"),
    ("shown(1u64 << 40)", "shown(1 << 40)"),
    ("(s % 64) as u32", "(s & 63) as u32"),
    ("a % 63", "a & 62"),
    ("if n >= LANES { 1 } else { 2 }", "if n > 16 { 1 } else { 2 }"),
    ("if n >= MOST { 1 } else { 2 }", "if n >= 16 { 1 } else { 2 }"),
    ("a + 0", "a + 1"),
    ("a * 0", "a"),
    ("(a as u8) as u32", "a"),
    ("(s as u32) as u32", "(s as u8) as u32"),
    ("for at in 0..=22 { left.width = 1; } a", "for at in 0..22 { left.width = 1; } a"),
    ("*size += 3; a", "*size += 1; *size += 1; a"),
    ("*size += 3; a", "*size = 3; a"),
    ("left.used += n; a", "left.used = n - left.used; a"),
    ("left.used |= counted(left); a", "left.used = left.used | counted(left); a"),
    ("let it = Pair { first: a, second: b }; it.first", "let it = Pair { first: b, second: a }; it.first"),
    ("if list.iter().any(|it| *it == x) { 1 } else { 2 }", "if list.iter().any(|it| *it != x) { 1 } else { 2 }"),
    ("if list.iter().any(|it| *it == *it) { 1 } else { 2 }", "if list.contains(&x) { 1 } else { 2 }"),
    ("loop { loop { break; } break; } a", "loop { loop { break; } } a"),
    ("println!(\"{a}\"); let a = b; a", "let a = b; println!(\"{a}\"); a"),
    ("let p = a; let q = b; shown!(p); 1", "let q = a; let p = b; shown!(p); 1"),
)


def tried():
    """How many pairs are judged as they must be, and how many are not; says which."""
    about, head, failed = About([CRATE]), Head(HEAD), 0
    pairs = [(*it, True) for it in SAME] + [(*it, False) for it in NEAR]
    for was, now, wanted in pairs:
        for one, other in ((was, now), (now, was)):
            if is_same(f"{{ {one} }}", f"{{ {other} }}", about, head) != wanted:
                failed += 1
                print(f"the runner itself: wanted {wanted} of {one} and {other}")
    return 2 * len(pairs) - failed, failed
