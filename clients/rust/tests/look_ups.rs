//! The changes, look-ups and pages with values in place of a line: each call, and what it refuses.
use std::ops::Bound::{Excluded, Included, Unbounded};
use weltiyo::{Database, Edit, Error, Page, Value};

// Indexes of the built-in table.
const BY_ID: usize = 0;
const BY_OWNER: usize = 1;
const BY_BALANCE: usize = 2;
const BY_VIP: usize = 3;
const BY_CLASS: usize = 4;
const LINE: usize = 5;

const EVE: &str = "eve, whose name is long";

fn row(owner: &str, balance: i64, vip: bool) -> Vec<Value> {
    vec![owner.into(), balance.into(), vip.into()]
}

/// ann has 50, bob 7 and `vip`, eve 7, and so they arrived.
fn filled() -> Database {
    let mut db = Database::open_with("", 1).unwrap();
    for (n, it) in [row("ann", 50, false), row("bob", 7, true), row(EVE, 7, false)].iter().enumerate() {
        assert_eq!(db.insert(0, it), Ok(n as u64));
    }
    db
}

fn ids(page: &Page) -> Vec<u64> {
    page.iter().map(|row| row.id()).collect()
}

fn listed(db: &mut Database) -> Vec<u64> {
    let mut page = Page::default();
    db.list(&mut page, 0, LINE, None).unwrap();
    ids(&page)
}

fn word<T: std::fmt::Debug>(answer: Result<T, Error>) -> String {
    answer.unwrap_err().word().to_owned()
}

#[test]
fn names_have_numbers() {
    let mut db = filled();
    assert_eq!((db.table("accounts"), db.column(0, "vip"), db.index(0, "id")), (Ok(0), Ok(2), Ok(BY_ID)));
    for (name, number) in [("by_owner", BY_OWNER), ("by_balance", BY_BALANCE), ("by_vip", BY_VIP), ("by_class", BY_CLASS)] {
        assert_eq!(db.index(0, name), Ok(number));
    }
    let refused = [word(db.table("account")), word(db.index(0, "owner")), word(db.column(0, "id")), word(db.column(1, "vip")), word(db.index(9, ""))];
    assert_eq!(refused, ["table", "index", "row", "table", "table"]);
}

#[test]
fn places() -> Result<(), Error> {
    let mut db = filled();
    assert_eq!(db.insert_before(0, &row("cid", 9, false), LINE, 1)?, 3);
    assert_eq!(word(db.insert_before(0, &row("dan", 9, false), LINE, 9)), "id");
    assert_eq!(word(db.insert_before(0, &row("dan", 9, false), BY_CLASS, 1)), "kind");
    assert_eq!(listed(&mut db), [0, 3, 1, 2]);
    db.relocate(0, LINE, 0, Some(2))?;
    assert_eq!(listed(&mut db), [3, 1, 0, 2]);
    db.relocate(0, LINE, 3, None)?;
    assert_eq!(listed(&mut db), [1, 0, 2, 3]);
    assert_eq!(word(db.relocate(0, LINE, 3, Some(9))), "id");
    Ok(())
}

#[test]
fn edits_and_sessions() -> Result<(), Error> {
    let mut db = filled();
    db.modify(0, 1, &[Edit::Put(0, "Bob".into()), Edit::Add(1, -7), Edit::Put(2, false.into())])?;
    assert_eq!(db.get(0, 1)?, row("Bob", 0, false));
    db.modify(0, 1, &[])?;
    assert_eq!(word(db.modify(0, 1, &[Edit::Put(0, "x".into()), Edit::Put(0, "y".into())])), "row");
    assert_eq!(word(db.modify(0, 1, &[Edit::Add(0, 1)])), "row");
    assert_eq!(word(db.modify(0, 1, &[Edit::Put(0, "ann".into())])), "unique");
    db.session()?.push();
    db.session()?.push();
    assert_eq!(db.erase_key(0, BY_VIP, &[false.into()])?, 3);
    assert_eq!(db.size(0)?, 0);
    assert_eq!((db.push()?, db.undo_all()?, db.undo_all()?, db.size(0)?), (2, 2, 0, 3));
    assert_eq!(word(db.size(1)), "table");
    Ok(())
}

#[test]
fn look_ups() -> Result<(), Error> {
    let mut db = filled();
    assert_eq!(db.find(0, BY_CLASS, &[true.into()])?, Some((1, row("bob", 7, true))));
    assert_eq!(db.find(0, BY_OWNER, &[EVE.into()])?, Some((2, row(EVE, 7, false))));
    assert_eq!(db.find(0, BY_OWNER, &["eve".into()])?, None);
    assert_eq!(word(db.find(0, BY_OWNER, &[1.into()])), "key");
    assert_eq!(word(db.find(0, LINE, &[1.into()])), "kind");
    assert_eq!(word(db.find(0, 6, &[1.into()])), "index");
    assert_eq!(db.count(0, BY_BALANCE, &[7.into()])?, 2);
    assert_eq!(db.count(0, BY_CLASS, &[false.into(), 50.into()])?, 1);
    assert_eq!(db.rank(0, BY_BALANCE, 2)?, 1);
    assert_eq!(word(db.rank(0, BY_BALANCE, 3)), "id");
    assert_eq!(db.lower_rank(0, BY_BALANCE, &[50.into()])?, 2);
    assert_eq!(db.upper_rank(0, BY_BALANCE, &[50.into()])?, 3);
    assert_eq!(db.nth(0, BY_BALANCE, 1)?, Some((2, row(EVE, 7, false))));
    assert_eq!(db.nth(0, BY_ID, 0)?, Some((0, row("ann", 50, false))));
    assert_eq!(db.nth(0, BY_BALANCE, 3)?, None);
    Ok(())
}

#[test]
fn pages() -> Result<(), Error> {
    let (mut db, mut page) = (filled(), Page::new(2));
    assert!(page.is_empty() && !page.has_more() && page.last().is_none());
    db.range(&mut page, 0, BY_BALANCE, .., false)?;
    assert_eq!((ids(&page), page.has_more(), page.len()), (vec![1, 2], true, 2));
    let bob = page.get(0).unwrap();
    assert_eq!((bob.text(0), bob.int(1), bob.flag(2), bob.len()), (Some("bob"), Some(7), Some(true), 3));
    assert_eq!((bob.int(0), bob.text(1), bob.flag(1), bob.value(3)), (None, None, None, None));
    assert_eq!(page.last().unwrap().to_vec(), row(EVE, 7, false));
    assert_eq!(page.iter().rev().map(|it| it.value(0)).collect::<Vec<_>>(), [Some(EVE.into()), Some("bob".into())]);
    let (seven, vip) = ([Value::Int(7)], [Value::Flag(true), Value::Int(7)]);
    db.range(&mut page, 0, BY_BALANCE, (Excluded(&seven[..]), Unbounded), false)?;
    assert_eq!((ids(&page), page.has_more()), (vec![0], false));
    db.range(&mut page, 0, BY_BALANCE, (Unbounded, Excluded(&seven[..])), false)?;
    assert_eq!((ids(&page), page.has_more()), (vec![], false));
    db.range(&mut page, 0, BY_BALANCE, (Included(&seven[..]), Included(&seven[..])), true)?;
    assert_eq!((ids(&page), page.has_more()), (vec![2, 1], false));
    db.range(&mut page, 0, BY_CLASS, (Included(&vip[..]), Included(&[Value::Flag(false)][..])), true)?;
    assert_eq!((ids(&page), page.has_more()), (vec![0, 2], true));
    assert_eq!(word(db.range(&mut page, 0, BY_OWNER, .., false)), "kind");
    assert!(page.is_empty() && !page.has_more());
    db.list(&mut page, 0, LINE, Some(0))?;
    assert_eq!((ids(&page), page.has_more()), (vec![1, 2], false));
    assert_eq!(word(db.list(&mut page, 0, LINE, Some(9))), "id");
    db.range(&mut Page::new(0), 0, BY_BALANCE, .., false)?;
    Ok(())
}

/// Bounds that both have texts, and pages that take more room than those before.
#[test]
fn pages_of_texts() -> Result<(), Error> {
    let schema = r#"
table = "t"
column = [{ name = "a", type = "text" }]
index = [{ name = "by_a", kind = "ordered", key = ["-a"] }]
"#;
    let (mut db, mut page) = (Database::open(schema)?, Page::default());
    for n in 0..400 {
        db.insert(0, &[["a", "b"][n % 2].repeat(n).as_str().into()])?;
    }
    let key = |n| [Value::from("b".repeat(n).as_str())];
    db.range(&mut page, 0, 1, (Included(&key(5)[..]), Included(&key(1)[..])), false)?;
    assert_eq!((ids(&page), page.get(0).unwrap().text(0)), (vec![5, 3, 1], Some("bbbbb")));
    db.range(&mut page, 0, 1, (Excluded(&key(21)[..]), Included(&key(17)[..])), false)?;
    assert_eq!(ids(&page), [19, 17]);
    db.range(&mut page, 0, 1, .., false)?;
    assert_eq!((page.len(), page.last().unwrap().id()), (400, 0));
    assert_eq!(page.get(0).unwrap().text(0), Some("b".repeat(399).as_str()));
    Ok(())
}
