//! Rows of an index one at a time, and their columns.
use std::ops::Bound::{Excluded, Included, Unbounded};
use weltiyo::{Database, Scan, Value};

// Indexes of the built-in table.
const BY_OWNER: usize = 1;
const BY_BALANCE: usize = 2;
const BY_CLASS: usize = 4;
const LINE: usize = 5;

fn filled() -> Database {
    let mut db = Database::open_with("", 1).unwrap();
    for (owner, balance, vip) in [("ann", 50, false), ("bob", 7, true), ("cid", 9, false), ("dan", 7, false)] {
        db.insert(0, &[owner.into(), balance.into(), vip.into()]).unwrap();
    }
    db
}

fn owners(scan: Scan<'_>) -> String {
    scan.map(|row| row.get::<String>("owner").unwrap()).collect::<Vec<_>>().join(" ")
}

#[test]
fn rows_between_bounds() {
    let db = filled();
    let between = |lower: i64, upper: i64| db.scan(0, BY_BALANCE, (Included(&[lower.into()][..]), Excluded(&[upper.into()][..]))).unwrap();
    assert_eq!(owners(db.scan(0, BY_BALANCE, ..).unwrap()), "bob dan cid ann");
    assert_eq!(owners(between(7, 50)), "bob dan cid");
    assert_eq!(owners(between(50, 7)), "");
    assert_eq!(owners(between(8, 9)), "");
    assert_eq!(owners(db.scan(0, BY_BALANCE, (Excluded(&[7.into()][..]), Unbounded)).unwrap()), "cid ann");
    assert_eq!(owners(db.scan(0, BY_BALANCE, (Unbounded, Included(&[7.into()][..]))).unwrap()), "bob dan");
    assert_eq!(owners(db.scan(0, BY_CLASS, (Included(&[true.into()][..]), Included(&[true.into()][..]))).unwrap()), "bob");
    assert_eq!(owners(db.scan(0, LINE, ..).unwrap()), "ann bob cid dan");
}

#[test]
fn rows_from_both_sides() {
    let db = filled();
    let mut scan = db.scan(0, BY_BALANCE, ..).unwrap();
    assert_eq!(scan.next_back().unwrap().id(), 0);
    assert_eq!(scan.next().unwrap().id(), 1);
    assert_eq!(scan.clone().rev().map(|row| row.id()).collect::<Vec<_>>(), [2, 3]);
    assert_eq!(scan.map(|row| row.rank().unwrap()).collect::<Vec<_>>(), [1, 2]);
}

#[test]
fn columns() {
    let mut db = filled();
    let long = "x".repeat(1024);
    let id = db.insert(0, &[Value::Text(long.clone()), (-1).into(), true.into()]).unwrap();
    let balance = db.column(0, "balance").unwrap();
    let row = db.seen(0, id).unwrap().unwrap();
    assert_eq!((row.get::<String>("owner"), row.get::<i64>(balance), row.get::<bool>("vip")), (Ok(long), Ok(-1), Ok(true)));
    assert_eq!(row.get::<i64>("owner").unwrap_err().word(), "row");
    assert_eq!(row.get::<bool>("balance").unwrap_err().word(), "row");
    assert_eq!(row.get::<String>("vip").unwrap_err().word(), "row");
    assert_eq!(row.get::<i64>("sum").unwrap_err().word(), "row");
    assert_eq!(row.get::<i64>(3).unwrap_err().word(), "row");
    assert!(db.seen(0, 99).unwrap().is_none());
}

#[test]
fn refusals() {
    let db = filled();
    assert_eq!(db.scan(0, BY_OWNER, ..).err().unwrap().word(), "kind");
    assert_eq!(db.scan(1, 0, ..).err().unwrap().word(), "table");
    assert_eq!(db.scan(0, 9, ..).err().unwrap().word(), "index");
    assert_eq!(db.scan(0, BY_BALANCE, (Included(&["ann".into()][..]), Unbounded)).err().unwrap().word(), "key");
    assert_eq!(db.scan(0, LINE, (Included(&[1.into()][..]), Unbounded)).err().unwrap().word(), "kind");
}
