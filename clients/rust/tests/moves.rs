//! Databases that are exchanged while a session is open, the largest page, and what a refusal tells. It asks no more of the built-in table than
//! `clients/cpp/tests/stand_in.cpp` does.
use std::mem;
use weltiyo::{Database, Error, Page, Value};

const LINE: usize = 5;

type Step = fn(&mut Database) -> Result<(), Error>;

fn row(owner: &str) -> Vec<Value> {
    vec![owner.into(), 1.into(), true.into()]
}

fn opened() -> Database {
    Database::open_with("", 1).unwrap()
}

/// A session undoes what was done in it wherever its database is by then.
#[test]
fn exchanged_in_a_session() -> Result<(), Error> {
    let (mut one, mut two) = (opened(), opened());
    two.session()?.push();
    two.insert(0, &row("kept"))?;
    let mut session = one.session()?;
    session.insert(0, &row("tried"))?;
    mem::swap(&mut *session, &mut two);
    assert_eq!((session.size(0)?, two.size(0)?), (1, 1));
    drop(session);
    assert_eq!((two.size(0)?, two.undo().unwrap_err().word()), (0, "session"));
    assert_eq!((one.size(0)?, one.undo_all()?), (1, 1));
    Ok(())
}

#[test]
fn ended_by_its_own_steps() -> Result<(), Error> {
    for is_squashed in [true, false] {
        let (mut one, mut two) = (opened(), opened());
        let mut session = one.session()?;
        session.insert(0, &row("ann"))?;
        mem::swap(&mut *session, &mut two);
        if is_squashed {
            session.squash()?;
        } else {
            session.undo()?;
        }
        assert_eq!((one.size(0)?, two.size(0)?), (0, is_squashed.into()));
        assert_eq!(two.undo().unwrap_err().word(), "session");
    }
    Ok(())
}

/// It stays open as long as a session of it is.
#[test]
fn put_away_in_a_session() -> Result<(), Error> {
    let mut db = opened();
    let mut session = db.session()?;
    session.insert(0, &row("ann"))?;
    drop(mem::replace(&mut *session, opened()));
    session.session()?.push();
    session.insert(0, &row("bob"))?;
    drop(session);
    assert_eq!((db.size(0)?, db.undo_all()?), (1, 1));
    Ok(())
}

/// A session of a block ends its own alone: not the pushed one below where its own has ended, and not the pushed one above.
#[test]
fn only_its_own() -> Result<(), Error> {
    let mut db = opened();
    db.session()?.push();
    db.insert(0, &row("kept"))?;
    let steps: [Step; 3] = [Database::undo, Database::squash, |db| db.ask(r#"{"cmd":"undo"}"#).map(drop)];
    for step in steps {
        let mut session = db.session()?;
        step(&mut session)?;
        drop(session);
        let mut session = db.session()?;
        step(&mut session)?;
        assert_eq!(session.squash().unwrap_err().word(), "session");
    }
    let mut session = db.session()?;
    session.session()?.push();
    drop(session);
    assert_eq!((db.size(0)?, db.undo_all()?), (1, 3));
    Ok(())
}

/// What was begun in a block and is open still ends with it: by a line, or by a session that is never dropped.
#[test]
fn begun_within() -> Result<(), Error> {
    let mut db = opened();
    let mut session = db.session()?;
    session.ask(r#"{"cmd":"start"}"#)?;
    mem::forget(session.session()?);
    session.insert(0, &row("ann"))?;
    drop(session);
    assert_eq!((db.size(0)?, db.undo_all()?), (0, 0));
    Ok(())
}

#[test]
fn largest_pages() -> Result<(), Error> {
    let (mut db, mut page) = (opened(), Page::new(usize::MAX));
    for n in 0..=1000 {
        db.insert(0, &row(&n.to_string()))?;
    }
    db.list(&mut page, 0, LINE, None)?;
    assert_eq!((page.len(), page.has_more(), page.last().unwrap().text(0)), (1000, true, Some("999")));
    Ok(())
}

#[test]
fn a_conflict_tells_the_record_and_the_index() -> Result<(), Error> {
    let mut db = opened();
    db.insert(0, &row("ann"))?;
    let refused = db.insert(0, &row("ann")).unwrap_err();
    assert_eq!(refused.to_string(), r#"{"error":"unique","id":0,"index":1,"ok":false}"#);
    assert_eq!((refused.word(), refused.id(), refused.index(), refused.is_lost()), ("unique", Some(0), Some("1"), false));
    let of_a_line = Error::Refused(r#"{"error":"unique","id":18446744073709551615,"index":"by_owner","lost":true,"ok":false}"#.into());
    assert_eq!((of_a_line.id(), of_a_line.index(), of_a_line.is_lost()), (Some(u64::MAX), Some("by_owner"), true));
    let refused = db.undo().unwrap_err();
    assert_eq!((refused.word(), refused.id(), refused.index(), refused.is_lost()), ("session", None, None, false));
    Ok(())
}

/// What a caller makes has a word where it is a refusal, and else none.
#[test]
fn errors_of_a_caller() {
    for (text, word) in [("", ""), ("busy", ""), ("0123456789é", ""), (r#"{"error":""#, ""), (r#"{"error":"é"#, "é"), (r#"{"ok":true,"id":7}"#, "")] {
        let made = Error::Refused(text.to_owned());
        assert_eq!((made.word(), made.index(), made.is_lost()), (word, None, false), "{text}");
    }
    assert_eq!((Error::Schema("twice").word(), Error::Schema("twice").id()), ("twice", None));
}

/// The text of a schema opens the same tables.
#[test]
fn text_of_a_schema() -> Result<(), Error> {
    let text = opened().schema()?;
    assert_eq!(Database::open_with(&text, 1)?.schema()?, text);
    Ok(())
}
