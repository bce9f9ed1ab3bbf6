//! Sessions of blocks, what is refused, and who frees what.
use weltiyo::{Database, Error, Session, OWN};

/// What a block does with its database.
type Step<'a> = &'a dyn Fn(&mut Database) -> Result<(), Error>;

fn insert(owner: &str) -> String {
    format!(r#"{{"cmd":"insert","row":{{"owner":"{owner}","balance":1,"vip":false}}}}"#)
}

fn size(db: &mut Database) -> String {
    db.ask(r#"{"cmd":"size"}"#).unwrap()
}

#[test]
fn a_block_that_fails_is_undone() {
    fn block(db: &mut Database) -> Result<(), Error> {
        let mut session = db.session()?;
        session.ask(insert("bob"))?;
        assert_eq!(size(&mut session), r#"{"ok":true,"size":2}"#);
        session.ask(insert("ann"))?;
        session.squash()
    }

    let mut db = Database::open_with("", 1).unwrap();
    db.ask(insert("ann")).unwrap();
    let refused = block(&mut db).unwrap_err();
    assert_eq!(refused.word(), "unique");
    assert_eq!(refused.to_string(), r#"{"error":"unique","id":0,"index":"by_owner","ok":false}"#);
    assert_eq!(size(&mut db), r#"{"ok":true,"size":1}"#);
}

#[test]
fn sessions_nest() -> Result<(), Error> {
    let mut db = Database::open("")?;
    let mut outer = db.session()?;
    let mut inner = outer.session()?;
    inner.ask(insert("ann"))?;
    inner.squash()?;
    assert_eq!(size(&mut outer), r#"{"ok":true,"size":1}"#);
    outer.undo()?;
    assert_eq!(size(&mut db), r#"{"ok":true,"size":0}"#);
    Ok(())
}

/// What ends or pushes the session of a block beside its guard, which then does nothing.
#[test]
fn ended_beside_its_guard() -> Result<(), Error> {
    let line = |text: &'static str| move |db: &mut Database| db.ask(text).map(drop);
    let steps: [(Step<'_>, u64); 9] = [
        (&|db| db.commit(9).map(drop), 0),
        (&|db| db.undo_all().map(drop), 0),
        (&|db| db.push().map(drop), 2),
        (
            &|db| {
                db.release(OWN);
                Ok(())
            },
            1,
        ),
        (&line(r#"{"cmd":"squash"}"#), 1),
        (&line(r#"{"cmd":"commit","revision":9}"#), 0),
        (&line(r#"{"cmd":"undo_all"}"#), 0),
        (&line(r#"{"cmd":"push"}"#), 2),
        (&|db| db.undo().and_then(|()| db.session().map(Session::push)), 2),
    ];
    for (n, (step, left)) in steps.iter().enumerate() {
        let mut db = Database::open("")?;
        db.session()?.push();
        db.push()?;
        let mut session = db.session()?;
        step(&mut session)?;
        drop(session);
        assert_eq!(db.undo_all()?, *left, "step {n}");
    }
    Ok(())
}

#[test]
fn a_pushed_session_is_held_until_its_connection_goes() -> Result<(), Error> {
    let mut db = Database::open("")?;
    let mut session = db.session()?;
    session.ask(insert("ann"))?;
    session.push();
    assert_eq!(db.answer(7, insert("bob")), r#"{"error":"busy","ok":false}"#);
    db.release(7);
    assert_eq!(size(&mut db), r#"{"ok":true,"size":1}"#);
    db.release(OWN);
    assert_eq!(size(&mut db), r#"{"ok":true,"size":0}"#);
    Ok(())
}

#[test]
fn schemas_are_refused_by_their_word() {
    assert_eq!(Database::open("table = 1\n").unwrap_err(), Error::Schema("shape"));
    assert_eq!(Database::open(vec![b' '; 65_537]).unwrap_err().to_string(), "schema: file");
}

#[test]
fn long_replies_come_whole() -> Result<(), Error> {
    let mut db = Database::open("")?;
    let owner = "x".repeat(1000);
    db.ask(insert(&owner))?;
    let wanted = format!(r#"{{"ok":true,"row":{{"balance":1,"id":0,"owner":"{owner}","vip":false}}}}"#);
    assert_eq!(db.ask(r#"{"cmd":"get","id":0}"#)?, wanted);
    Ok(())
}

#[test]
fn values_in_place_of_a_line() -> Result<(), Error> {
    let mut db = Database::open("")?;
    let ann = db.insert(0, &["ann é".into(), 50.into(), true.into()])?;
    assert_eq!(db.ask(r#"{"cmd":"get","id":0}"#)?, r#"{"ok":true,"row":{"balance":50,"id":0,"owner":"ann é","vip":true}}"#);
    assert_eq!(db.insert(0, &["ann é".into(), 1.into(), true.into()]).unwrap_err().word(), "unique");
    assert_eq!(db.insert(0, &["bob".into(), 1.into()]).unwrap_err().word(), "row");
    assert_eq!(db.insert(1, &[]).unwrap_err().word(), "table");
    {
        let mut session = db.session()?;
        session.add(0, ann, 1, -60)?;
        session.replace(0, ann, &["".into(), 1.into(), false.into()])?;
        assert_eq!(session.get(0, ann)?, ["".into(), 1.into(), false.into()]);
        session.erase(0, ann)?;
        assert_eq!(session.get(0, ann).unwrap_err().word(), "id");
    }
    assert_eq!(db.get(0, ann)?, ["ann é".into(), 50.into(), true.into()]);
    assert_eq!(db.undo().unwrap_err().to_string(), r#"{"error":"session","ok":false}"#);
    db.session()?.push();
    assert_eq!(db.commit(9)?, 1);
    Ok(())
}
