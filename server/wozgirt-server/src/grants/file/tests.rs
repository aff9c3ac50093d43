//! A record's file in a folder of its own.

use super::*;

const SECOND: Duration = Duration::from_secs(1);

struct Folder(PathBuf);

impl Folder {
    fn new(name: &str) -> Folder {
        let folder = std::env::temp_dir().join(format!("wozgirt-grants-{name}-{}", std::process::id()));
        let _ = fs::remove_dir_all(&folder);
        fs::create_dir(&folder).unwrap();
        Folder(folder)
    }

    fn path(&self) -> PathBuf {
        self.0.join("grants")
    }

    /// The lines of a file, each without its moment.
    fn lines(&self, name: &str) -> Vec<String> {
        let text = fs::read_to_string(self.0.join(name)).unwrap();
        assert!(text.ends_with('\n'), "{text:?}");
        text.lines().map(|line| line.split_once("Z ").map_or(line, |(_, rest)| rest).into()).collect()
    }

    fn names(&self) -> Vec<String> {
        let names = fs::read_dir(&self.0).unwrap().map(|it| it.unwrap().file_name().into_string().unwrap());
        let mut names: Vec<String> = names.collect();
        names.sort();
        names
    }
}

impl Drop for Folder {
    fn drop(&mut self) {
        let _ = fs::remove_dir_all(&self.0); // it is one of the system's for what is temporary
    }
}

const TEXT: &str = "2026-11-24T14:08:09.000017Z ended a 1 released\n";

fn block(at: u64) -> Block<'static> {
    Block { text: TEXT.as_bytes(), lines: 1, at: Moment::of(at, 0) }
}

const ENDED: &str = "ended a 1 released";

#[test]
fn lines_are_added_and_a_torn_end_is_cut_off() {
    let (folder, now) = (Folder::new("torn"), Instant::now());
    let server = Some("h1".into());
    let mut record = RecordFile::open(&folder.path(), 1 << 20, server.clone(), now).unwrap();
    record.write(block(0), now).unwrap();
    assert_eq!(folder.lines("grants"), [FIRST, "began server=h1", ENDED]);
    assert_eq!(fs::metadata(folder.path()).unwrap().mode() & 0o777, 0o600);
    let other = OpenOptions::new().append(true).open(folder.path()).unwrap();
    for torn in [&b"2026-11-24T14:08"[..], &[0; 3 * PIECE as usize], &[b'x'; PIECE as usize]] {
        drop(record);
        (&other).write_all(torn).unwrap();
        record = RecordFile::open(&folder.path(), 1 << 20, server.clone(), now).unwrap();
    }
    let began = "began server=h1";
    assert_eq!(folder.lines("grants"), [FIRST, began, ENDED, began, began, began]);
    drop(record);
    fs::write(folder.path(), &FIRST[..9]).unwrap();
    RecordFile::open(&folder.path(), 1 << 20, None, now).unwrap();
    assert_eq!(folder.lines("grants"), [FIRST, "began"]);
}

#[test]
fn one_that_is_long_goes_on_under_another_name() {
    let (folder, now) = (Folder::new("long"), Instant::now());
    let most = (FIRST.len() + 35 + 2 * TEXT.len()) as u64;
    let mut record = RecordFile::open(&folder.path(), most, None, now).unwrap();
    fs::write(folder.0.join("grants.0000000007"), "").unwrap();
    fs::write(folder.0.join("grants.part"), "of a server that was killed").unwrap();
    for _ in 0..5 {
        record.write(block(0), now).unwrap();
    }
    assert_eq!(folder.names(), ["grants", "grants.0000000007", "grants.0000000008", "grants.0000000009"]);
    for (name, count) in [("grants.0000000008", 2), ("grants.0000000009", 2), ("grants", 1)] {
        assert_eq!(folder.lines(name), [&[FIRST, "began"][..], &vec![ENDED; count]].concat(), "{name}");
    }
}

#[test]
fn one_that_cannot_go_on_under_another_name_is_longer() {
    let (folder, now) = (Folder::new("longer"), Instant::now());
    let mut record = RecordFile::open(&folder.path(), 1, None, now).unwrap();
    fs::create_dir(folder.0.join("grants.part")).unwrap();
    fs::write(folder.0.join("grants.part/x"), "").unwrap();
    record.write(block(0), now).unwrap();
    record.write(block(0), now).unwrap();
    assert_eq!(
        (folder.names().len(), folder.lines("grants")),
        (2, vec![FIRST.into(), "began".into(), ENDED.into(), ENDED.into()])
    );
}

#[test]
fn one_that_another_program_has_moved_is_begun_anew() {
    let (folder, now) = (Folder::new("moved"), Instant::now());
    let mut record = RecordFile::open(&folder.path(), 1 << 20, None, now).unwrap();
    record.write(block(0), now).unwrap();
    fs::rename(folder.path(), folder.0.join("grants.1")).unwrap();
    record.write(block(0), now).unwrap(); // it has not been looked for since
    record.write(block(0), now + 2 * SECOND).unwrap();
    assert_eq!(folder.lines("grants.1"), [FIRST, "began", ENDED, ENDED]);
    assert_eq!(folder.lines("grants"), [FIRST, "began", ENDED]);
    fs::rename(folder.path(), folder.0.join("grants.2")).unwrap();
    record.look(now).unwrap();
    assert_eq!(folder.lines("grants"), [FIRST, "began"]);
    fs::remove_file(folder.path()).unwrap();
    fs::write(folder.path(), "").unwrap(); // as logrotate may do
    record.look(now).unwrap();
    record.write(block(0), now).unwrap();
    assert_eq!(folder.lines("grants"), [FIRST, "began", ENDED]);
}

#[test]
fn what_cannot_be_written_is_counted_and_said() {
    let (folder, now) = (Folder::new("lost"), Instant::now());
    let mut record = RecordFile::open(&folder.path(), 1 << 20, None, now).unwrap();
    record.write(block(0), now).unwrap();
    let read_only = Arc::new(File::open(folder.path()).unwrap());
    record.open.as_mut().unwrap().file = read_only;
    assert!(record.write(block(60), now).is_err());
    assert!(record.write(Block { lines: 5, ..block(61) }, now + SECOND / 2).is_ok()); // it is not tried
    assert_eq!(record.lost(), Some(Lost { lines: 6, since: Moment::of(60, 0) }));
    record.write(block(62), now + SECOND).unwrap();
    let gap = "gap 6 1970-01-01T00:01:00.000000Z";
    assert_eq!(
        (folder.lines("grants"), record.lost()),
        ([FIRST, "began", ENDED, "began", gap, ENDED].map(String::from).into(), None)
    );
    record.lose(Lost { lines: 2, since: Moment::of(63, 0) }, now);
    record.lose(Lost { lines: 1, since: Moment::of(62, 0) }, now);
    record.write(block(64), now + SECOND).unwrap();
    assert!(folder.lines("grants").contains(&"gap 3 1970-01-01T00:01:02.000000Z".into()));
}

#[test]
fn what_is_no_record_is_refused() {
    let (folder, now) = (Folder::new("refused"), Instant::now());
    let opened =
        |name: &str| RecordFile::open(&folder.0.join(name), 1 << 20, None, now).map(drop).map_err(|it| it.to_string());
    fs::write(folder.0.join("other"), "as it was\n").unwrap();
    std::os::unix::fs::symlink(folder.0.join("other"), folder.0.join("link")).unwrap();
    assert_eq!(opened("other"), Err("it is not a record of grants".into()));
    assert!(opened("link").unwrap_err().contains("it is a link"));
    assert!(opened("none/grants").is_err() && opened(".").is_err());
    assert!(RecordFile::open(Path::new("/dev/null"), 1, None, now).is_err());
    assert_eq!(fs::read_to_string(folder.0.join("other")).unwrap(), "as it was\n");
    let _first = RecordFile::open(&folder.path(), 1 << 20, None, now).unwrap();
    let file = OpenOptions::new().append(true).read(true).open(folder.path()).unwrap();
    assert_eq!(begin(&file).unwrap_err().to_string(), "another server writes it");
}
