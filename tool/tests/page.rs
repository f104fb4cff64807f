//! The page: one file without network, with the run's data in it. What a browser
//! makes of it is tried by `browser/check`.

mod common;

use std::fs;
use std::path::Path;

use common::{fed, folder, run};

fn journal(name: &str) -> String {
    let place = Path::new(env!("CARGO_MANIFEST_DIR")).join("..").join(name);
    place.to_string_lossy().into_owned()
}

/// The data in a page.
fn data(page: &str) -> &str {
    let begin = "<script type=\"application/json\" id=\"data\">";
    let (_, rest) = page.split_once(begin).expect("the data");
    rest.split_once("</script>").expect("its end").0
}

#[test]
fn one_file_and_no_network() {
    let here = folder("page-file");
    for name in [
        "docs/journals/morning.txt",
        "sessions/full-year.in",
        "sessions/worked.in",
    ] {
        let ended = run(&here, &["page", &journal(name), "-o", "page.html"]);
        assert_eq!((ended.status, ended.out.len()), (0, 0), "{ended:?}");
        let page = fs::read_to_string(here.join("page.html")).unwrap();
        assert!(page.starts_with("<!doctype html>"));
        assert!(!page.contains("{{"), "{name}");
        let links = page.matches("http").count();
        let name_space = page.matches("http://www.w3.org/2000/svg").count();
        assert_eq!(links, name_space, "{name}");
        assert!(!page.contains("src=") && !page.contains("@import") && !page.contains("url(h"));
        assert!(data(&page).starts_with('{') && data(&page).ends_with('}'));
    }
}

#[test]
fn the_stale_read_and_what_broke_the_premise() {
    let here = folder("page-stale");
    let page = run(&here, &["page", &journal("docs/journals/stale-read.txt")]).text();
    let told = data(&page);
    for words in [
        "\"verdict\":{\"refusal\":13,\"order\":[],\"lost\":46}",
        "\"broken\":42",
        "\"why\":\"servers 1,4 are faulty and hold the key of view 1, whose f is 1\"",
        "{\"client\":2,\"kind\":\"R\",\"begin\":28,\"end\":46,\"givenUp\":0,\"known\":true,\
         \"entry\":[1,1,1000],\"source\":0,\"before\":1}",
    ] {
        assert!(told.contains(words), "{words}");
    }
    let page = run(&here, &["page", &journal("docs/journals/morning.txt")]).text();
    let told = data(&page);
    assert!(told.contains("\"verdict\":{\"refusal\":0,\"order\":[0,1,2],\"lost\":0}"));
    assert!(told.contains("\"broken\":0"));
}

#[test]
fn a_restart() {
    let here = folder("page-restart");
    let page = run(&here, &["page", &journal("sessions/restart.in")]).text();
    let told = data(&page);
    // Its line; the pending view is another one, and the answers to END are untaken.
    let line = "{\"text\":\"restart members=3,4,5,6,7 f=0 r=2\",\"refusal\":0,";
    let (_, rest) = told.split_once(line).expect("its line");
    let (step, _) = rest.split_once("{\"text\":").expect("a step behind it");
    for words in [
        "\"newest\":1,",
        "{\"number\":2,\"members\":[3,4,5,6,7],\"f\":0,\"r\":2,",
    ] {
        assert!(step.contains(words), "{words}: {step}");
    }
    assert_eq!(step.matches("\"taken\":false").count(), 3, "{step}");
    assert!(told.contains("\"stop\":0"));
    assert!(told.contains("\"verdict\":{\"refusal\":0,\"order\":[0,1,2],\"lost\":0}"));
    let input = b"world members=1 f=0\nrestart\n";
    let page = fed(&here, &["page", "--text", "-"], input).text();
    assert!(data(&page).contains("{\"text\":\"restart\",\"refusal\":7,"));
}

#[test]
fn refused_steps() {
    let here = folder("page-refused");
    let input = b"world members=1 f=0\nread client=1\nread client=1\nwrite client=2 value=5\n";
    let page = fed(&here, &["page", "--text", "-"], input).text();
    let told = data(&page);
    assert!(told.contains("\"accepted\":1,\"stop\":4"), "{told}");
    assert!(!told.contains("write client=2"));
    let page = fed(&here, &["page", "--text", "--all", "-"], input).text();
    assert!(data(&page).contains("\"accepted\":2,\"stop\":4"));
    assert!(data(&page).contains("write client=2 value=5"));
}

#[test]
fn nothing_is_written_for_bad_input() {
    let here = folder("page-bad");
    let cases: [(&[u8], i32, &str); 4] = [
        (b"", 1, "refusal 1: "),
        (b"world members=1,2,3 f=1\n", 1, "refusal 8: "),
        (b"read client=1\n", 1, "refusal 3: "),
        (
            b"world members=1 f=0\nreed\n",
            2,
            "standard input:2:1: expected one of ",
        ),
    ];
    for (input, status, words) in cases {
        let ended = fed(&here, &["page", "--text", "-", "-o", "new"], input);
        assert_eq!(ended.status, status, "{ended:?}");
        assert!(ended.err.contains(words), "{ended:?}");
        assert!(!here.join("new").exists() && !here.join("new.part").exists());
    }
    let many = "world members=1 f=0\n".to_string() + &"take message=1\n".repeat(20_001);
    let ended = fed(
        &here,
        &["page", "--text", "--all", "-", "-o", "new"],
        many.as_bytes(),
    );
    assert_eq!(ended.status, 2);
    assert!(ended.err.contains("at most 20000 steps"), "{ended:?}");
    assert!(!here.join("new").exists());
}

#[test]
fn a_name_ends_no_tag() {
    let here = folder("page-name");
    let name = "a<b>&\"c\\.txt";
    fs::write(here.join(name), "world members=1 f=0\n").unwrap();
    let page = run(&here, &["page", name]).text();
    assert!(page.contains("<title>a&lt;b&gt;&amp;\"c\\.txt · zemawulo</title>"));
    assert!(data(&page).contains("\"title\":\"a\\u003cb>&\\\"c\\\\.txt\""));
}
