//! The toolbar of README.md, changed and laid out anew.

use maugzeris::{Context, Error, Width};

const GRAMMAR: &str = "root Window;
interface Window { syn w, h; show w, h; }
interface Item { inh x, y; syn w, h; show x, y, w, h; }
class Bar : Window {
  input gap;
  items : [Item];
  items.x := first 0 then prev.x + prev.w + self.gap;
  items.y := 0;
  self.w := fold items from 0 with max(acc, this.x + this.w);
  self.h := fold items from 0 with max(acc, this.h);
}
class Button : Item {
  input tw, th;
  self.w := self.tw + 8;
  self.h := self.th + 4;
}
";

const DOCUMENT: &str = "Bar { gap = 2 items = [
  Button { tw = 30 th = 10 } Button { tw = 12 th = 14 }
] }
";

const BEFORE: &str = "0 Bar w=60 h=18
1 Button x=0 y=0 w=38 h=14
2 Button x=40 y=0 w=20 h=18
";

const AFTER: &str = "0 Bar w=70 h=18
1 Button x=0 y=0 w=48 h=14
2 Button x=50 y=0 w=20 h=18
";

#[test]
fn laid_out_anew() {
    let context = Context::new().unwrap();
    let rules = context
        .grammar(GRAMMAR, Width::Narrow)
        .unwrap()
        .rules(None)
        .unwrap();
    let mut page = rules.page(DOCUMENT).unwrap();
    assert_eq!(page.boxes(), Err(Error::Wrong));
    assert_eq!(page.relayout(), Err(Error::Wrong));
    page.lay_out().unwrap();
    assert_eq!(page.node_count(), Ok(3));
    let boxes = page.boxes().unwrap();
    assert_eq!((boxes.text.as_str(), boxes.overflows), (BEFORE, false));
    let width = page.attribute(1, "tw").unwrap();
    page.set_input(1, width, 40).unwrap();
    assert_eq!(page.relayout(), Ok(3));
    assert_eq!(page.touched().unwrap().len(), 3);
    assert_eq!(page.boxes().unwrap().text, AFTER);
    page.set_input(1, width, 2147483647).unwrap();
    page.relayout().unwrap();
    let whole = page.attribute(0, "w").unwrap();
    assert_eq!(page.value(0, whole), Ok(None));
    assert!(page.boxes().unwrap().overflows);
}

#[test]
fn what_is_not_done() {
    let context = Context::new().unwrap();
    let grammar = context.grammar(GRAMMAR, Width::Narrow).unwrap();
    let refused = context
        .grammar("root R, interface R { }\n", Width::Wide)
        .unwrap_err();
    assert_eq!(refused.to_string(), "refused grammar: syntax at 6");
    assert!(matches!(
        grammar.rules(Some("bottomup { Item.w }")),
        Err(Error::Refused { status: 6, .. })
    ));
    let rules = grammar.rules(None).unwrap();
    assert!(matches!(
        rules.page("Bar { }"),
        Err(Error::Refused { status: 7, .. })
    ));
    let mut page = rules.page(DOCUMENT).unwrap();
    page.lay_out().unwrap();
    assert_eq!(page.attribute(1, "gap"), Err(Error::Wrong));
    assert_eq!(page.attribute(3, "w"), Err(Error::Wrong));
    let height = page.attribute(1, "h").unwrap();
    assert_eq!(page.set_input(1, height, 1), Err(Error::NotTaken));
    let text = page.attribute(1, "tw").unwrap();
    assert_eq!(page.set_input(1, text, 2147483648), Err(Error::NotTaken));
}

#[test]
fn each_thread_its_own() {
    let threads: Vec<_> = (0..16)
        .map(|number| {
            std::thread::spawn(move || {
                let context = Context::new().unwrap();
                let rules = context
                    .grammar(GRAMMAR, Width::Narrow)
                    .unwrap()
                    .rules(None)
                    .unwrap();
                let mut page = rules.page(DOCUMENT).unwrap();
                page.lay_out().unwrap();
                let (text, whole) = (
                    page.attribute(1, "tw").unwrap(),
                    page.attribute(0, "w").unwrap(),
                );
                page.set_input(1, text, number).unwrap();
                page.relayout().unwrap();
                // the bar is 8 wider than each text, 12 the second, and the gap of 2
                assert_eq!(page.value(0, whole), Ok(Some(number + 30)));
                drop(page);
                context
            })
        })
        .collect();
    // a context may go to another thread, where it is dropped
    threads.into_iter().for_each(|it| drop(it.join().unwrap()));
}
