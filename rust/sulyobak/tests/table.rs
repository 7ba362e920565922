//! Document 01's table of twelve cases, on the real engine. S = 2; sessions 1 and 2 at studio 1, session 3 at studio 2.
use sulyobak::{Cart, Library, Operation, Read, Refusal, Request, Title};

fn fresh() -> Library {
    Library::new(2, &[1, 1, 2]).expect("setup")
}

fn title(text: &str) -> Title {
    Title::new(text).expect("a title")
}

fn new(cart: u16, text: &str) -> Operation {
    Operation::New { cart, title: title(text), audio: 501, milliseconds: 8_000 }
}

// "A is new cart 7, "Top hour A", audio 501, 8,000 ms."
fn a() -> Operation {
    new(7, "Top hour A")
}

fn cart_a() -> Cart {
    Cart { number: 7, title: title("Top hour A"), audio: 501, milliseconds: 8_000 }
}

fn answered(state: u32, found: u32, carts: &[Option<Cart>]) -> Result<Read, Refusal> {
    Ok(Read::Answered { state, found, carts: carts.to_vec() })
}

#[test]
fn cases_1_to_10() {
    let seven = Request::cart(7);

    assert_eq!(fresh().read(1, &seven), answered(0, 0, &[None]), "case 1");

    let mut library = fresh();
    assert_eq!(library.commit(1, &[a()]), Ok(1), "case 2");
    assert_eq!(library.read(1, &seven), Ok(Read::Waits { number: 1 }), "case 3");
    assert_eq!(library.read(2, &seven), answered(0, 0, &[None]), "case 4");
    assert_eq!(library.commit(1, &[a()]), Err(Refusal::ReadWaiting), "case 5");
    assert_eq!(library.refresh(1), Err(Refusal::AllApplied), "case 6");
    assert_eq!(library.send(1), Ok(1), "case 7, send");
    assert_eq!(library.refresh(1), Ok(1), "case 7, refresh");
    assert_eq!(library.collect(1), answered(1, 1, &[Some(cart_a())]), "case 7, collect");
    let before = library.clone();
    assert_eq!(library.commit(1, &[a()]), Err(Refusal::WrongState), "case 8");
    assert_eq!(library, before, "case 8: the session's number is commits, 1, already, so nothing changes");
    assert_eq!(library.commit(1, &[Operation::Withdraw { cart: 7 }, a()]), Ok(2), "case 9");
    let before = library.clone();
    assert_eq!(library.commit(1, &[new(8, "Top hour B"), new(8, "Top hour B")]), Err(Refusal::WrongState), "case 10");
    assert_eq!(library, before, "case 10: the session's number is commits, 2, already, so nothing changes");
    assert_eq!(library.send(1), Ok(2), "case 10, send");
    assert_eq!(library.refresh(1), Ok(2), "case 10, refresh");
    assert_eq!(library.read(1, &Request::cart(8)), answered(2, 0, &[None]), "case 10: cart 8 is empty in L(2)");
}

#[test]
fn case_11_a_title_is_kept_whole_or_refused() {
    let mut library = fresh();

    // Length 65, as bytes: Title has no such value.
    let mut operation = a().to_bytes();
    operation[1] = 65;
    operation[16..].fill(b'x');
    assert_eq!(library.memory().commit_bytes(1, &operation), Err(Refusal::Operation), "case 11");

    let (first, second) = (format!("{}1", "x".repeat(63)), format!("{}2", "x".repeat(63)));
    assert_eq!(library.commit(1, &[new(1, &first), new(2, &second)]), Ok(1));
    library.send(1).expect("send");
    library.refresh(1).expect("refresh");
    for (number, text) in [(1, &first), (2, &second)] {
        let cart = Cart { number, title: title(text), audio: 501, milliseconds: 8_000 };
        assert_eq!(library.read(1, &Request::Title(title(text))), answered(1, 1, &[Some(cart)]), "case 11, title {text}");
    }
}

#[test]
fn case_12_two_carts_with_one_title() {
    let mut library = fresh();
    assert_eq!(library.commit(1, &[new(1, "Top hour A"), new(2, "Top hour A")]), Ok(1));
    library.send(1).expect("send");
    library.refresh(1).expect("refresh");
    assert_eq!(library.read(1, &Request::Title(title("Top hour A"))), answered(1, 2, &[None]), "case 12");
}
