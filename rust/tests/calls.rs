//! The library's calls: what a caller may not do is an error, and a caller's threads may share what they get.
use crate::{Error, ErrorKind, Run, Verdict, Wiring, Workers, verify};

const PAIR: &str = "ccr 1\nqueue q unbounded\nport a\nhandler h\nend\nreceive r always q h take a 1 any\nposter p\npost a 7\nend\n";

fn wiring() -> Wiring {
    PAIR.parse().expect("a wiring")
}

#[test]
fn limits_are_errors() {
    let long = vec![b'#'; 1_048_577];
    let refused = Wiring::read(&long).expect_err("too long");
    assert_eq!((refused.kind(), refused.line(), refused.code()), (ErrorKind::TooLong, None, None));
    assert!(Wiring::read(&long[1..]).is_err_and(|refused| (refused.kind(), refused.code()) == (ErrorKind::Refused, Some(2))));
    let many = wiring().run(Workers::Threads(17)).expect_err("too many");
    assert_eq!((many.kind(), many.to_string()), (ErrorKind::TooManyWorkers, String::from("a run has at most 16 workers")));
    let long = verify(&wiring(), vec![b'#'; 33_554_433]).expect_err("too long");
    assert_eq!(long.kind(), ErrorKind::TooLong);
}

#[test]
fn runs_are_legal_with_any_number_of_workers() {
    for count in [0, 1, 4, 16] {
        let run = wiring().run(Workers::Threads(count)).expect("it runs");
        let Ok(Verdict::Legal(legal)) = verify(&wiring(), run.text()) else { panic!("not legal: {run}") };
        assert!(legal.complete && legal.quiet);
        assert_eq!((run.counts().posted, run.counts().fired, run.counts().done), (1, 1, 1));
        assert_eq!(format!("{}{}done 0\n", run.history(), run.report()), run.text());
    }
}

#[test]
fn a_shed_task_ends_in_done_6() {
    let text = PAIR.replace("ccr 1\n", "ccr 1\nbudget 1\n").replace("handler h\n", "handler h\npost a 1\npost a 2\n");
    let wiring = Wiring::read(text).expect("a wiring");
    let run = wiring.run(Workers::None).expect("it runs");
    assert!(run.counts().shed > 0 && run.text().ends_with("\ndone 6\n"));
    assert!(verify(&wiring, run.text()).is_ok_and(|verdict| verdict.is_legal()));
}

#[test]
fn what_differs_behind_the_history_is_misreported() {
    let run = wiring().run(Workers::None).expect("it runs");
    let lines = u32::try_from(run.text().lines().count()).expect("few");
    let line_of = |text: String| match verify(&wiring(), text) {
        Ok(Verdict::Misreported { line }) => line,
        other => panic!("{other:?}"),
    };
    assert_eq!(line_of(run.text().replace("done 0\n", "done 6\n")), lines);
    assert_eq!(line_of(run.text().trim_end().to_string()), lines);
    assert_eq!(line_of(format!("{run}more")), lines + 1);
    assert_eq!(line_of(run.text().replace("report 1\n", "report 1\nport b\n")), lines - 4);
}

#[test]
fn no_output_is_malformed() {
    let found = verify(&wiring(), "").expect_err("no history");
    assert_eq!((found.kind(), found.line(), found.code()), (ErrorKind::Malformed, Some(1), Some(3)));
}

#[test]
fn threads_may_share_what_they_get() {
    fn is_shared<T: Send + Sync + 'static>() {}
    is_shared::<Wiring>();
    is_shared::<Run>();
    is_shared::<Error>();
    let wiring = wiring();
    let runs: Vec<Run> = std::thread::scope(|scope| {
        let begun: Vec<_> = (0..2).map(|_| scope.spawn(|| wiring.run(Workers::None).expect("it runs"))).collect();
        begun.into_iter().map(|one| one.join().expect("it ends")).collect()
    });
    assert_eq!(runs[0], runs[1]);
}
