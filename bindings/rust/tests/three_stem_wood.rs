//! The worked cases of the three-stem wood, through the crate alone.

use sotjarn::Term::{Name, Number};
use sotjarn::{
    make, open, turn, view, Branch, Comparison, Condition, Group, Kept, Key, List, Place, Plan, PlanBuilder, Query, Queue, Refusal,
    State,
};
use sotjarn::{Dropped, Made, Reason, Survey, TableWords, TurnEnding, Value, Variable, Viewed};

const STEM: Variable = Variable(0);
const SIZE: Variable = Variable(1);

/// The number that the wood stands under, unless a case says another.
const SEVEN: u32 = 7;

/// The year of the wood, as a row has it.
const I2026: u32 = 0x4000_07EA;

fn wood() -> TableWords {
    let stem = |(stem, size)| [[Name(stem), Name(10), Name(100)], [Name(stem), Name(12), Number(size)]];
    TableWords::of_year(2026, [(1, 45), (2, 310), (3, 310)].into_iter().flat_map(stem)).expect("every value fits")
}

fn branch(condition: Condition) -> Branch {
    Branch::new()
        .pattern(STEM, Name(10), Name(100))
        .pattern(STEM, Name(12), SIZE)
        .condition(condition)
}

fn at_least_70() -> Condition {
    Condition::compare(SIZE, Comparison::AtLeast, Number(70))
}

fn one(condition: Condition) -> PlanBuilder {
    Plan::builder().branch(branch(condition))
}

fn plan_a() -> Plan {
    one(at_least_70()).rows([STEM, SIZE]).expect("every value fits")
}

/// Each turn's steps and ending, and the list kept of them all.
fn run(survey: Survey, plan: &Plan, quantum: u32, output: usize) -> (Vec<(u32, TurnEnding)>, List) {
    let mut query = Query::open(survey, plan.words()).expect("the opening is accepted");
    let (mut kept, mut turns) = (Kept::new(plan), Vec::new());
    for turn in query.turns(quantum, output) {
        let turn = turn.expect("the turn is served");
        kept.take(&turn.list).expect("the list is taken");
        turns.push((turn.steps, turn.ending));
    }
    (turns, kept.list().expect("a list of the plan"))
}

fn row(stem: u32, size: i32) -> Vec<Value> {
    vec![Value::Name(stem), Value::Number(size)]
}

#[test]
fn the_tables_are_those_of_the_rules() {
    let wood = wood();
    assert_eq!(
        (&wood.pos[..], &wood.osp[..]),
        (&[0, 2, 4, 1, 3, 5][..], &[0, 2, 4, 1, 3, 5][..])
    );
}

/// The wood backwards, its fourth row twice, and a row with a text as subject between.
fn measured() -> Vec<u32> {
    let mut rows: Vec<[u32; 4]> = wood()
        .rows
        .chunks_exact(4)
        .rev()
        .map(|row| [row[0], row[1], row[2], row[3]])
        .collect();
    rows.splice(3..3, [[I2026, 0x8000_0007, 12, 0x4000_0058], [I2026, 2, 12, 0x4000_0136]]);
    rows.concat()
}

#[test]
fn an_upload_in_the_order_it_was_measured_makes_the_wood() {
    let (made, dropped) = TableWords::make(&measured()).expect("the upload is taken");
    assert_eq!(made, wood());
    let told = [(3, Reason::WrongKind), (4, Reason::Repeat)];
    assert_eq!(dropped, told.map(|(place, reason)| Dropped { place, reason }));
}

#[test]
fn five_words_are_refused_by_15_and_a_short_report_by_16() {
    let upload = measured();
    let (mut rows, mut pos, mut osp, mut report) = ([9; 24], [9; 6], [9; 6], [9; 4]);
    assert_eq!(
        make(&upload[..5], &mut rows, &mut pos, &mut osp, &mut report),
        Err(Refusal::UploadLength)
    );
    assert_eq!(
        make(&upload, &mut rows, &mut pos, &mut osp, &mut report[..3]),
        Err(Refusal::MadeLengths)
    );
    assert_eq!((rows, pos, osp, report), ([9; 24], [9; 6], [9; 6], [9; 4]));
    let words = Made {
        rows_words: 24,
        pos_words: 6,
        osp_words: 6,
        report_words: 4,
    };
    assert_eq!(make(&upload, &mut rows, &mut pos, &mut osp, &mut report), Ok(words));
    assert_eq!(report, [3, 1, 4, 2]);
}

#[test]
fn nothing_uploaded_makes_no_rows() {
    assert_eq!(TableWords::make(&[]), Ok((TableWords::default(), vec![])));
}

/// The tables of some of the wood's rows.
fn part(rows: std::ops::Range<usize>) -> TableWords {
    let words = &wood().rows[4 * rows.start..4 * rows.end];
    TableWords::make(words).expect("the upload is taken").0
}

#[test]
fn an_adviser_of_one_stem_sees_its_rows_whatever_membership_is() {
    for membership in [10, 12, 0, 0x4000_000A, u32::MAX] {
        assert_eq!(TableWords::view(wood().tables(), &[2], membership), Ok(part(2..4)));
    }
    assert_eq!(TableWords::view(wood().tables(), &[2, 3], 12), Ok(part(2..6)));
}

#[test]
fn an_adviser_of_a_stand_sees_its_stems_by_their_membership() {
    assert_eq!(TableWords::view(wood().tables(), &[100], 10), Ok(wood()));
    assert_eq!(TableWords::view(wood().tables(), &[100], 12), Ok(TableWords::default()));
    assert_eq!(
        TableWords::view(wood().tables(), &[10], 10),
        Ok(TableWords::default()),
        "a predicate is no subject"
    );
}

#[test]
fn nothing_granted_shows_nothing() {
    assert_eq!(TableWords::view(wood().tables(), &[], 10), Ok(TableWords::default()));
    let none = Viewed {
        rows_words: 0,
        pos_words: 0,
        osp_words: 0,
    };
    assert_eq!(view(wood().tables(), &[], 10, &mut [], &mut [], &mut []), Ok(none));
}

#[test]
fn grants_out_of_order_are_refused_by_20_and_then_short_buffers_by_21() {
    let wood = wood();
    let (mut rows, mut pos, mut osp) = ([9; 8], [9; 2], [9; 2]);
    for grant in [&[3, 2][..], &[2, 2], &[2, 0x4000_0003], &[0x8000_0002], &[0xC000_0000]] {
        assert_eq!(
            view(wood.tables(), grant, 10, &mut rows, &mut pos, &mut osp),
            Err(Refusal::Grant)
        );
        assert_eq!(
            view(wood.tables(), grant, 10, &mut [], &mut [], &mut []),
            Err(Refusal::Grant),
            "20 comes first"
        );
    }
    assert_eq!(
        view(wood.tables(), &[2], 10, &mut rows[1..], &mut pos, &mut osp),
        Err(Refusal::ViewLengths)
    );
    assert_eq!(
        view(wood.tables(), &[2], 10, &mut rows, &mut pos[1..], &mut osp),
        Err(Refusal::ViewLengths)
    );
    assert_eq!(
        view(wood.tables(), &[2], 10, &mut rows, &mut pos, &mut osp[1..]),
        Err(Refusal::ViewLengths)
    );
    assert_eq!((rows, pos, osp), ([9; 8], [9; 2], [9; 2]), "a refused view writes nothing");
    assert!(
        view(wood.tables(), &[2], 10, &mut rows, &mut pos, &mut osp).is_ok(),
        "exact lengths suffice"
    );
    assert_eq!((&rows[..], pos, osp), (&wood.rows[8..16], [0, 1], [0, 1]));
}

#[test]
fn what_is_hidden_may_change_unseen_and_what_is_visible_may_not() {
    let seen = |stem: u32, size: u32| {
        let mut rows = wood().rows;
        rows[8 * (stem as usize - 1) + 7] = 0x4000_0000 | size;
        let (other, _) = TableWords::make(&rows).expect("the upload is taken");
        TableWords::view(other.tables(), &[2], 10).expect("the view is written")
    };
    assert_eq!(seen(3, 7), part(2..4));
    assert_ne!(seen(2, 7), part(2..4));
}

#[test]
fn an_advisers_query_runs_on_the_view() {
    let seen = TableWords::view(wood().tables(), &[2], 10).expect("the view is written");
    let (turns, list) = run(seen.survey(SEVEN + 1), &plan_a(), 10, 128);
    assert_eq!((turns, list), (vec![(4, TurnEnding::Done)], List::Rows(vec![row(2, 310)])));
}

#[test]
fn plan_a_in_full() {
    let (turns, list) = run(wood().survey(SEVEN), &plan_a(), 10, 128);
    assert_eq!(turns, [(10, TurnEnding::Done)]);
    assert_eq!(list, List::Rows(vec![row(2, 310), row(3, 310)]));
}

#[test]
fn turns_of_four_steps() {
    let (turns, list) = run(wood().survey(SEVEN), &plan_a(), 4, 128);
    assert_eq!(turns, [(4, TurnEnding::Spent), (4, TurnEnding::Spent), (2, TurnEnding::Done)]);
    assert_eq!(list, List::Rows(vec![row(2, 310), row(3, 310)]));
}

#[test]
fn nine_steps_are_spent_at_place_3() {
    let (wood, plan) = (wood(), plan_a());
    let mut query = Query::open(wood.survey(SEVEN), plan.words()).expect("the opening is accepted");
    let turned = query.turn(9, &[], &mut [0; 4]).expect("the turn is served");
    assert_eq!((turned.steps, turned.ending), (9, TurnEnding::Spent));
    assert_eq!(
        State::read(query.state()),
        Ok(State {
            survey: SEVEN,
            year: 2026,
            branch: 0,
            places: vec![Place(3)]
        })
    );
}

#[test]
fn an_output_of_one_row_is_full_after_seven_steps() {
    let (turns, list) = run(wood().survey(SEVEN), &plan_a(), 10, 2);
    assert_eq!(turns, [(7, TurnEnding::Full), (3, TurnEnding::Done)]);
    assert_eq!(list, List::Rows(vec![row(2, 310), row(3, 310)]));
}

#[test]
fn states_of_the_run_are_accepted_and_others_refused() {
    let (wood, plan) = (wood(), plan_a());
    let accepted = |places: &[u32]| {
        let words = [0xD000_0000 + SEVEN, 2026, 0xE000_0000 + places.len() as u32]
            .into_iter()
            .chain(places.iter().map(|place| 0xF000_0000 + place));
        Query::load(wood.survey(SEVEN), plan.words(), &words.collect::<Vec<_>>())
            .turn(1, &[], &mut [0; 4])
            .map(|turned| turned.steps)
    };
    assert_eq!(accepted(&[0, 2]), Ok(1));
    assert_eq!(accepted(&[3]), Ok(1));
    assert_eq!(accepted(&[0, 3]), Err(Refusal::StateNotPassed));
    assert_eq!(accepted(&[4]), Err(Refusal::StateNotPassed));
}

#[test]
fn two_equal_branches_deliver_twice() {
    let plan = one(at_least_70())
        .branch(branch(at_least_70()))
        .rows([STEM, SIZE])
        .expect("every value fits");
    let (turns, list) = run(wood().survey(SEVEN), &plan, 100, 128);
    assert_eq!(turns, [(20, TurnEnding::Done)]);
    assert_eq!(list, List::Rows(vec![row(2, 310), row(3, 310), row(2, 310), row(3, 310)]));
}

#[test]
fn the_first_of_equal_rows_is_kept() {
    let plan = one(at_least_70())
        .top(1, [STEM, SIZE], [Key::Falling(SIZE)])
        .expect("every value fits");
    for quantum in 1..=10 {
        assert_eq!(run(wood().survey(SEVEN), &plan, quantum, 2).1, List::Rows(vec![row(2, 310)]));
    }
}

#[test]
fn a_group_of_no_variable() {
    let plan = one(Condition::always()).group([], SIZE).expect("every value fits");
    let group = Group {
        keys: vec![],
        rows: 3,
        numbers: 3,
        sum: 665,
        least: Some(45),
        greatest: Some(310),
    };
    for quantum in 1..=10 {
        assert_eq!(
            run(wood().survey(SEVEN), &plan, quantum, 8).1,
            List::Groups(vec![group.clone()])
        );
    }
}

/// The total of no rows, in words and as it is read.
const NOTHING: [u32; 8] = [0, 0, 0, 0, 0, 0, sotjarn::UNBOUND, sotjarn::UNBOUND];

fn nothing() -> List {
    List::Groups(vec![Group {
        keys: vec![],
        rows: 0,
        numbers: 0,
        sum: 0,
        least: None,
        greatest: None,
    }])
}

/// Plan A with a condition that is false of every row.
fn felled() -> PlanBuilder {
    one(Condition::compare(SIZE, Comparison::Less, Number(45)))
}

#[test]
fn without_rows_a_group_of_no_variable_is_of_nothing() {
    let plan = one(Condition::always()).group([], SIZE).expect("every value fits");
    let (turns, list) = run(TableWords::default().survey(SEVEN), &plan, 1, 8);
    assert_eq!((turns, list), (vec![(1, TurnEnding::Done)], nothing()));
}

#[test]
fn only_the_last_turn_has_the_total_of_nothing() {
    let (wood, plan) = (wood(), felled().group([], SIZE).expect("every value fits"));
    let mut query = Query::open(wood.survey(SEVEN), plan.words()).expect("the opening is accepted");
    let mut kept = Kept::new(&plan);
    let lists: Vec<_> = query
        .turns(9, 8)
        .map(|turn| {
            let turn = turn.expect("the turn is served");
            kept.take(&turn.list).expect("the list is taken");
            (turn.steps, turn.ending, turn.list)
        })
        .collect();
    assert_eq!(
        lists,
        [(9, TurnEnding::Spent, vec![]), (1, TurnEnding::Done, NOTHING.to_vec())]
    );
    assert_eq!((kept.words(), kept.list()), (&NOTHING[..], Ok(nothing())));
    for quantum in 1..=10 {
        assert_eq!(run(wood.survey(SEVEN), &plan, quantum, 8).1, nothing());
    }
}

#[test]
fn a_last_turn_without_rows_adds_nothing_to_the_total() {
    let (wood, plan) = (wood(), one(Condition::always()).group([], SIZE).expect("every value fits"));
    let mut query = Query::open(wood.survey(SEVEN), plan.words()).expect("the opening is accepted");
    let lists: Vec<_> = query.turns(8, 8).map(|turn| turn.expect("the turn is served").list).collect();
    let total = [3, 0, 3, 0, 665, 0, 0x4000_002D, 0x4000_0136];
    assert_eq!(lists, [total, NOTHING]);
    let mut kept = Kept::new(&plan);
    for list in &lists {
        kept.take(list).expect("the list is taken");
        assert_eq!(kept.words(), total);
    }
}

#[test]
fn with_a_group_variable_no_rows_are_no_groups() {
    let plan = felled().group([STEM], SIZE).expect("every value fits");
    for quantum in 1..=10 {
        assert_eq!(run(wood().survey(SEVEN), &plan, quantum, 9).1, List::Groups(vec![]));
    }
}

#[test]
fn no_rows_are_done_after_one_step() {
    let (turns, list) = run(TableWords::default().survey(SEVEN), &plan_a(), 10, 2);
    assert_eq!((turns, list), (vec![(1, TurnEnding::Done)], List::Rows(vec![])));
}

#[test]
fn errors_are_neither_true_nor_false() {
    let error = || Condition::compare(Name(1), Comparison::Less, Number(5));
    let truth = Condition::compare(Number(1), Comparison::Equal, Number(1));
    let rows = |condition| match run(
        wood().survey(SEVEN),
        &one(condition).rows([STEM]).expect("every value fits"),
        10,
        9,
    )
    .1
    {
        List::Rows(rows) => rows.len(),
        List::Groups(_) | List::Registers(_) => unreachable!("the plan ends in rows"),
    };
    assert_eq!(rows(Condition::not(error())), 0);
    assert_eq!(rows(Condition::or(truth, error())), 3);
}

#[test]
fn a_list_ending_3_3_is_refused_by_4() {
    let (mut wood, plan) = (wood(), plan_a());
    wood.pos = vec![0, 2, 4, 1, 3, 3];
    assert_eq!(open(wood.survey(SEVEN), plan.words(), &mut [0; 11]), Err(Refusal::RowNumbers));
    assert_eq!(
        turn(wood.survey(SEVEN), plan.words(), &mut [0; 11], 4, 1, &[], &mut [0; 2]),
        Err(Refusal::RowNumbers)
    );
    assert_eq!(Refusal::RowNumbers.code(), 4);
}

/// The proved case of three owners: eleven calls, four of them refused.
#[test]
fn three_owners_on_the_line() {
    let (wood, plan, mut queue) = (wood(), plan_a(), Queue::new());
    let survey = wood.survey(SEVEN);
    let start = Query::open(survey, plan.words())
        .expect("the opening is accepted")
        .state()
        .to_vec();
    let mut output = [0; 4];
    let mut ten = |queue: &mut Queue| {
        let served = queue.serve(survey, 10, &[], &mut output)?;
        let list = output[..served.turned.list_words].to_vec();
        Ok((served.owner, served.turned.ending, served.turned.steps, served.left, list))
    };
    let (n2, n3, i310) = (2, 3, 0x4000_0136);
    assert_eq!(ten(&mut queue), Err(Refusal::EmptyLine));
    assert_eq!(queue.join(survey, 7, 4, plan.words(), &start), Ok(()));
    assert_eq!(queue.join(survey, 8, 100, plan.words(), &start), Ok(()));
    assert_eq!(queue.join(survey, 7, 5, plan.words(), &start), Err(Refusal::Entries));
    assert_eq!(queue.join(survey, 9, 0, plan.words(), &start), Ok(()));
    assert_eq!(ten(&mut queue), Ok((7, TurnEnding::Spent, 4, 0, vec![])));
    assert_eq!(ten(&mut queue), Ok((8, TurnEnding::Done, 10, 90, vec![n2, i310, n3, i310])));
    assert_eq!(ten(&mut queue), Err(Refusal::EmptyLine));
    assert_eq!(queue.top_up(8, 6), Err(Refusal::Entries));
    assert_eq!(queue.top_up(7, 6), Ok(()));
    assert_eq!(ten(&mut queue), Ok((7, TurnEnding::Done, 6, 0, vec![n2, i310, n3, i310])));
    let owners: Vec<u32> = queue.set_aside().iter().map(|entry| entry.owner).collect();
    assert_eq!((queue.line().len(), owners), (0, vec![9]));
}

/// A turn of plan A under a number, from these words.
fn from(number: u32, saved: &[u32]) -> Result<u32, Refusal> {
    let (wood, plan) = (wood(), plan_a());
    Query::load(wood.survey(number), plan.words(), saved)
        .turn(1, &[], &mut [0; 4])
        .map(|turned| turned.steps)
}

#[test]
fn the_start_of_plan_a_is_of_its_survey() {
    let (wood, plan, mut state) = (wood(), plan_a(), [9; 11]);
    assert_eq!(open(wood.survey(SEVEN), plan.words(), &mut state), Ok(4));
    assert_eq!(state[..5], [0xD000_0007, 2026, 0xE000_0001, 0xF000_0000, 9]);
    assert_eq!(open(wood.survey((1 << 28) - 1), plan.words(), &mut state), Ok(4));
    assert_eq!(state[..5], [0xDFFF_FFFF, 2026, 0xE000_0001, 0xF000_0000, 9]);
}

#[test]
fn a_state_of_another_survey_is_refused_by_22_and_not_by_10() {
    let (seven, six) = (0xD000_0007, 0xD000_0006);
    assert_eq!(from(7, &[seven, 2026, 0xE000_0001, 0xF000_0003]), Ok(1));
    assert_eq!(
        from(7, &[seven, 2026, 0xE000_0001, 0xF000_0004]),
        Err(Refusal::StateNotPassed)
    );
    assert_eq!(from(7, &[six, 2026, 0xE000_0001, 0xF000_0003]), Err(Refusal::Survey));
    assert_eq!(
        from(7, &[six, 2026, 0xE000_0001, 0xF000_0004]),
        Err(Refusal::Survey),
        "its places are wrong too"
    );
    assert_eq!(
        from(7, &[six, 2026, 0xE000_0002, 0xF000_0003]),
        Err(Refusal::StateForm),
        "a wrong shape comes first"
    );
    assert_eq!(
        from(7, &[0xE000_0001, 0xF000_0003]),
        Err(Refusal::StateForm),
        "words of before have no survey"
    );
    assert_eq!(from(6, &[six, 2026, 0xE000_0001, 0xF000_0003]), Ok(1));
}

#[test]
fn a_number_of_29_bits_is_refused_by_22() {
    let (wood, plan, mut state) = (wood(), plan_a(), [9; 11]);
    for number in [1 << 28, 1 << 28 | 7, u32::MAX] {
        assert_eq!(open(wood.survey(number), plan.words(), &mut state), Err(Refusal::Survey));
        assert_eq!(
            open(wood.survey(number), plan.words(), &mut state[..10]),
            Err(Refusal::BufferLengths),
            "7 comes first"
        );
        assert_eq!(
            from(number, &[0xD000_0007, 2026, 0xE000_0001, 0xF000_0000]),
            Err(Refusal::Survey)
        );
        assert_eq!(
            from(number, &[0xD000_0007, 2026, 0xE000_0001, 0xF000_0009]),
            Err(Refusal::Survey)
        );
        assert_eq!(from(number, &[0xD000_0007, 2026, 0xE000_0001]), Err(Refusal::StateForm));
    }
    assert_eq!(state, [9; 11], "a refused opening writes nothing");
}

#[test]
fn a_state_buffer_of_ten_words_is_refused_by_7() {
    let (wood, plan, mut state) = (wood(), plan_a(), [9; 11]);
    assert_eq!(
        open(wood.survey(SEVEN), plan.words(), &mut state[..10]),
        Err(Refusal::BufferLengths)
    );
    let words = open(wood.survey(SEVEN), plan.words(), &mut state).expect("the opening is accepted");
    let ten = turn(wood.survey(SEVEN), plan.words(), &mut state[..10], words, 1, &[], &mut [0; 2]);
    assert_eq!(ten, Err(Refusal::BufferLengths));
}

/// Two years with one stem each: n2 in 2025, n3 in 2026.
fn two_years() -> TableWords {
    let stem = |(year, stem)| {
        [
            [Number(year), Name(stem), Name(10), Name(100)],
            [Number(year), Name(stem), Name(12), Number(310)],
        ]
    };
    TableWords::from_rows([(2025, 2), (2026, 3)].into_iter().flat_map(stem)).expect("every value fits")
}

/// Plan A of the year that is named, or with 0 of every year.
fn of_year(year: u32) -> Plan {
    one(at_least_70()).year(year).rows([STEM, SIZE]).expect("every value fits")
}

#[test]
fn every_year_is_read_one_after_the_other() {
    let rows = List::Rows(vec![row(2, 310), row(3, 310)]);
    let (turns, list) = run(two_years().survey(SEVEN), &of_year(0), 10, 128);
    assert_eq!((turns, &list), (vec![(8, TurnEnding::Done)], &rows));
    for quantum in 1..8 {
        assert_eq!(run(two_years().survey(SEVEN), &of_year(0), quantum, 2).1, rows);
    }
}

#[test]
fn the_latest_year_is_read_or_the_one_that_is_named() {
    let of = |plan: &Plan| run(two_years().survey(SEVEN), plan, 10, 128);
    assert_eq!(of(&plan_a()), (vec![(4, TurnEnding::Done)], List::Rows(vec![row(3, 310)])));
    assert_eq!(of(&of_year(2026)), of(&plan_a()));
    assert_eq!(
        of(&of_year(2025)),
        (vec![(4, TurnEnding::Done)], List::Rows(vec![row(2, 310)]))
    );
}

#[test]
fn a_year_without_rows_costs_a_step_a_branch() {
    let nothing = |steps| (vec![(steps, TurnEnding::Done)], List::Rows(vec![]));
    for year in [1, 2024, 2027, 9_999] {
        assert_eq!(run(two_years().survey(SEVEN), &of_year(year), 10, 128), nothing(1));
        assert_eq!(run(TableWords::default().survey(SEVEN), &of_year(year), 10, 128), nothing(1));
        let branches = one(at_least_70()).branch(branch(at_least_70())).year(year);
        let plan = branches.rows([STEM, SIZE]).expect("every value fits");
        assert_eq!(run(two_years().survey(SEVEN), &plan, 10, 128), nothing(2));
    }
}

#[test]
fn without_rows_year_0_is_read_once() {
    let (none, mut state) = (TableWords::default(), [9; 11]);
    for plan in [plan_a(), of_year(0)] {
        assert_eq!(open(none.survey(SEVEN), plan.words(), &mut state), Ok(4));
        assert_eq!(state[..4], [0xD000_0007, 0, 0xE000_0001, 0xF000_0000]);
        assert_eq!(
            run(none.survey(SEVEN), &plan, 10, 2),
            (vec![(1, TurnEnding::Done)], List::Rows(vec![]))
        );
    }
}

#[test]
fn a_state_of_a_year_that_is_not_read_is_refused_by_9() {
    let wood = two_years();
    let from = |plan: Plan, year: u32, place: u32| {
        Query::load(
            wood.survey(SEVEN),
            plan.words(),
            &[0xD000_0007, year, 0xE000_0001, 0xF000_0000 + place],
        )
        .turn(1, &[], &mut [0; 4])
        .map(|turned| turned.steps)
    };
    assert_eq!(from(plan_a(), 2026, 2), Ok(1));
    assert_eq!(from(plan_a(), 2025, 0), Err(Refusal::StateForm));
    assert_eq!(from(of_year(2025), 2025, 0), Ok(1));
    assert_eq!(from(of_year(2025), 2026, 2), Err(Refusal::StateForm));
    assert_eq!(from(of_year(0), 2025, 1), Ok(1));
    assert_eq!(
        from(of_year(0), 2025, 2),
        Err(Refusal::StateNotPassed),
        "a place of the next year"
    );
    assert_eq!(from(of_year(0), 2026, 2), Ok(1));
    assert_eq!(from(of_year(0), 2024, 0), Err(Refusal::StateForm));
    assert_eq!(from(of_year(0), 0, 0), Err(Refusal::StateForm));
}

#[test]
fn years_are_refused_by_23_after_kinds_and_variables() {
    let (plan, mut state) = (plan_a(), [9; 11]);
    let opened = |rows: &[u32], plan: &Plan, state: &mut [u32]| {
        let tables = TableWords {
            rows: rows.to_vec(),
            ..wood()
        };
        open(tables.survey(SEVEN), plan.words(), state)
    };
    for year in [0, 10_000, (1 << 30) - 1] {
        let mut rows = wood().rows;
        rows[4] = 1 << 30 | year;
        assert_eq!(opened(&rows, &plan, &mut state), Err(Refusal::Year), "before the order");
        rows[21] = 0x8000_0003;
        assert_eq!(opened(&rows, &plan, &mut state), Err(Refusal::FieldKind), "kinds come first");
    }
    assert_eq!(opened(&wood().rows, &of_year(10_000), &mut state), Err(Refusal::Year));
    assert_eq!(opened(&wood().rows, &of_year(9_999), &mut state), Ok(4));
    let wrong = one(at_least_70())
        .year(10_000)
        .rows([Variable(16)])
        .expect("every value fits");
    assert_eq!(
        opened(&wood().rows, &wrong, &mut state),
        Err(Refusal::PlanVariables),
        "variables come first"
    );
}

#[test]
fn totals_go_over_all_years_and_the_record_of_nothing_comes_once() {
    let total = |condition| {
        let plan = one(condition).every_year().group([], SIZE).expect("every value fits");
        let mut lists = Vec::new();
        let wood = two_years();
        let mut query = Query::open(wood.survey(SEVEN), plan.words()).expect("the opening is accepted");
        for turn in query.turns(1, 8) {
            lists.push(turn.expect("the turn is served").list);
        }
        lists.retain(|list| !list.is_empty());
        (lists.len(), run(wood.survey(SEVEN), &plan, 3, 8).1)
    };
    let both = Group {
        keys: vec![],
        rows: 2,
        numbers: 2,
        sum: 620,
        least: Some(310),
        greatest: Some(310),
    };
    assert_eq!(
        total(Condition::always()),
        (3, List::Groups(vec![both])),
        "a row of each year, and that of nothing"
    );
    assert_eq!(total(Condition::not(Condition::always())), (1, nothing()));
}

#[test]
fn membership_counts_within_its_year() {
    let moved = TableWords::from_rows([
        [Number(2025), Name(1), Name(10), Name(100)],
        [Number(2025), Name(1), Name(12), Number(45)],
        [Number(2026), Name(1), Name(10), Name(101)],
        [Number(2026), Name(1), Name(12), Number(47)],
    ])
    .expect("every value fits");
    let seen = |grant: &[u32]| TableWords::view(moved.tables(), grant, 10).expect("the view is written").rows;
    assert_eq!(seen(&[100]), moved.rows[..8]);
    assert_eq!(seen(&[101]), moved.rows[8..]);
    assert_eq!(seen(&[1]), moved.rows, "a granted stem is visible in every year");
}

#[test]
fn a_row_of_another_year_is_no_repeat_and_a_wrong_year_is_dropped() {
    let row = |year: u32| [1 << 30 | year, 1, 10, 100];
    let (made, dropped) = TableWords::make(&[2026, 0, 2025, 10_000, 2026].map(row).concat()).expect("the upload is taken");
    assert_eq!(made.rows, [row(2025), row(2026)].concat());
    let told = [(1, Reason::WrongKind), (3, Reason::WrongKind), (4, Reason::Repeat)];
    assert_eq!(dropped, told.map(|(place, reason)| Dropped { place, reason }));
}
