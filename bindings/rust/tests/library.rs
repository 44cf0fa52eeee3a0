//! The crate from a caller's side. Expected values are by hand.
use yurkije::{Buffers, Column, ColumnBuf, Decimal, Error, Expression, Field, Kind, Statistics, Status, Type, Verdict, STATUSES};

fn prices() -> Vec<i64> {
    vec![3, 12, 40]
}

fn goods() -> [Field<'static>; 3] {
    [Field::new("price", Kind::I64), Field::nullable("stock", Kind::I64), Field::new("name", Kind::Utf8)]
}

#[test]
fn the_library_is_the_one_of_this_crate() {
    assert!(yurkije::is_compatible());
    assert_eq!(yurkije::version(), format!("yurkije {}", env!("CARGO_PKG_VERSION")));
}

#[test]
fn statuses_are_those_of_the_header() {
    let header = concat!(env!("CARGO_MANIFEST_DIR"), "/../c/yurkije.h");
    let text = std::fs::read_to_string(header).expect("the header stands beside this crate");
    let mut told = Vec::new();
    let enumeration = text.split("enum yk_status {").nth(1).and_then(|rest| rest.split("};").next()).expect("the statuses");
    for line in enumeration.lines() {
        if let Some((name, rest)) = line.trim().split_once(" = ") {
            let digits: String = rest.chars().take_while(char::is_ascii_digit).collect();
            told.push((digits.parse::<u32>().expect("a number"), name.trim_start_matches("YK_").replace('_', "").to_lowercase()));
        }
    }
    let ours = STATUSES.iter().map(|(number, name)| (*number, name.to_lowercase()));
    assert_eq!(told.into_iter().filter(|(number, _)| *number > 0).collect::<Vec<_>>(), ours.collect::<Vec<_>>());
}

#[test]
fn answers_have_names_types_and_rows() -> Result<(), Error> {
    let expression = Expression::new("price * stock as worth, price > 10, name", &goods())?;
    let told = expression.answers()?;
    let types = [
        ("worth", Type { kind: Kind::I64, nullable: true }),
        ("price > 10", Type { kind: Kind::Bool, nullable: false }),
        ("name", Type { kind: Kind::Utf8, nullable: false }),
    ];
    assert_eq!(told.iter().map(|(name, of)| (name.as_str(), *of)).collect::<Vec<_>>(), types);
    let prices = prices();
    let stocks = ColumnBuf::integers([Some(7i64), None, Some(-1)]);
    let names = ColumnBuf::texts([Some("nut"), Some("a bolt of some length"), Some("żółw")]).expect("short");
    let columns = [Column::integers(&prices), stocks.column(), names.column_without_null()];
    let answers = expression.run(&columns, 3)?;
    assert_eq!(answers.len(), 3);
    assert_eq!(answers.integers::<i64>(0)?.iter().collect::<Vec<_>>(), [Some(21), None, Some(-40)]);
    assert_eq!(answers.bools(1)?.iter().collect::<Vec<_>>(), [Some(false), Some(true), Some(true)]);
    assert_eq!(answers.select(1)?, [1, 2]);
    let texts = answers.byte_strings(2)?;
    assert_eq!(texts.texts().collect::<Vec<_>>(), [Some("nut"), Some("a bolt of some length"), Some("żółw")]);
    Ok(())
}

#[test]
fn threads_share_an_expression() -> Result<(), Error> {
    let expression = Expression::new("price > 10 as dear", &goods())?;
    assert_eq!(expression.fields_read()?, [0]);
    std::thread::scope(|scope| {
        for _ in 0..4 {
            scope.spawn(|| {
                let prices = prices();
                // only the first column is read
                let columns = [Column::integers(&prices), Column::integers(&prices[..1]), Column::integers(&prices[..0])];
                let answers = expression.run(&columns, 3).expect("the columns that are read fit");
                assert_eq!(answers.mask(0).expect("a truth value"), [false, true, true]);
            });
        }
    });
    Ok(())
}

#[test]
fn an_expression_runs_over_many_batches() -> Result<(), Error> {
    let expression = Expression::new("a + b", &[Field::new("a", Kind::U16), Field::nullable("b", Kind::U16)])?;
    let (a, b): (Vec<u16>, Vec<u16>) = ((0..1000).collect(), (0..1000).rev().collect());
    let valid: Vec<u8> = vec![0xfe; 125];
    for (first, rows) in [(0, 1000), (3, 90), (999, 1), (7, 0)] {
        let columns = [Column::integers(&a).slice(first, rows), Column::integers(&b).nullable(Some(&valid)).slice(first, rows)];
        let answers = expression.run(&columns, rows)?;
        let expected: Vec<Option<u16>> = (first..first + rows).map(|row| if row % 8 == 0 { None } else { Some(999) }).collect();
        assert_eq!(answers.integers::<u16>(0)?.iter().collect::<Vec<_>>(), expected);
    }
    Ok(())
}

#[test]
fn texts_come_in_each_layout() -> Result<(), Error> {
    let expression = Expression::new("t like '%long%' as found, t", &[Field::new("t", Kind::Utf8)])?;
    let data = b"shorta text that is too long for a view";
    let mut views = [[0u8; 16]; 2];
    views[0][..9].copy_from_slice(b"\x05\0\0\0short");
    views[1][..8].copy_from_slice(b"\x22\0\0\0a te");
    views[1][12] = 5;
    let buffers = Buffers::new([&data[..]]);
    let columns = [
        Column::texts(&[0, 5, 39], data),
        Column::large_texts(&[0, 5, 39], data),
        Column::text_views(&views, &buffers),
    ];
    for column in columns {
        let answers = expression.run(&[column], 2)?;
        assert_eq!(answers.select(0)?, [1]);
        let texts = answers.byte_strings(1)?;
        assert_eq!(texts.texts().collect::<Vec<_>>(), [Some("short"), Some("a text that is too long for a view")]);
    }
    Ok(())
}

#[test]
fn truth_values_are_bits() -> Result<(), Error> {
    let expression = Expression::new("x and y", &[Field::nullable("x", Kind::Bool), Field::new("y", Kind::Bool)])?;
    let x = ColumnBuf::bools([Some(true), Some(false), None, None]);
    let answers = expression.run(&[x.column(), Column::bools(&[0b0111], 4)], 4)?;
    assert_eq!(answers.bools(0)?.iter().collect::<Vec<_>>(), [Some(true), Some(false), None, Some(false)]);
    Ok(())
}

#[test]
fn floats_and_times_come_out_as_they_go_in() -> Result<(), Error> {
    let fields = [Field::new("x", Kind::F64), Field::new("y", Kind::F32), Field::nullable("d", Kind::Date), Field::new("t", Kind::Timestamp)];
    let expression = Expression::new("x, y, d + 1, t, y < 2.0", &fields)?;
    let (x, y, d, t) = ([1.5, f64::INFINITY, -2.25], [1.5f32, 2.0, 1.75], [0, 19723, 5], [1i64, 0, -1]);
    let columns = [Column::floats(&x), Column::floats(&y), Column::dates(&d).nullable(Some(&[0b011])), Column::timestamps(&t)];
    let answers = expression.run(&columns, 3)?;
    assert_eq!(answers.floats::<f64>(0)?.values, x);
    assert_eq!(answers.floats::<f32>(1)?.values, y);
    assert_eq!(answers.dates(2)?.iter().collect::<Vec<_>>(), [Some(1), Some(19724), None]);
    assert_eq!(answers.timestamps(3)?.values, t);
    assert_eq!(answers.mask(4)?, [true, false, true]);
    assert!(answers.integers::<i64>(0).is_err());
    assert!(expression.run(&[Column::integers(&t), columns[1], columns[2], columns[3]], 3).is_err());
    Ok(())
}

#[test]
fn decimals_come_out_as_they_go_in() -> Result<(), Error> {
    let price = Kind::Decimal { precision: 12, scale: 2 };
    let fields = [Field::nullable("price", price), Field::new("rate", Kind::Decimal { precision: 5, scale: 4 })];
    let expression = Expression::new("price, price + 0.125 as more, price * rate, price > 10 as dear, -rate", &fields)?;
    assert_eq!(expression.fields()?[0].1, Type { kind: price, nullable: true });
    assert_eq!(expression.answers()?[1].1, Type { kind: Kind::Decimal { precision: 18, scale: 3 }, nullable: true });
    let prices = ColumnBuf::decimals([Some(1250), None, Some(-5), Some(i64::MAX / 100_000)], 12, 2);
    let answers = expression.run(&[prices.column(), Column::decimals(&[10000, 5, -1, 0], 5, 4)], 4)?;
    let texts = |answer| -> Result<Vec<Option<String>>, Error> {
        Ok(answers.decimals(answer)?.iter().map(|value| value.map(|value| value.to_string())).collect())
    };
    let some = |text: &str| Some(text.to_string());
    assert_eq!(texts(0)?, [some("12.50"), None, some("-0.05"), some("922337203685.47")]);
    assert_eq!(texts(1)?, [some("12.625"), None, some("0.075"), some("922337203685.595")]);
    assert_eq!(texts(2)?, [some("12.500000"), None, some("0.000005"), some("0.000000")]);
    assert_eq!(texts(4)?, [some("-1.0000"), some("-0.0005"), some("0.0001"), some("0.0000")]);
    assert_eq!(answers.select(3)?, [0, 3]);
    let whole = answers.decimals(0)?;
    assert_eq!((whole.precision, whole.scale, whole.units[0]), (12, 2, 1250));
    assert_eq!(answers.integers::<i64>(0).unwrap_err(), Error::Use { status: Status::OtherKind });
    assert_eq!(answers.decimals(3).unwrap_err(), Error::Use { status: Status::OtherKind });
    assert_eq!(answers.decimals(5).unwrap_err(), Error::Use { status: Status::NoSuchNumber });
    // another number of digits is another type
    assert_eq!(expression.run(&[Column::decimals(&[1], 12, 3).nullable(None), Column::decimals(&[1], 5, 4)], 1).unwrap_err().number(), 11);
    for (precision, scale) in [(0, 0), (19, 2), (2, 3)] {
        let error = Expression::new("x", &[Field::new("x", Kind::Decimal { precision, scale })]).unwrap_err();
        assert_eq!((error.number(), error.column()), (102, Some(0)));
    }
    assert_eq!(format!("{:>8}|{}", Decimal { units: -5, scale: 1 }, Decimal { units: i64::MIN, scale: 18 }), "    -0.5|-9.223372036854775808");
    Ok(())
}

#[test]
fn columns_of_kinds_own_their_values() -> Result<(), Error> {
    let fields = [Field::nullable("x", Kind::F64), Field::nullable("y", Kind::F32), Field::nullable("d", Kind::Date), Field::nullable("t", Kind::Timestamp)];
    let expression = Expression::new("x, y, d, t", &fields)?;
    let (x, y) = (ColumnBuf::floats([Some(1.5f64), None]), ColumnBuf::floats([None, Some(2.5f32)]));
    let (d, t) = (ColumnBuf::dates([Some(19723), None]), ColumnBuf::timestamps([None, Some(-1)]));
    let answers = expression.run(&[x.column(), y.column(), d.column(), t.column()], 2)?;
    assert_eq!(answers.floats::<f64>(0)?.iter().collect::<Vec<_>>(), [Some(1.5), None]);
    assert_eq!(answers.floats::<f32>(1)?.iter().collect::<Vec<_>>(), [None, Some(2.5)]);
    assert_eq!(answers.dates(2)?.iter().collect::<Vec<_>>(), [Some(19723), None]);
    assert_eq!(answers.timestamps(3)?.iter().collect::<Vec<_>>(), [None, Some(-1)]);
    Ok(())
}

#[test]
fn a_text_that_is_refused_tells_its_place() {
    let error = Expression::new("price > 1 and prcie < 2", &goods()).unwrap_err();
    assert_eq!((error.number(), error.name()), (11, "ScopeMismatch"));
    let place = error.place().expect("a place");
    assert_eq!((place.byte, place.line, place.character), (Some(14), 1, 15));
    assert!(error.to_string().contains("prcie"), "{}", error);
    let error = Expression::new("price +", &goods()).unwrap_err();
    assert_eq!((error.number(), error.place().and_then(|place| place.byte)), (112, Some(7)));
}

#[test]
fn a_column_that_is_refused_tells_its_number_and_row() -> Result<(), Error> {
    let expression = Expression::new("price + 1, stock", &goods()[..2])?;
    let (prices, stocks) = (prices(), [1i64, 2, 3]);
    let good = Column::integers(&prices);
    let short = expression.run(&[good, Column::integers(&stocks[..2]).nullable(None)], 3).expect_err("refused");
    assert_eq!((short.number(), short.column()), (2, Some(1)));
    let null = expression.run(&[ColumnBuf::integers([Some(1i64), None, None]).column_without_null(), good.nullable(None)], 3);
    let null = null.expect_err("refused");
    assert_eq!((null.number(), null.column(), null.row()), (124, Some(0), Some(1)));
    let other = expression.run(&[Column::integers(&[1i32, 2, 3]), good.nullable(None)], 3).expect_err("refused");
    assert_eq!((other.number(), other.column()), (11, Some(0)));
    Ok(())
}

#[test]
fn a_fault_tells_its_first_row() -> Result<(), Error> {
    let expression = Expression::new("price + 1, price / stock as share", &goods()[..2])?;
    let prices = prices();
    let stocks = [2i64, 0, 0];
    let error = expression.run(&[Column::integers(&prices), Column::integers(&stocks).nullable(None)], 3).expect_err("a fault");
    match error {
        Error::Fault { status, answer, row, .. } => assert_eq!((status, answer, row), (Status::Arithmetic, Some(1), 1)),
        other => panic!("{:?}", other),
    }
    Ok(())
}

#[test]
fn groups_are_pruned_by_their_statistics() -> Result<(), Error> {
    let expression = Expression::new("price > 100 and stock is not null, price > 999 and 100 / price > 1, price", &goods()[..2])?;
    let (low, high) = ([0i64, 101, 90], [9i64, 300, 110]);
    let nulls = ColumnBuf::integers([Some(0u64), Some(0), None]);
    let price = Statistics { low: Some(Column::integers(&low)), high: Some(Column::integers(&high)), nulls: None };
    let stock = Statistics { nulls: Some(nulls.column()), ..Default::default() };
    let rows = [8u64, 9, 10];
    let pruned = expression.prune(0, &[price, stock], &rows)?;
    let told: Vec<_> = pruned.iter().map(|one| (one.verdict, one.trues, one.skip(), one.whole())).collect();
    let expected = [
        (Verdict::NoneTrue, (0, 0), true, false),
        (Verdict::AllTrue, (9, 9), false, true),
        (Verdict::Unknown, (0, 10), false, false),
    ];
    assert_eq!(told, expected);
    let faults = expression.prune(1, &[price, stock], &rows)?;
    assert!(faults.iter().all(|one| one.verdict == Verdict::NoneTrue));
    assert_eq!(faults.iter().map(|one| one.skip()).collect::<Vec<_>>(), [false, true, true]);
    let high = [9i64, 100, 110];
    let turned = Statistics { high: Some(Column::integers(&high)), ..price };
    let error = expression.prune(0, &[turned, stock], &rows).unwrap_err();
    assert_eq!((error.number(), error.name(), error.column(), error.row()), (132, "Contradiction", Some(0), Some(1)));
    assert_eq!(expression.prune(2, &[price, stock], &rows).unwrap_err().number(), 3);
    assert_eq!(expression.prune(3, &[price, stock], &rows).unwrap_err(), Error::Use { status: Status::NoSuchNumber });
    assert_eq!(expression.prune(0, &[stock, stock], &rows[..2]).unwrap_err().number(), 2);
    Ok(())
}

#[test]
fn wrong_use_is_told() -> Result<(), Error> {
    let expression = Expression::new("price", &goods()[..1])?;
    let prices = prices();
    let answers = expression.run(&[Column::integers(&prices)], 3)?;
    assert_eq!(answers.integers::<i32>(0).unwrap_err(), Error::Use { status: Status::OtherKind });
    assert_eq!(answers.integers::<i64>(1).unwrap_err(), Error::Use { status: Status::NoSuchNumber });
    assert_eq!(answers.select(0).unwrap_err().name(), "OtherKind");
    Ok(())
}

#[test]
fn expressions_and_answers_go_from_thread_to_thread() -> Result<(), Error> {
    let expression = Expression::new("price + 1", &goods())?;
    let run = std::thread::spawn(move || {
        let prices = prices();
        let columns = [Column::integers(&prices), Column::integers(&prices[..1]), Column::integers(&prices[..0])];
        expression.run(&columns, 3)
    });
    let answers = run.join().expect("a thread")?;
    assert_eq!(answers.integers::<i64>(0)?.iter().collect::<Vec<_>>(), prices().iter().map(|price| Some(price + 1)).collect::<Vec<_>>());
    Ok(())
}

#[test]
fn each_thread_reads_its_own() {
    let sums: Vec<Option<i64>> = std::thread::scope(|scope| {
        let runs: Vec<_> = (0..4i64)
            .map(|n| {
                scope.spawn(move || {
                    let expression = Expression::new("a + 1", &[Field::new("a", Kind::I64)]).expect("an expression");
                    let answers = expression.run(&[Column::integers(&[n])], 1).expect("answers");
                    let sum = answers.integers::<i64>(0).expect("numbers").iter().next().flatten();
                    sum
                })
            })
            .collect();
        runs.into_iter().map(|run| run.join().expect("a thread")).collect()
    });
    assert_eq!(sums, [Some(1), Some(2), Some(3), Some(4)]);
}
