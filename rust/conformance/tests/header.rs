//! The C header against the wrapper and Rattle's source: every number and length that it defines, every
//! function that it declares with the symbol that it is called by, and its own functions whole; and the
//! lengths of work memory that docs/MEMORY.md says.

use std::collections::BTreeMap;

use guard::{calls, Forced, Guard, Refusal, Supervisor, Work};

fn source(path: &str) -> String {
    let path = format!("{}/../../{path}", env!("CARGO_MANIFEST_DIR"));
    std::fs::read_to_string(&path).unwrap_or_else(|error| panic!("{path}: {error}"))
}

/// `TooManyStates` as `HZ_TOO_MANY_STATES`.
fn constant(name: &str) -> String {
    let mut constant = "HZ".to_string();
    for letter in name.chars() {
        if letter.is_uppercase() {
            constant.push('_');
        }
        constant.push(letter.to_ascii_uppercase());
    }
    constant
}

/// Where the types of Rattle's that have sizes are.
const TYPES: [(&str, &str); 11] = [
    ("Limits", "crates/records/src/limits.rt"),
    ("Index", "crates/states/src/index.rt"),
    ("Supervisor", "crates/supervisor/src/make.rt"),
    ("Guard", "crates/guard/src/make.rt"),
    ("Forecast", "crates/forecast/src/make.rt"),
    ("Forcing", "crates/forced/src/make.rt"),
    ("CardWords", "crates/card_words/src/lib.rt"),
    ("BoardBytes", "crates/board_bytes/src/lib.rt"),
    ("Figures", "crates/board_bytes/src/numbers.rt"),
    ("Breaker", "crates/forced_rows/src/lib.rt"),
    ("Report", "crates/report/src/lib.rt"),
];

fn source_of(owner: &str) -> String {
    let found = TYPES.iter().find(|(name, _)| *name == owner);
    source(found.unwrap_or_else(|| panic!("no source of {owner}")).1)
}

/// The value of one of Rattle's constants, `Type::NAME`.
fn rattle(constant: &str) -> usize {
    let (owner, name) = constant.split_once("::").expect("a type and its constant");
    let text = source_of(owner);
    let (_, rest) = text.split_once(&format!("const {name}: ")).expect("it is there");
    let (_, rest) = rest.split_once(" = ").expect("a value");
    value(rest.split(';').next().unwrap_or_default())
}

/// The value of a power of two, or of a sum of products, of numbers and constants.
fn value(expression: &str) -> usize {
    let factor = |word: &str| word.trim().parse().unwrap_or_else(|_| rattle(word.trim()));
    match expression.strip_prefix("1 << ") {
        Some(exponent) => 1 << factor(exponent),
        None => expression.split('+').map(|p| p.split('*').map(factor).product::<usize>()).sum(),
    }
}

/// The words that the header defines names to be: constants, and the functions' symbols. A macro with
/// arguments, or without a value, is neither.
fn definitions() -> BTreeMap<String, String> {
    let header = source("c/hundlezoqa.h");
    let mut definitions = BTreeMap::new();
    for line in header.lines().filter_map(|line| line.strip_prefix("#define ")) {
        let mut words = line.split_whitespace();
        let (Some(name), Some(value)) = (words.next(), words.next()) else { continue };
        if !name.contains('(') {
            let before = definitions.insert(name.to_string(), value.to_string());
            assert!(before.is_none(), "{name} is defined twice");
        }
    }
    definitions
}

/// The numbers that the header defines.
fn defined() -> BTreeMap<String, usize> {
    let number = |(name, value): (String, String)| {
        let value = match value.as_str() {
            "UINT64_MAX" => u64::MAX as usize,
            value => value.parse().unwrap_or_else(|_| panic!("{name} is no number")),
        };
        (name, value)
    };
    definitions().into_iter().filter(|(name, _)| name.starts_with("HZ_")).map(number).collect()
}

#[test]
fn lengths_and_marks_are_rattle_s() {
    assert_eq!(Guard::LISTING_BYTES_MOST, rattle("Report::TEXT"));
    assert_eq!(calls::CARD_WORDS, rattle("CardWords::LENGTH"));
    assert_eq!(calls::BOARD_BYTES, rattle("BoardBytes::LENGTH"));
    assert_eq!(calls::FIGURES, rattle("Figures::MADE"));
    assert_eq!(calls::LISTING_FIGURES, rattle("Figures::LISTED"));
    assert_eq!(usize::from(calls::NO_MONITOR), rattle("Breaker::NONE"));
    // The bound that the play's promise has.
    assert_eq!(Forced::BYTES_MOST, rattle("Limits::STATES") * (3 + rattle("Limits::OUTS")));
}

/// A length of work memory for each constant of Rattle's makers, and no other.
#[test]
fn every_work_length_is_rattle_s() {
    let mut expected = BTreeMap::new();
    for maker in ["Supervisor", "Guard", "Forecast", "Forcing"] {
        let text = source_of(maker);
        for name in text.split("pub const ").skip(1).filter_map(|rest| rest.split(':').next()) {
            let length = rattle(&format!("{maker}::{name}"));
            let before = expected.insert(format!("HZ_WORK_{name}"), length);
            assert!(before.is_none_or(|before| before == length), "{name} has two lengths");
        }
    }
    let mut defined = defined();
    defined.retain(|name, _| name.starts_with("HZ_WORK_"));
    assert_eq!(defined, expected);
}

#[test]
fn every_number_and_length_is_the_wrapper_s() {
    let mut expected: BTreeMap<String, usize> = [
        ("HZ_OK", 0),
        ("HZ_SUPERVISOR_BYTES_MOST", Supervisor::BYTES_MOST),
        ("HZ_GUARD_BYTES_MOST", Guard::BYTES_MOST),
        ("HZ_FORCED_BYTES_MOST", Forced::BYTES_MOST),
        ("HZ_LISTING_BYTES_MOST", Guard::LISTING_BYTES_MOST),
        ("HZ_WORK_TUPLES", Work::TUPLES),
        ("HZ_WORK_CELLS", Work::CELLS),
        ("HZ_WORK_DROPPED", Work::DROPPED),
        ("HZ_WORK_GAINS", Work::GAINS),
        ("HZ_WORK_BONUSES", Work::BONUSES),
        ("HZ_WORK_VALUES", Work::VALUES),
        ("HZ_WORK_ARRIVALS", Work::ARRIVALS),
        ("HZ_WORK_ORDER", Work::ORDER),
        ("HZ_WORK_NUMBERS", Work::NUMBERS),
        ("HZ_WORK_BESTS", Work::BESTS),
        ("HZ_WORK_LEASTS", Work::LEASTS),
        ("HZ_WORK_HIGHS", Work::HIGHS),
        ("HZ_WORK_LOWS", Work::LOWS),
        ("HZ_FIGURES", calls::FIGURES),
        ("HZ_LISTING_FIGURES", calls::LISTING_FIGURES),
        ("HZ_CARD_WORDS", calls::CARD_WORDS),
        ("HZ_LOST", calls::LOST as usize),
        ("HZ_NO_MONITOR", calls::NO_MONITOR.into()),
        ("HZ_BOARD_BYTES", calls::BOARD_BYTES),
    ]
    .map(|(name, value)| (name.to_string(), value))
    .into();
    for refusal in Refusal::NAMED {
        expected.insert(constant(&format!("{refusal:?}")), refusal.number() as usize);
    }
    assert_eq!(defined(), expected);
}

/// The sizes of arrays that cross, as the header names them.
const ARRAYS: [(&str, &str); 4] = [
    ("BoardBytes::LENGTH", "HZ_BOARD_BYTES"),
    ("CardWords::LENGTH", "HZ_CARD_WORDS"),
    ("Figures::MADE", "HZ_FIGURES"),
    ("Figures::LISTED", "HZ_LISTING_FIGURES"),
];

/// A parameter of Rattle's as C has it: a slice is a pointer and a length, an array has its size.
fn in_c(parameter: &str) -> String {
    let (name, kind) = parameter.split_once(": ").expect("a name and a type");
    let number = |kind: &str| format!("uint{}_t", &kind[1..]);
    let Some((reference, inside)) = kind.trim_end_matches(']').split_once('[') else {
        return format!("{} {name}", number(kind));
    };
    let constant = match reference {
        "&" => "const ",
        _ => "",
    };
    match inside.split_once("; ") {
        None => format!("{constant}{} *{name}, size_t {name}_len", number(inside)),
        Some((element, size)) => {
            let named = ARRAYS.iter().find(|(rattle, _)| *rattle == size);
            let (_, size) = named.unwrap_or_else(|| panic!("{size} has no name in the header"));
            format!("{constant}{} {name}[HZ_STATIC({size})]", number(element))
        }
    }
}

/// The size of a parameter that is an array, as Rattle names it.
fn array(parameter: &str) -> Option<&str> {
    parameter.split_once("; ").and_then(|(_, size)| size.strip_suffix(']'))
}

fn one_blank(text: &str) -> String {
    text.split_whitespace().collect::<Vec<_>>().join(" ")
}

/// A parameter by its name in C. `result` is a word of Rattle's clauses, so there its name is `res`.
fn named_in_c(parameter: &str) -> String {
    match parameter.strip_prefix("res: ") {
        Some(kind) => format!("result: {kind}"),
        None => parameter.to_string(),
    }
}

/// The functions of the library: symbol and parameters, as Rattle has them but for that name.
fn functions() -> Vec<(String, Vec<String>)> {
    let library = source("crates/hundlezoqa_c/src/lib.rt");
    let functions = library.split("pub extern \"C\" fn ").skip(1).map(|function| {
        let (symbol, rest) = function.split_once('(').expect("a function has parameters");
        let (parameters, rest) = rest.split_once(')').expect("and their end");
        assert!(rest.starts_with(" -> u32"), "{symbol} answers a number");
        let parameters = one_blank(parameters);
        let parameters = parameters.trim_end_matches(',').split(", ").map(named_in_c);
        (symbol.to_string(), parameters.collect())
    });
    functions.collect()
}

/// The name that a C program calls a function by: its symbol without the size.
fn plain(symbol: &str) -> &str {
    symbol.rsplit_once('_').expect("a symbol ends in a size").0
}

#[test]
fn every_function_is_rattle_s() {
    let mut expected: Vec<String> = functions()
        .iter()
        .map(|(symbol, parameters)| {
            let parameters: Vec<String> = parameters.iter().map(|p| in_c(p)).collect();
            format!("uint32_t {}({});", plain(symbol), parameters.join(", "))
        })
        .collect();
    let header = one_blank(&source("c/hundlezoqa.h"));
    let mut declared: Vec<String> = header
        .replace("static inline uint32_t hz_", "")
        .split("uint32_t hz_")
        .skip(1)
        .map(|rest| format!("uint32_t hz_{};", rest.split(';').next().unwrap_or_default()))
        .collect();
    expected.sort();
    declared.sort();
    assert_eq!(declared, expected);
}

/// A fixed array is only a pointer in C: its size stands in the symbol that the plain name is mapped to.
#[test]
fn every_symbol_has_the_size_of_its_array() {
    let mut expected = BTreeMap::new();
    for (symbol, parameters) in functions() {
        let sizes: Vec<usize> = parameters.iter().filter_map(|p| array(p)).map(rattle).collect();
        let [size] = sizes[..] else { panic!("{symbol} has not one array, but {sizes:?}") };
        assert_eq!(symbol, format!("{}_{size}", plain(&symbol)));
        expected.insert(plain(&symbol).to_string(), symbol);
    }
    let mut mapped = definitions();
    mapped.retain(|name, _| name.starts_with("hz_"));
    assert_eq!(mapped, expected);
}

/// The fields of the header's work memory.
fn work_memory() -> Vec<String> {
    let header = one_blank(&source("c/hundlezoqa.h"));
    let (_, rest) = header.split_once("struct hz_work { ").expect("it is there");
    let (fields, _) = rest.split_once(" };").expect("its end");
    let mut fields: Vec<String> = fields.split("; ").map(|f| f.replace(';', "")).collect();
    fields.sort();
    fields
}

/// A field for each work length, of the elements that the functions are lent.
#[test]
fn every_work_length_has_a_field() {
    let lent: Vec<String> =
        functions().into_iter().flat_map(|(_, parameters)| parameters).map(|p| in_c(&p)).collect();
    let mut expected: Vec<String> = defined()
        .into_keys()
        .filter_map(|length| {
            let name = length.strip_prefix("HZ_WORK_")?.to_lowercase();
            let slice = format!(" *{name}, size_t {name}_len");
            let element = lent.iter().find_map(|lent| lent.strip_suffix(slice.as_str()));
            Some(format!("{} {name}[{length}]", element.expect("it is lent to a function")))
        })
        .collect();
    expected.sort();
    assert_eq!(work_memory(), expected);
}

/// The header's own functions, and the functions that they call.
const OWN: [(&str, &str); 4] = [
    ("hz_supervisor", "hz_make_supervisor"),
    ("hz_guard", "hz_make_guard"),
    ("hz_card", "hz_forecast"),
    ("hz_play", "hz_forced"),
];

/// Makes of two figures an answer.
const REPORTED: &str =
    "struct hz_made hz_reported(uint32_t number, const uint64_t figures[HZ_STATIC(HZ_FIGURES)]) \
    { struct hz_made made; made.number = number; made.length = (size_t)figures[0]; \
    made.states = (size_t)figures[1]; return made; }";

/// One of the header's own functions as it should be: what the function that it calls is lent, work memory
/// from its own field by its own length, everything else by the parameter of the same name.
fn own(name: &str, called: &str) -> String {
    let functions = functions();
    let (_, parameters) = functions.iter().find(|(s, _)| plain(s) == called).expect("it is there");
    let lengths = defined();
    let (mut given, mut lent) = (Vec::new(), Vec::new());
    for parameter in parameters {
        let (word, _) = parameter.split_once(": ").expect("a name and a type");
        let length = format!("HZ_WORK_{}", word.to_uppercase());
        if lengths.contains_key(&length) {
            lent.push(format!("work->{word}, {length}"));
            continue;
        }
        lent.push(array(parameter).map_or(format!("{word}, {word}_len"), |_| word.to_string()));
        if word != "figures" {
            given.push(in_c(parameter));
        }
    }
    let (given, call) = (given.join(", "), format!("{called}({})", lent.join(", ")));
    if lent.last().is_some_and(|last| last == "figures") {
        format!(
            "struct hz_made {name}({given}, struct hz_work *work) {{ uint64_t figures[HZ_FIGURES] = {{0, 0}}; \
            uint32_t number = {call}; return hz_reported(number, figures); }}"
        )
    } else {
        format!("uint32_t {name}({given}, struct hz_work *work) {{ return {call}; }}")
    }
}

#[test]
fn the_header_s_own_functions_pass_on_what_they_are_given() {
    let header = source("c/hundlezoqa.h");
    let bare = header.split("*/").filter_map(|text| text.split("/*").next());
    let bare = one_blank(&bare.collect::<Vec<_>>().join(" "));
    let (bare, _) =
        bare.rsplit_once(" #ifdef __cplusplus } #endif #endif").expect("the header's end");
    let found: Vec<&str> = bare.split("static inline ").skip(1).map(str::trim).collect();
    let mut expected = vec![REPORTED.to_string()];
    expected.extend(OWN.map(|(name, called)| own(name, called)));
    assert_eq!(found, expected);
}

/// The makers as docs/MEMORY.md names them, and their types.
const MAKERS: [(&str, &str); 4] = [
    ("supervisor", "Supervisor"),
    ("guard", "Guard"),
    ("forecast", "Forecast"),
    ("forced", "Forcing"),
];

/// A length as docs/MEMORY.md says it: a sum of products, S being the most product states; or two
/// such, equal.
fn said(length: &str) -> usize {
    let factor = |word: &str| match word {
        "S" => rattle("Limits::STATES"),
        number => {
            number.replace(',', "").parse().unwrap_or_else(|_| panic!("{number} is no number"))
        }
    };
    let sum = |text: &str| -> usize {
        text.split(" + ").map(|p| p.split_whitespace().map(factor).product::<usize>()).sum()
    };
    let values: Vec<usize> = length.trim_end_matches(" each").split(" = ").map(sum).collect();
    assert!(values.windows(2).all(|two| two[0] == two[1]), "{length} is not so");
    values[0]
}

/// A number with a comma before every three figures.
fn in_threes(number: usize) -> String {
    match number {
        0..1000 => number.to_string(),
        _ => format!("{},{:03}", in_threes(number / 1000), number % 1000),
    }
}

/// What docs/MEMORY.md says of each maker's work memory: slice, bytes of an element, and length.
fn work_said(memory: &str, maker: &str) -> BTreeMap<String, (usize, usize)> {
    let mut slices = BTreeMap::new();
    for row in memory.lines().filter(|line| line.starts_with("| `")) {
        let cells: Vec<&str> = row.split('|').map(str::trim).collect();
        let [_, names, element, length, bytes, _, makers, _] = cells[..] else { panic!("{row}") };
        let bits: usize = said(element.trim_end_matches(" each").trim_start_matches('u'));
        assert_eq!(said(bytes), bits / 8 * said(length), "{row}");
        for name in
            names.split('`').skip(1).step_by(2).filter(|_| makers.split(", ").any(|m| m == maker))
        {
            let before = slices.insert(name.to_string(), (bits / 8, said(length)));
            assert!(before.is_none(), "{name} has two rows");
        }
    }
    slices
}

/// Every constant of each maker, the bytes of its elements, and what they come to.
#[test]
fn the_lengths_in_the_documents_are_rattle_s() {
    let memory = source("docs/MEMORY.md");
    let mut bytes = Vec::new();
    for (maker, owner) in MAKERS {
        let text = source_of(owner);
        let element = |name: &str| {
            let (_, rest) = text.split_once(&format!("{name}: &mut [u")).expect("a slice");
            rest.split(']').next().and_then(|bits| bits.parse::<usize>().ok()).expect("its bits")
                / 8
        };
        let names = text.split("pub const ").skip(1).filter_map(|rest| rest.split(':').next());
        let expected: BTreeMap<String, (usize, usize)> = names
            .map(|name| {
                let slice = name.to_lowercase();
                (slice.clone(), (element(&slice), rattle(&format!("{owner}::{name}"))))
            })
            .collect();
        assert_eq!(work_said(&memory, maker), expected, "{maker}");
        bytes.push(in_threes(expected.values().map(|(width, length)| width * length).sum()));
    }
    let [supervisor, guard, forecast, forced] = &bytes[..] else { unreachable!() };
    assert_eq!(supervisor, forced);
    let [states, letters, buckets, forks] =
        ["Limits::STATES", "Limits::LETTERS", "Index::BUCKETS", "Index::FORKS"].map(rattle);
    let memory = one_blank(&memory);
    for sentence in [
        format!("product states S = {states} and of letters {letters} (`Limits`)"),
        format!("the buckets, {buckets}, and forks, {forks}, of the tuples' index"),
        format!("that of plays need {supervisor} bytes, the guard's {guard}, the forecast's {forecast};"),
        format!("= {} bytes (`Layout::MOST`", in_threes(Guard::BYTES_MOST)),
        format!("(5 + 16) = {}; no play than 11 S = {}.", in_threes(Supervisor::BYTES_MOST), in_threes(Forced::BYTES_MOST)),
        format!("`Report::TEXT` (41 + 101 S = {} bytes)", in_threes(rattle("Report::TEXT"))),
        format!("into {} words (`CardWords::LENGTH`", in_threes(calls::CARD_WORDS)),
        format!("language has {} bytes", calls::BOARD_BYTES),
    ] {
        assert!(memory.contains(&sentence), "docs/MEMORY.md does not say '{sentence}'");
    }
    let header = one_blank(&source("c/hundlezoqa.h")).replace(" * ", " ");
    assert!(header.contains(&format!("of its own: {supervisor}, {guard} and {forecast} bytes.")));
}
