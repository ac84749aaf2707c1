//! What a transaction is to do: the body of `POST /transact`.
//!
//! ```text
//! {"if":   [{"key":K,"value":V}, {"key":K,"absent":true}, {"key":K,"version":"T"}, {"span":[LO,HI],"unchanged":"T"}],
//!  "then": [{"put":K,"value":V}, {"del":K}, {"get":K}, {"scan":[LO,HI],"limit":1000}],
//!  "else": [..]}
//! ```
//!
//! `transact` reads one of a body, `keys` makes one for each request, and `run` runs it.
//!
//! 1. Each key has 1 to 256 bytes, each bound 257 at most, each value 65536 at most.
//! 2. It has at most `MOST_STEPS` conditions and steps. A member that isn't known is refused, so none is overlooked.

use super::bytes::{bound_in, key_in, timestamp_in, value_in, Wrong};
use super::strict::Json;
use crate::door::Length;
use crate::gate::{Keys, Right, Who};
use crate::refusal::Refusal;
use ripsawbean::Span;
use std::borrow::Cow;

/// Conditions and steps of one transaction.
const MOST_STEPS: usize = 10_000;
/// What a condition or a step weighs, and a row that is scanned, beside the bytes of keys and values that it reads or
/// writes: it takes as long as so many of them.
pub const STEP: usize = 300;
pub const SCANNED: usize = 150;
/// What a plan weighs that takes some 2 milliseconds.
pub const SHORT: usize = 1 << 18;
/// Rows that a scan or a page tells, where nothing is said, and at most.
pub const ROWS: u64 = 1000;
pub const MOST_ROWS: u64 = 10_000;

/// See the module.
#[derive(Debug, Default, PartialEq)]
pub struct Plan<'a> {
    pub conditions: Vec<Condition<'a>>,
    pub then: Vec<Step<'a>>,
    pub otherwise: Option<Vec<Step<'a>>>,
}

/// What has to hold.
#[derive(Debug, PartialEq)]
pub enum Condition<'a> {
    Key {
        key: Cow<'a, [u8]>,
        test: Test<'a>,
    },
    /// The rows of a span are those of a snapshot.
    Unchanged {
        span: Bounds<'a>,
        since: u64,
    },
}

/// What a key has to be.
#[derive(Debug, PartialEq)]
pub enum Test<'a> {
    Value(Cow<'a, [u8]>),
    Absent,
    Present,
    /// 0 is that of a key without a value.
    Version(u64),
    OneOf(Vec<u64>),
    NoneOf(Vec<u64>),
}

#[derive(Debug, PartialEq)]
pub enum Step<'a> {
    Put { key: Cow<'a, [u8]>, value: Cow<'a, [u8]> },
    Del { key: Cow<'a, [u8]> },
    Get { key: Cow<'a, [u8]> },
    Scan { span: Bounds<'a>, limit: usize },
}

/// Keys at or above `lo`, and below `hi` where there is one.
#[derive(Clone, Debug, Default, PartialEq)]
pub struct Bounds<'a> {
    pub lo: Cow<'a, [u8]>,
    pub hi: Option<Cow<'a, [u8]>>,
}

impl<'a> Bounds<'a> {
    /// No bytes are no bound.
    pub fn new(lo: Cow<'a, [u8]>, hi: Cow<'a, [u8]>) -> Bounds<'a> {
        Bounds { lo, hi: Some(hi).filter(|hi| !hi.is_empty()) }
    }

    pub fn span(&self) -> Span<'_> {
        Span { lo: &self.lo, hi: self.hi.as_deref() }
    }

    pub fn is_within(&self, keys: &Keys) -> bool {
        keys.covers(&self.lo, self.hi.as_deref())
    }
}

impl Test<'_> {
    /// Whether a key is so. Its version is that of its value, where it has one.
    pub fn holds(&self, value: Option<&[u8]>, version: Option<u64>) -> bool {
        match self {
            Test::Value(wanted) => value == Some(wanted),
            Test::Absent => value.is_none(),
            Test::Present => value.is_some(),
            Test::Version(wanted) => version.unwrap_or(0) == *wanted,
            Test::OneOf(versions) => version.is_some_and(|version| versions.contains(&version)),
            Test::NoneOf(versions) => !version.is_some_and(|version| versions.contains(&version)),
        }
    }
}

impl<'a> Plan<'a> {
    /// The plan that a body says.
    pub fn of(body: &'a [u8]) -> Result<Plan<'a>, Refusal> {
        let tree = Json::of(body).map_err(|why| Refusal::new(400, "json", format!("the body is no JSON: {why}")))?;
        plan_in(tree).map_err(Wrong::refusal)
    }

    /// Whether someone may do all of it.
    pub fn check(&self, who: &Who) -> Result<(), Refusal> {
        let steps = || self.then.iter().chain(self.otherwise.iter().flatten());
        if steps().any(Step::writes) && !who.may(Right::Write) {
            return Err(Refusal::no_right(Right::Write));
        }
        if (!self.conditions.is_empty() || !steps().all(Step::writes)) && !who.may(Right::Read) {
            return Err(Refusal::no_right(Right::Read));
        }
        let keys = who.keys();
        let is_allowed = keys.is_all()
            || self.conditions.iter().all(|one| one.is_within(keys)) && steps().all(|one| one.is_within(keys));
        match is_allowed {
            true => Ok(()),
            false => Err(Refusal::other_keys()),
        }
    }

    /// How long it holds the lock, as far as that is known before it has read anything.
    pub fn length(&self) -> Length {
        let steps = |steps: &[Step<'_>]| steps.iter().map(Step::weight).sum::<usize>();
        let branch = steps(&self.then).max(self.otherwise.as_deref().map_or(0, steps));
        match self.conditions.iter().map(Condition::weight).sum::<usize>() + branch {
            ..=SHORT => Length::Short,
            _ => Length::Long,
        }
    }

    /// Whether its answer may be longer than what a socket takes at once.
    pub fn answers_at_length(&self) -> bool {
        let mut gets = self.conditions.len();
        for step in self.then.iter().chain(self.otherwise.iter().flatten()) {
            match step {
                Step::Scan { .. } => return true,
                Step::Get { .. } => gets += 1,
                _ => {}
            }
        }
        gets > 1
    }
}

impl Condition<'_> {
    fn is_within(&self, keys: &Keys) -> bool {
        match self {
            Condition::Key { key, .. } => keys.holds(key),
            Condition::Unchanged { span, .. } => span.is_within(keys),
        }
    }

    fn weight(&self) -> usize {
        match self {
            Condition::Key { .. } => STEP,
            // It reads all rows of the span.
            Condition::Unchanged { .. } => STEP + MOST_ROWS as usize * SCANNED,
        }
    }
}

impl Step<'_> {
    pub fn writes(&self) -> bool {
        matches!(self, Step::Put { .. } | Step::Del { .. })
    }

    fn is_within(&self, keys: &Keys) -> bool {
        match self {
            Step::Put { key, .. } | Step::Del { key } | Step::Get { key } => keys.holds(key),
            Step::Scan { span, .. } => span.is_within(keys),
        }
    }

    pub fn weight(&self) -> usize {
        match self {
            Step::Put { key, value } => STEP + key.len() + value.len(),
            Step::Del { .. } | Step::Get { .. } => STEP,
            Step::Scan { limit, .. } => STEP + limit * SCANNED,
        }
    }
}

// ---- reading it

/// The members of an object, each of which is taken once.
struct Members<'a> {
    left: Vec<(Cow<'a, str>, Json<'a>)>,
    /// What is said of an object of another shape.
    shape: &'static str,
}

impl<'a> Members<'a> {
    fn of(value: Json<'a>, shape: &'static str) -> Result<Members<'a>, Wrong> {
        match value {
            Json::Object(left) => Ok(Members { left, shape }),
            _ => Err(Wrong::new(shape)),
        }
    }

    fn take(&mut self, name: &str) -> Option<Json<'a>> {
        let at = self.left.iter().position(|(one, _)| one == name)?;
        Some(self.left.swap_remove(at).1)
    }

    fn demand(&mut self, name: &str) -> Result<Json<'a>, Wrong> {
        self.take(name).ok_or_else(|| Wrong::new(self.shape))
    }

    fn end(self) -> Result<(), Wrong> {
        match self.left.first() {
            None => Ok(()),
            Some((name, _)) => Err(Wrong::new(self.shape).below(name)),
        }
    }
}

fn plan_in(tree: Json<'_>) -> Result<Plan<'_>, Wrong> {
    let mut members = Members::of(tree, "a transaction is an object that may have if, then, else")?;
    let [conditions, then, otherwise] = ["if", "then", "else"].map(|name| members.take(name));
    members.end()?;
    if otherwise.is_some() && conditions.is_none() {
        return Err(Wrong::new("without if nothing can fail").below("else"));
    }
    let plan = Plan {
        conditions: list_in(conditions, condition_in).map_err(|wrong| wrong.below("if"))?,
        then: list_in(then, step_in).map_err(|wrong| wrong.below("then"))?,
        otherwise: otherwise
            .map(|steps| list_in(Some(steps), step_in))
            .transpose()
            .map_err(|wrong| wrong.below("else"))?,
    };
    if plan.conditions.len() + plan.then.len() + plan.otherwise.as_ref().map_or(0, Vec::len) > MOST_STEPS {
        return Err(Wrong::new(format!("it has more than {MOST_STEPS} conditions and steps")));
    }
    Ok(plan)
}

fn list_in<'a, T>(list: Option<Json<'a>>, item_in: fn(Json<'a>) -> Result<T, Wrong>) -> Result<Vec<T>, Wrong> {
    let items = match list {
        None => return Ok(Vec::new()),
        Some(Json::List(items)) => items,
        Some(_) => return Err(Wrong::new("it has to be a list")),
    };
    items.into_iter().enumerate().map(|(at, item)| item_in(item).map_err(|wrong| wrong.below(at))).collect()
}

fn condition_in(value: Json<'_>) -> Result<Condition<'_>, Wrong> {
    let shape = "a condition is one of {key, value}, {key, absent}, {key, version}, {span, unchanged}";
    let mut members = Members::of(value, shape)?;
    if let Some(span) = members.take("span") {
        let since = members.demand("unchanged")?;
        members.end()?;
        let since = timestamp_in(&since).map_err(|wrong| wrong.below("unchanged"))?;
        return Ok(Condition::Unchanged { span: span_in(span).map_err(|wrong| wrong.below("span"))?, since });
    }
    let key = members.demand("key")?;
    let [value, absent, version] = ["value", "absent", "version"].map(|name| members.take(name));
    members.end()?;
    let test = match (value, absent, version) {
        (Some(value), None, None) => Test::Value(value_in(value).map_err(|wrong| wrong.below("value"))?),
        (None, Some(Json::Bool(true)), None) => Test::Absent,
        (None, Some(Json::Bool(false)), None) => Test::Present,
        (None, Some(_), None) => return Err(Wrong::new("it has to be true or false").below("absent")),
        (None, None, Some(version)) => Test::Version(timestamp_in(&version).map_err(|wrong| wrong.below("version"))?),
        _ => return Err(Wrong::new(shape)),
    };
    Ok(Condition::Key { key: key_in(key).map_err(|wrong| wrong.below("key"))?, test })
}

fn step_in(value: Json<'_>) -> Result<Step<'_>, Wrong> {
    let mut members = Members::of(value, "a step is one of {put, value}, {del}, {get}, {scan, limit?}")?;
    let key = |name: &'static str| move |wrong: Wrong| wrong.below(name);
    if let Some(put) = members.take("put") {
        let value = members.demand("value")?;
        members.end()?;
        return Ok(Step::Put { key: key_in(put).map_err(key("put"))?, value: value_in(value).map_err(key("value"))? });
    }
    if let Some(del) = members.take("del") {
        members.end()?;
        return Ok(Step::Del { key: key_in(del).map_err(key("del"))? });
    }
    if let Some(get) = members.take("get") {
        members.end()?;
        return Ok(Step::Get { key: key_in(get).map_err(key("get"))? });
    }
    let (span, limit) = (members.demand("scan")?, members.take("limit"));
    members.end()?;
    let limit = limit.map_or(Ok(ROWS as usize), |limit| limit_in(&limit)).map_err(key("limit"))?;
    Ok(Step::Scan { span: span_in(span).map_err(key("scan"))?, limit })
}

fn span_in(value: Json<'_>) -> Result<Bounds<'_>, Wrong> {
    let Json::List(bounds) = value else { return Err(no_span()) };
    let [lo, hi] = <[Json<'_>; 2]>::try_from(bounds).map_err(|_| no_span())?;
    let bound = |bound, at| match bound {
        Json::Null => Ok(Cow::Borrowed(&b""[..])),
        bound => bound_in(bound).map_err(|wrong: Wrong| wrong.below(at)),
    };
    Ok(Bounds::new(bound(lo, 0)?, bound(hi, 1)?))
}

fn no_span() -> Wrong {
    Wrong::new("it has to be [LO, HI], with null for no bound")
}

/// JSON has one kind of number: 3 and 3.0 are the same.
fn limit_in(value: &Json<'_>) -> Result<usize, Wrong> {
    let number = match value {
        Json::Number(number) => number.as_f64().filter(|number| number.fract() == 0.0),
        _ => None,
    };
    match number {
        Some(number) if (1.0..=MOST_ROWS as f64).contains(&number) => Ok(number as usize),
        _ => Err(Wrong::new(format!("it has to be a number from 1 to {MOST_ROWS}"))),
    }
}

#[cfg(test)]
mod tests {
    use super::*;

    fn bytes(text: &str) -> Cow<'_, [u8]> {
        Cow::Borrowed(text.as_bytes())
    }

    fn refused(body: &str) -> (u16, &'static str, String) {
        let refusal = Plan::of(body.as_bytes()).expect_err(body);
        let member = refusal.members.first().map_or("none".into(), |(_, member)| member.as_str().unwrap().to_string());
        (refusal.status, refusal.error, member)
    }

    #[test]
    fn each_condition_and_step_is_read() {
        let body = r#"{
            "if": [{"key":"a","value":"1"}, {"absent":true,"key":"b"}, {"key":"c","absent":false},
                   {"key":"d","version":"7"}, {"span":["a",null],"unchanged":"0"}],
            "then": [{"value":"","put":"a"}, {"del":{"base64":"/w=="}}, {"get":"c"}, {"scan":[null,"b"]},
                     {"scan":["","x"],"limit":3.0}],
            "else": []}"#;
        let plan = Plan::of(body.as_bytes()).expect("a plan");
        let key = |key, test| Condition::Key { key: bytes(key), test };
        let conditions = vec![
            key("a", Test::Value(bytes("1"))),
            key("b", Test::Absent),
            key("c", Test::Present),
            key("d", Test::Version(7)),
            Condition::Unchanged { span: Bounds { lo: bytes("a"), hi: None }, since: 0 },
        ];
        let then = vec![
            Step::Put { key: bytes("a"), value: bytes("") },
            Step::Del { key: Cow::Borrowed(&b"\xff"[..]) },
            Step::Get { key: bytes("c") },
            Step::Scan { span: Bounds { lo: bytes(""), hi: Some(bytes("b")) }, limit: 1000 },
            Step::Scan { span: Bounds { lo: bytes(""), hi: Some(bytes("x")) }, limit: 3 },
        ];
        assert_eq!(plan, Plan { conditions, then, otherwise: Some(vec![]) });
        assert_eq!(Plan::of(b"{}").expect("a plan"), Plan::default());
    }

    #[test]
    fn what_is_wrong_is_told_with_its_place() {
        for (body, error, member) in [
            ("[]", "member", ""),
            ("3", "member", ""),
            (r#"{"fi":[]}"#, "member", "/fi"),
            (r#"{"else":[]}"#, "member", "/else"),
            (r#"{"then":{}}"#, "member", "/then"),
            (r#"{"then":[3]}"#, "member", "/then/0"),
            (r#"{"then":[{}]}"#, "member", "/then/0"),
            (r#"{"then":[{"put":"a"}]}"#, "member", "/then/0"),
            (r#"{"then":[{"put":"a","value":1}]}"#, "member", "/then/0/value"),
            (r#"{"then":[{"get":"a"},{"get":"a","x":1}]}"#, "member", "/then/1/x"),
            (r#"{"then":[{"get":"a","put":"b","value":"1"}]}"#, "member", "/then/0/get"),
            (r#"{"then":[{"get":""}]}"#, "keylength", "/then/0/get"),
            (r#"{"then":[{"get":{"base64":"x"}}]}"#, "member", "/then/0/get/base64"),
            (r#"{"then":[{"scan":["a"]}]}"#, "member", "/then/0/scan"),
            (r#"{"then":[{"scan":"a"}]}"#, "member", "/then/0/scan"),
            (r#"{"then":[{"scan":["a",3]}]}"#, "member", "/then/0/scan/1"),
            (r#"{"then":[{"scan":[null,null],"limit":0}]}"#, "member", "/then/0/limit"),
            (r#"{"then":[{"scan":[null,null],"limit":10001}]}"#, "member", "/then/0/limit"),
            (r#"{"then":[{"scan":[null,null],"limit":2.5}]}"#, "member", "/then/0/limit"),
            (r#"{"then":[{"scan":[null,null],"limit":"1"}]}"#, "member", "/then/0/limit"),
            (r#"{"if":[{"key":"a"}]}"#, "member", "/if/0"),
            (r#"{"if":[{"key":"a","value":"1","absent":true}]}"#, "member", "/if/0"),
            (r#"{"if":[{"value":"a"}]}"#, "member", "/if/0"),
            (r#"{"if":[{"key":"a","absent":1}]}"#, "member", "/if/0/absent"),
            (r#"{"if":[{"key":"a","version":1}]}"#, "member", "/if/0/version"),
            (r#"{"if":[{"span":[null,null]}]}"#, "member", "/if/0"),
            (r#"{"if":[{"span":[null,null],"unchanged":"x"}]}"#, "member", "/if/0/unchanged"),
            (r#"{"if":[{"span":[null,null],"unchanged":"1","key":"a"}]}"#, "member", "/if/0/key"),
        ] {
            assert_eq!(refused(body), (422, error, member.to_string()), "{body}");
        }
        let long = format!(r#"{{"then":[{{"put":"{}","value":"{}"}}]}}"#, "k".repeat(257), "v".repeat(65537));
        assert_eq!(refused(&long), (422, "keylength", "/then/0/put".to_string()));
        assert_eq!(refused(r#"{"if":[],"if":[]}"#), (400, "json", "none".to_string()));
        let many = format!(r#"{{"then":[{}]}}"#, vec![r#"{"get":"a"}"#; 10_001].join(","));
        assert_eq!(refused(&many), (422, "member", String::new()));
    }

    #[test]
    fn tests_of_a_key() {
        let (none, some) = ((None, None), (Some(&b"1"[..]), Some(7)));
        for (test, of_none, of_some) in [
            (Test::Value(bytes("1")), false, true),
            (Test::Value(bytes("")), false, false),
            (Test::Absent, true, false),
            (Test::Present, false, true),
            (Test::Version(0), true, false),
            (Test::Version(7), false, true),
            (Test::OneOf(vec![3, 7]), false, true),
            (Test::OneOf(vec![]), false, false),
            (Test::NoneOf(vec![3, 7]), true, false),
            (Test::NoneOf(vec![0]), true, true),
        ] {
            assert_eq!((test.holds(none.0, none.1), test.holds(some.0, some.1)), (of_none, of_some), "{test:?}");
        }
    }

    #[test]
    fn a_plan_wants_rights_and_keys() {
        let of = |body: &'static str| Plan::of(body.as_bytes()).expect("a plan");
        let reader = Who::of("reader", &[Right::Read]);
        let few =
            Who::of("few", &[Right::Read, Right::Write]).with_keys(Keys { lo: b"b".to_vec(), hi: Some(b"d".to_vec()) });
        for (body, by_reader, by_few) in [
            (r#"{"then":[{"get":"c"}]}"#, true, true),
            (r#"{"then":[{"get":"a"}]}"#, true, false),
            (r#"{"then":[{"put":"c","value":""}]}"#, false, true),
            (r#"{"if":[],"else":[{"del":"c"}]}"#, false, true),
            (r#"{"if":[],"else":[{"del":"d"}]}"#, false, false),
            (r#"{"then":[{"scan":["b","d"]}]}"#, true, true),
            (r#"{"then":[{"scan":["b",null]}]}"#, true, false),
            (r#"{"if":[{"key":"a","absent":true}]}"#, true, false),
            (r#"{"if":[{"span":["b","c"],"unchanged":"0"}]}"#, true, true),
            (r#"{"if":[{"span":[null,"c"],"unchanged":"0"}]}"#, true, false),
        ] {
            let plan = of(body);
            assert_eq!((plan.check(&reader).is_ok(), plan.check(&few).is_ok()), (by_reader, by_few), "{body}");
        }
        let sensor = Who::of("sensor", &[Right::Write]);
        for (body, may) in [
            (r#"{"then":[{"put":"c","value":""},{"del":"d"}]}"#, true),
            (r#"{"then":[{"put":"c","value":""},{"get":"d"}]}"#, false),
            (r#"{"then":[{"scan":["b","c"]}]}"#, false),
            (r#"{"if":[{"key":"c","absent":true}],"then":[{"put":"c","value":""}]}"#, false),
        ] {
            assert_eq!(of(body).check(&sensor).is_ok(), may, "{body}");
        }
        assert_eq!(of(r#"{"then":[{"del":"c"}]}"#).check(&reader).unwrap_err().error, "right");
        assert_eq!(of(r#"{"then":[{"get":"a"}]}"#).check(&few).unwrap_err().error, "keys");
    }

    #[test]
    fn a_plan_is_long_by_what_it_weighs() {
        let many = |piece: &str, count: usize| vec![piece; count].join(",");
        let then = |steps: &str, count: usize| format!(r#"{{"then":[{}]}}"#, many(steps, count));
        let [put, get, key] = [r#"{"put":"a","value":"1"}"#, r#"{"get":"a"}"#, r#"{"key":"a","absent":true}"#];
        let put_of = |length: usize| format!(r#"{{"put":"a","value":"{}"}}"#, "v".repeat(length));
        let scan = |limit: usize| format!(r#"{{"scan":["a","b"],"limit":{limit}}}"#);
        let branches = |conditions, then, otherwise| {
            let [conditions, then, otherwise] = [many(key, conditions), many(put, then), many(get, otherwise)];
            format!(r#"{{"if":[{conditions}],"then":[{then}],"else":[{otherwise}]}}"#)
        };
        for (body, length) in [
            ("{}".to_string(), Length::Short),
            (then(get, 873), Length::Short),
            (then(get, 874), Length::Long),
            (then(put, 868), Length::Short),
            (then(put, 869), Length::Long),
            (then(&put_of(65_536), 3), Length::Short),
            (then(&put_of(65_536), 4), Length::Long),
            (then(r#"{"scan":["a","b"]}"#, 1), Length::Short),
            (then(&scan(1745), 1), Length::Short),
            (then(&scan(1746), 1), Length::Long),
            (then(&scan(870), 2), Length::Short),
            (then(&scan(875), 2), Length::Long),
            (then(&scan(1), 582), Length::Short),
            (then(&scan(1), 583), Length::Long),
            // One of the branches is run.
            (branches(400, 470, 473), Length::Short),
            (branches(400, 471, 0), Length::Long),
            (branches(400, 0, 474), Length::Long),
            (r#"{"if":[{"span":["a","b"],"unchanged":"1"}]}"#.into(), Length::Long),
        ] {
            assert_eq!(Plan::of(body.as_bytes()).unwrap().length(), length, "{body:.100}");
        }
    }

    #[test]
    fn a_long_answer_is_foreseen() {
        for (body, is_long) in [
            (r#"{"then":[{"put":"a","value":"1"},{"get":"a"}]}"#, false),
            (r#"{"if":[{"key":"a","absent":true}],"then":[{"put":"a","value":"1"}]}"#, false),
            (r#"{"then":[{"get":"a"},{"get":"b"}]}"#, true),
            (r#"{"then":[{"scan":[null,null]}]}"#, true),
        ] {
            assert_eq!(Plan::of(body.as_bytes()).unwrap().answers_at_length(), is_long, "{body}");
        }
    }
}
