//! Whether include/yard.h says what the library's source and the definitions say.

mod c;
mod differences;
mod planted;
mod rattle;
mod specs;
mod tokens;

/// Names with what they stand for.
type Named<T> = Vec<(String, T)>;

/// The header's enumerations; the first, of an image's length, a list's and a roster's, has no name.
const ENUMS: [&str; 4] = ["", "yard_image_place", "yard_kind", "yard_refusal"];

/// The texts that are compared.
#[derive(Clone)]
struct Texts {
    header: String,
    /// crates/yard_c/src/lib.rt
    source: String,
    /// crates/roster/src/record.rt
    record: String,
    /// Five of crates/semantics/specs.
    rules: String,
    image: String,
    calls: String,
    load: String,
    log: String,
    /// Two of crates/roster/specs.
    roster: String,
    turn: String,
}

impl Texts {
    fn ours() -> Texts {
        Texts {
            header: include_str!("../../../../include/yard.h").into(),
            source: include_str!("../../../../crates/yard_c/src/lib.rt").into(),
            record: include_str!("../../../../crates/roster/src/record.rt").into(),
            rules: include_str!("../../../../crates/semantics/specs/Rules.antt").into(),
            image: include_str!("../../../../crates/semantics/specs/Image.antt").into(),
            calls: include_str!("../../../../crates/semantics/specs/Calls.antt").into(),
            load: include_str!("../../../../crates/semantics/specs/Load.antt").into(),
            log: include_str!("../../../../crates/semantics/specs/Log.antt").into(),
            roster: include_str!("../../../../crates/roster/specs/Roster.antt").into(),
            turn: include_str!("../../../../crates/roster/specs/Turn.antt").into(),
        }
    }

    /// What differs; that a text cannot be read is a difference too.
    fn differences(&self) -> Vec<String> {
        self.compared().unwrap_or_else(|unread| vec![unread])
    }

    fn compared(&self) -> Result<Vec<String>, String> {
        let header = c::Header::read(&self.header)?;
        if !header.enums.iter().map(|(name, _)| name).eq(ENUMS) {
            return Err("the header's enumerations are other ones".into());
        }
        let kinds = [
            specs::kinds(&self.calls),
            specs::kinds(&self.log),
            specs::idle(&self.turn)?,
        ];
        let rules = [&self.rules, &self.image, &self.calls].map(|text| specs::rules(text));
        Ok([
            differences::named(&header.functions, &rattle::exported(&self.source)?),
            differences::structures(
                &header.structs,
                &rattle::record(&self.record, "Lane", "yard_lane")?,
            ),
            differences::named(header.list("yard_kind"), &kinds.concat()),
            differences::refusals(
                header.list("yard_refusal"),
                &rules.concat(),
                &self.other_lists(),
            ),
            differences::named(
                header.list(""),
                &specs::limits(&self.image, &self.load, &self.roster)?,
            ),
            differences::named(
                header.list("yard_image_place"),
                &specs::places(&self.image)?,
            ),
            differences::packing(&self.header, &self.calls, &self.turn),
        ]
        .concat())
    }

    /// The rules of a log, of a list and of a turn, each in the order of its call: a list's are tested after the image's, a turn's own after the plan's and
    /// before the image's, where it stands in for 11.
    fn other_lists(&self) -> Vec<Vec<(u32, String)>> {
        let of_list = [&self.image, &self.load].map(|text| specs::rules(text));
        let of_turn = [&self.rules, &self.turn, &self.image].map(|text| specs::rules(text));
        let mut of_turn = of_turn.concat();
        of_turn.retain(|(number, _)| *number != 11);
        let mut lists = specs::rule_lists(&self.log);
        lists.extend([of_list.concat(), of_turn]);
        lists
    }
}

#[test]
fn the_header_is_as_the_source_and_the_definitions() {
    assert_eq!(Texts::ours().differences(), [""; 0]);
}

#[test]
fn the_crate_for_rust_has_the_numbers_of_the_header() {
    let header = c::Header::read(&Texts::ours().header).unwrap();
    let ours = [
        ("YARD_ACCEPTED", yard::ACCEPTED),
        ("YARD_COMMITTED", yard::COMMITTED),
        ("YARD_CANCELLED", yard::CANCELLED),
        ("YARD_STALLED", yard::STALLED),
        ("YARD_PENNED", yard::PENNED),
        ("YARD_REFUSED", yard::REFUSED),
        ("YARD_WRONG", yard::WRONG),
        ("YARD_IDLE", yard::IDLE),
    ];
    assert_eq!(
        header.list("yard_kind"),
        ours.map(|(name, n)| (name.to_string(), n))
    );
    let limits = [
        ("YARD_IMAGE_BYTES", yard::IMAGE_BYTES),
        ("YARD_LIST_MOVES", yard::LIST_MOVES),
        ("YARD_ROSTER_LANES", yard::ROSTER_LANES),
    ];
    assert_eq!(
        header.list(""),
        limits.map(|(name, n)| (name.to_string(), n as u32))
    );
}
