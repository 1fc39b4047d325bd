//! The calls on one linked section, compared with the second implementation, with the library's calls on
//! single maps, and with what is known beforehand.

use crate::common::differ;
use crate::library::{self, Refused};
use generator::linked::{found, places, Linked};

/// What stands in a list before a call.
const BEFORE: u64 = 0xa5a5_5a5a_c3c3_3c3c;

/// Maps by their first bytes and lengths.
type Maps = Vec<(usize, usize)>;

/// How a linked section is cut: the maps, and the refusal after them, if there is one.
#[derive(Clone, Debug)]
pub struct Cut {
    pub maps: Maps,
    pub refusal: Option<Refused>,
}

impl Cut {
    /// A section cut by the library's check of what is left, as long as that gives 9.
    fn by_check(bytes: &[u8]) -> Cut {
        let (mut maps, mut first) = (Vec::new(), 0);
        let over = bytes.len() > generator::layout::LARGEST;
        let mut refusal = over.then_some((1, 0));
        while refusal.is_none() {
            let rest = &bytes[first..];
            let (number, place) = match treskibben::check(rest) {
                Ok(()) => (0, rest.len()),
                Err(refusal) => (refusal.number(), refusal.place() as usize),
            };
            match number {
                0 | 9 => maps.push((first, place)),
                _ => refusal = Some((number, (first + place) as u64)),
            }
            first += place;
            if number == 0 {
                break;
            }
        }
        Cut { maps, refusal }
    }

    /// The number of the answer.
    pub fn number(&self) -> u64 {
        self.refusal.map_or(0, |(number, _)| number)
    }

    /// The maps, or the refusal.
    fn answer(&self) -> Result<&Maps, Refused> {
        self.refusal.map_or(Ok(&self.maps), Err)
    }
}

/// A linked section, and how it is cut.
pub struct Calls<'a> {
    case: &'a Linked,
    pub cut: Cut,
}

impl<'a> Calls<'a> {
    /// Asks for the maps of a section.
    pub fn new(case: &'a Linked) -> Calls<'a> {
        let cut = Cut::by_check(&case.bytes);
        let own = Calls { case, cut };
        own.maps();
        own
    }

    /// Shows the section, and fails.
    fn fail(&self, why: &str) -> ! {
        let (cut, answer) = (&self.cut, self.case.answer);
        let words = format!("{why}\nby the check {cut:x?}, known beforehand {answer:?}");
        differ(self.case.name, &self.case.bytes, &words)
    }

    fn maps(&self) {
        let bytes = &self.case.bytes;
        let library = library::maps(bytes);
        let second = reference::linked::maps(bytes);
        let second = second.map_err(|refusal| (refusal.number, refusal.place));
        let second: Result<Maps, Refused> =
            second.map(|maps| maps.iter().map(|map| (map.first, map.length)).collect());
        let by_check = self.cut.answer();
        let as_known = self.case.answer.is_none_or(|known| match known {
            (0, _) => by_check == Ok(&places(&self.case.maps)),
            refused => by_check == Err(refused),
        });
        if library != second || library.as_ref().map_err(|own| *own) != by_check || !as_known {
            self.fail(&format!(
                "maps by the library {library:x?}, by the second implementation {second:x?}"
            ));
        }
    }

    /// Has the maps written to a list that has room for so many numbers. Gives the number.
    pub fn fill(&self, room: usize) -> u64 {
        let bytes = &self.case.bytes;
        let (mut list, mut second) = (vec![BEFORE; room], vec![BEFORE; room]);
        let library = library::fill(bytes, &mut list);
        let by_second = match reference::linked::fill_maps(bytes, &mut second) {
            Ok(count) => [0, 0, count],
            Err(refusal) => [refusal.number, refusal.place, 0],
        };
        let mut expected = vec![BEFORE; room];
        let answer = match self.cut.answer() {
            Err((number, place)) => [number, place, 0],
            Ok(maps) if room < 2 * maps.len() => [24, 0, 0],
            Ok(maps) => {
                let two = |own: &(usize, usize)| [own.0 as u64, own.1 as u64];
                let numbers = maps.iter().flat_map(two);
                expected
                    .iter_mut()
                    .zip(numbers)
                    .for_each(|(to, own)| *to = own);
                [0, 0, maps.len() as u64]
            }
        };
        let answers = library == answer && by_second == answer;
        if !answers || list != expected || second != expected {
            self.fail(&format!(
                "a list of {room} numbers: {library:?} and {list:x?}, by the second implementation \
                 {by_second:?} and {second:x?}"
            ));
        }
        library[0]
    }

    /// Asks for an address. Gives the answer: map, record, function and sharing, or the refusal.
    pub fn find(&self, address: u64) -> Result<[u64; 4], Refused> {
        let bytes = &self.case.bytes;
        let library = library::find(bytes, address);
        let second = reference::linked::find(bytes, address);
        let second = second.map_err(|refusal| (refusal.number, refusal.place));
        let second = second.map(|own| [own.map, own.record, own.function, own.sharing]);
        let by_maps = self.find_by_maps(address);
        let as_known = self.case.answer.is_none_or(|known| match known {
            (0, _) => library == found(&self.case.maps, address),
            refused => library == Err(refused),
        });
        if library != second || library != by_maps || !as_known {
            self.fail(&format!(
                "{address:#x}: by the library {library:x?}, by the second implementation {second:x?}, by \
                 its maps {by_maps:x?}"
            ));
        }
        library
    }

    /// The answer made up of those that the library gives for each map by itself.
    fn find_by_maps(&self, address: u64) -> Result<[u64; 4], Refused> {
        let (mut first, mut sharing) = (None, 0);
        for (nth, (at, length)) in self.cut.answer()?.iter().enumerate() {
            match treskibben::find(&self.case.bytes[*at..][..*length], address) {
                Ok(own) => {
                    first.get_or_insert([nth as u64, own.record, own.function]);
                    sharing += own.sharing;
                }
                Err(refusal) if refusal.number() == 10 => {}
                Err(refusal) => return Err((refusal.number(), *at as u64 + refusal.place())),
            }
        }
        let [map, record, function] = first.ok_or((10, 0))?;
        Ok([map, record, function, sharing])
    }
}
