//! What holds of the exports of segments as calls left them, beside their bytes: the list opens again, to equal meters, and
//! lists are equal exactly where the meters are.
use crate::calls::{Answer, Call, Side, State, EXPORTED};
use crate::library::Library;
use crate::rust::Rust;

/// A meter's "primary, id, manufacturer code, version, medium with its model, fault and baud".
type Told = [u32; 8];

fn told(state: &State) -> Vec<Told> {
    state.meters.iter().map(|m| EXPORTED.map(|i| m[i])).collect()
}

/// The accepted exports of a list of calls: bus baud, meters, bytes.
#[derive(Default)]
pub struct Exports(Vec<(u32, Vec<Told>, Vec<u8>)>);

impl Exports {
    /// Takes the list that a segment was exported as; says what does not hold of it.
    pub fn add(&mut self, state: &State, list: &[u8]) -> Result<(), String> {
        let meters = told(state);
        // "Two segments at one bus baud, neither refused, export equal bytes exactly when their meters agree in these."
        for (_, others, before) in self.0.iter().filter(|(baud, ..)| *baud == state.baud) {
            if (meters == *others) != (list == before) {
                let (unlike, alike) = if list == before { ("meters", "bytes") } else { ("bytes", "meters") };
                return Err(format!("two exports at one bus baud differ in their {unlike} and not in their {alike}"));
            }
        }
        opens_again("library", &mut Library::new(), state.baud, &meters, list)?;
        opens_again("other", &mut Rust::new(), state.baud, &meters, list)?;
        self.0.push((state.baud, meters, list.to_vec()));
        Ok(())
    }
}

/// "Opened at that bus baud without the practice flag it gives meters equal in" what is told of them; then the same bytes.
fn opens_again(name: &str, side: &mut impl Side, baud: u32, meters: &[Told], list: &[u8]) -> Result<(), String> {
    let opened = side.answer(&Call::Open { list: list.to_vec(), baud, practice: false, origin: 0.0 });
    if opened.returned != 0 {
        return Err(format!("{name}: the exported list is refused with {}", opened.returned % 256));
    }
    if told(&side.state()) != meters {
        return Err(format!("{name}: the exported list opens to other meters"));
    }
    let Answer { returned, lent, .. } = side.answer(&Call::Export { lent: list.len() });
    if returned != list.len() as u64 || !lent[0].starts_with(list) {
        return Err(format!("{name}: opened again, the list is exported otherwise"));
    }
    Ok(())
}
