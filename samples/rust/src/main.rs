//! A recipe that is overtaken. The office sends the mixers a recipe change (message 0) and the weighbridge a release (1).
//! The weighbridge acts on the release and calls the batch at the mixers (2). The line from the office to the mixers is
//! slow, and the call comes before the recipe: the mixer has the call, but does not act on it before the recipe, which
//! causally precedes it. The recipe and the batch are for one sales order, whose number they carry; the release is for
//! none. Before the last letter of the call and that of the recipe arrive, previews show what each would do; in between
//! the engine says whose message the call awaits, and which of the two came first.

use engine::{Awaited, LetterKind, Refusal, Step, World};

const NAMES: [&str; 3] = ["office", "weighbridge", "mixer"];
const BODIES: [&str; 3] = ["the new recipe", "release of lorry 7", "call for the batch"];
const OFFICE: u8 = 0;
const WEIGHBRIDGE: u8 = 1;
const MIXER: u8 = 2;
/// Order numbers: that of the sales order, and the one that means no order.
const SALES_ORDER: u16 = 1017;
const NO_ORDER: u16 = 0;

struct Mill {
    world: World,
    /// How many messages of its causal log each machine has acted on.
    acted: [usize; 3],
}

impl Mill {
    fn multicast(&mut self, from: u8, group: u8, order: u16) -> Result<(), Refusal> {
        let message = self.world.messages();
        self.world.step(Step::multicast_with_order(from, &[group], order)?)?;
        println!("{} sends message {message} to group {group}: {}", name(from), BODIES[message]);
        self.act()
    }

    fn arrive(&mut self, kind: LetterKind, message: u8, from: u8, to: u8) -> Result<(), Refusal> {
        self.world.step(Step::arrival(kind, message, from, to))?;
        println!("{} of message {message} from {} arrives at {}", kind_name(kind), name(from), name(to));
        self.act()
    }

    /// What a letter would do, and the logs that its receiver would have. The world stays as it is.
    fn preview(&self, kind: LetterKind, message: u8, from: u8, to: u8) -> Result<(), Refusal> {
        let (then, adds) = self.world.preview(Step::arrival(kind, message, from, to))?;
        println!(
            "preview: {} of message {message} from {} would make {} FIFO and {} causal deliveries, then {}",
            kind_name(kind),
            name(from),
            adds.fifo,
            adds.causal,
            logs(&then, to)?
        );
        Ok(())
    }

    /// Each machine acts on what is new in its causal log, in the log's order.
    fn act(&mut self) -> Result<(), Refusal> {
        for machine in [OFFICE, WEIGHBRIDGE, MIXER] {
            let log = self.world.causal_log(machine)?;
            let acted = &mut self.acted[usize::from(machine)];
            for &message in &log[*acted..] {
                println!("  {} acts on {}", name(machine), described(&self.world, message as u8)?);
            }
            *acted = log.len();
        }
        Ok(())
    }

    /// What the network has still to carry.
    fn print_letters(&self) {
        for letter in self.world.letters() {
            println!(
                "still travelling: message {} from {} to {}",
                letter.message,
                name(letter.from),
                name(letter.to)
            );
        }
    }

    /// Whose message is awaited by one that a machine has and does not act on yet.
    fn print_awaited(&self, machine: u8, message: u8) -> Result<(), Refusal> {
        if let Awaited::Message { of, message: awaited } = self.world.awaited(machine, message)? {
            println!("message {message} waits at {} for message {awaited} of {}", name(machine), name(of));
        }
        Ok(())
    }

    /// Which came first, the recipe or the call.
    fn print_precedes(&self) -> Result<(), Refusal> {
        let pairs = [[0, 2], [2, 0]];
        for ([first, second], precedes) in pairs.into_iter().zip(self.world.precedes(&pairs)?.answers) {
            let verb = if precedes { "precedes" } else { "does not precede" };
            println!("message {first} {verb} message {second}");
        }
        Ok(())
    }

    fn print_logs(&self) -> Result<(), Refusal> {
        for machine in [OFFICE, WEIGHBRIDGE, MIXER] {
            println!("{}", logs(&self.world, machine)?);
        }
        Ok(())
    }
}

fn name(machine: u8) -> &'static str {
    NAMES[usize::from(machine)]
}

/// A message, with the order that it is for.
fn described(world: &World, message: u8) -> Result<String, Refusal> {
    let order = match world.order(message)? {
        NO_ORDER => String::new(),
        order => format!(", order {order}"),
    };
    Ok(format!("message {message}: {}{order}", BODIES[usize::from(message)]))
}

fn kind_name(kind: LetterKind) -> &'static str {
    match kind {
        LetterKind::First => "first letter",
        LetterKind::Relay => "relay",
        LetterKind::Ok => "OK",
    }
}

fn logs(world: &World, machine: u8) -> Result<String, Refusal> {
    let fifo = items(world.fifo_log(machine)?);
    let causal = items(world.causal_log(machine)?);
    Ok(format!("{}: FIFO{fifo}; causal{causal}", name(machine)))
}

fn items(log: &[u16]) -> String {
    log.iter().map(|message| format!(" {message}")).collect()
}

fn main() -> Result<(), Refusal> {
    let mut mill = Mill { world: World::new(&[0, 1, 2])?, acted: [0; 3] };
    mill.multicast(OFFICE, 2, SALES_ORDER)?;
    mill.multicast(OFFICE, 1, NO_ORDER)?;
    mill.arrive(LetterKind::First, 1, OFFICE, WEIGHBRIDGE)?;
    mill.arrive(LetterKind::Ok, 1, WEIGHBRIDGE, WEIGHBRIDGE)?;
    mill.multicast(WEIGHBRIDGE, 2, SALES_ORDER)?;
    mill.arrive(LetterKind::First, 2, WEIGHBRIDGE, MIXER)?;
    mill.preview(LetterKind::Ok, 2, MIXER, MIXER)?;
    mill.arrive(LetterKind::Ok, 2, MIXER, MIXER)?;
    mill.print_letters();
    mill.print_awaited(MIXER, 2)?;
    mill.print_precedes()?;
    mill.print_logs()?;
    mill.arrive(LetterKind::First, 0, OFFICE, MIXER)?;
    mill.preview(LetterKind::Ok, 0, MIXER, MIXER)?;
    mill.arrive(LetterKind::Ok, 0, MIXER, MIXER)?;
    mill.print_logs()?;

    // A letter arrives once only.
    let again = mill.world.step(Step::arrival(LetterKind::Ok, 0, MIXER, MIXER));
    println!("the same letter again: {}", again.expect_err("a letter that is no longer in flight"));
    Ok(())
}
