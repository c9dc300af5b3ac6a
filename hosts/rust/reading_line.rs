//! The reading line: a cutter, a sign finder, an expander, and a second reader who comes late.

use desk::{Desk, Refusal, NEVER};

const CUTTER: u32 = 0;

/// Who is at work, and through which connections.
struct Line {
    desk: Desk,
    photographs: u32,
    finder: u32,
    expander: u32,
    cut: u32,
    look: u32,
    write: u32,
    read: u32,
}

fn main() -> Result<(), Refusal> {
    let mut line = Line::new()?;
    line.cut()?;
    line.find_signs()?;
    line.expand()?;
    line.read_again()?;
    line.move_on()?;
    line.go_home()
}

impl Line {
    fn new() -> Result<Line, Refusal> {
        let mut desk = Desk::fresh();
        let photographs = desk.channel(CUTTER)?;
        let signs = desk.channel(CUTTER)?;
        let finder = desk.new_thread(CUTTER, 1)?;
        let expander = desk.new_thread(CUTTER, 1)?;
        let line = Line {
            photographs,
            finder,
            expander,
            cut: desk.attach_output(CUTTER, photographs)?,
            look: desk.attach_input(finder, photographs)?.connection,
            write: desk.attach_output(finder, signs)?,
            read: desk.attach_input(expander, signs)?.connection,
            desk,
        };
        line.follow()
    }

    /// An input begins at the time of its thread, so the readers have attached at line 1. Now they
    /// give up a time of their own, and go by the lines that they hold open.
    fn follow(mut self) -> Result<Line, Refusal> {
        self.desk.set(self.finder, NEVER)?;
        self.desk.set(self.expander, NEVER)?;
        Ok(self)
    }

    fn cut(&mut self) -> Result<(), Refusal> {
        for line in 1..=3 {
            let ticket = 100 + u64::from(line);
            self.desk.put(CUTTER, self.cut, line, ticket)?;
            println!("The cutter puts photograph {ticket} of line {line}.");
        }
        self.desk.end(CUTTER)?;
        println!("The cutter ends.\n");
        Ok(())
    }

    fn find_signs(&mut self) -> Result<(), Refusal> {
        for _ in 0..3 {
            let photograph = self.desk.get_earliest(self.finder, self.look)?;
            let line = photograph.timestamp;
            let signs = 200 + u64::from(line);
            self.desk.put(self.finder, self.write, line, signs)?;
            self.desk.consume(self.finder, self.look, line)?;
            println!(
                "The sign finder gets photograph {} of line {line}, puts signs {signs}, and is done with it.",
                photograph.ticket
            );
        }
        self.desk.end(self.finder)?;
        println!(
            "The sign finder ends. Nobody at work reads photographs now; {} items lie on the desk.\n",
            self.desk.items_present()
        );
        Ok(())
    }

    fn expand(&mut self) -> Result<(), Refusal> {
        let first = self.desk.get_earliest(self.expander, self.read)?;
        self.desk
            .consume(self.expander, self.read, first.timestamp)?;
        println!(
            "The expander gets signs {} of line {} and expands them.",
            first.ticket, first.timestamp
        );
        let doubtful = self.desk.get_earliest(self.expander, self.read)?;
        println!(
            "The expander gets signs {} of line {} and is in doubt.",
            doubtful.ticket, doubtful.timestamp
        );
        println!(
            "While it holds them open, its visible time is {}: from there on it may call up readers.",
            self.desk.visible_time(self.expander)?
        );
        self.sweep()?;
        println!();
        Ok(())
    }

    fn read_again(&mut self) -> Result<(), Refusal> {
        let reader = self.desk.new_thread(self.expander, 2)?;
        let late = self.desk.attach_input(reader, self.photographs)?;
        println!(
            "The expander calls up a second reader for line 2. It attaches late, with mark {}.",
            late.mark
        );
        let photograph = self.desk.get_earliest(reader, late.connection)?;
        println!(
            "The second reader finds photograph {} of line {}: the desk has kept it.",
            photograph.ticket, photograph.timestamp
        );
        self.desk.end(reader)?;
        println!("The second reader ends.\n");
        Ok(())
    }

    fn move_on(&mut self) -> Result<(), Refusal> {
        self.desk.consume(self.expander, self.read, 2)?;
        let next = self.desk.get_earliest(self.expander, self.read)?;
        println!(
            "The expander moves on and gets signs {} of line {}. Its visible time is {}.",
            next.ticket,
            next.timestamp,
            self.desk.visible_time(self.expander)?
        );
        self.sweep()?;
        println!("The expander asks for another reader for line 2:");
        if let Err(refusal) = self.desk.new_thread(self.expander, 2) {
            println!("  {refusal}.\n");
        }
        Ok(())
    }

    fn go_home(&mut self) -> Result<(), Refusal> {
        self.desk.consume(self.expander, self.read, 3)?;
        self.desk.end(self.expander)?;
        println!("The expander ends.");
        self.sweep()
    }

    fn sweep(&mut self) -> Result<(), Refusal> {
        let swept = self.desk.strong_sweep()?;
        let bound = match swept.bound {
            NEVER => "never".to_string(),
            bound => bound.to_string(),
        };
        let tickets: Vec<String> = swept.tickets.iter().map(u64::to_string).collect();
        println!(
            "A strong sweep hands back all below {bound}: {}. {} items stay.",
            tickets.join(" and "),
            self.desk.items_present()
        );
        Ok(())
    }
}
