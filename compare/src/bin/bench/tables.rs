//! The tables that are printed. A row says what is timed, then has the times of the
//! build before and of the one now with their ratio, those of rivals, each with the
//! ratio of now to it, and what else there is to tell.

/// A table whose head is printed.
pub struct Table {
    rivals: usize,
    decimals: usize,
}

impl Table {
    /// Prints the head, by the columns that say what is timed, the rivals, and what
    /// else is told; times will have so many decimals.
    pub fn new(subject: &[&str], rivals: &[&str], further: &[&str], decimals: usize) -> Table {
        let mut columns = owned(subject);
        columns.extend(owned(&["before", "now", "now / before"]));
        for rival in rivals {
            columns.extend([rival.to_string(), format!("now / {rival}")]);
        }
        columns.extend(owned(further));
        print_cells(&columns);
        println!("|---|{}", "---:|".repeat(columns.len() - 1));
        Table {
            rivals: rivals.len(),
            decimals,
        }
    }

    /// Prints a row. The times are those of before, of now and of the rivals; a rival
    /// behind the last of them gets a dash.
    pub fn print_row(&self, subject: &[&str], times: &[f64], further: &[f64]) {
        self.print(subject, Some(times[0]), &times[1..], further);
    }

    /// Prints a row of what the build before can't do: dashes, and the times of now and
    /// of the rivals.
    pub fn print_new_row(&self, subject: &[&str], times: &[f64]) {
        self.print(subject, None, times, &[]);
    }

    /// Prints a row, by the time of before, if there is any, and those of now and of the
    /// rivals.
    fn print(&self, subject: &[&str], before: Option<f64>, times: &[f64], further: &[f64]) {
        let now = times[0];
        let [before, ratio_to_before] = self.beside(now, before);
        let mut cells = owned(subject);
        cells.extend([before, self.time(now), ratio_to_before]);
        for rival in 1..=self.rivals {
            cells.extend(self.beside(now, times.get(rival).copied()));
        }
        cells.extend(further.iter().map(|number| format!("{number:.2}")));
        print_cells(&cells);
    }

    /// Another time and the ratio of now to it, or two dashes for none.
    fn beside(&self, now: f64, other: Option<f64>) -> [String; 2] {
        match other {
            Some(time) => [self.time(time), ratio(now, time)],
            None => ["-", "-"].map(str::to_string),
        }
    }

    /// A time as it is printed.
    fn time(&self, time: f64) -> String {
        format!("{time:.*}", self.decimals)
    }
}

/// One time in another, as it is printed.
fn ratio(time: f64, other: f64) -> String {
    format!("{:.2}", time / other)
}

/// Texts that can be gathered with others.
fn owned(cells: &[&str]) -> Vec<String> {
    cells.iter().map(|cell| cell.to_string()).collect()
}

/// Prints the cells of a line.
fn print_cells(cells: &[String]) {
    println!("| {} |", cells.join(" | "));
}
