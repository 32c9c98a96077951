//! Prints what a program must write that makes tables of several lengths
//! fresh, checks tables of several lengths, and then checks each of the tables
//! written out by hand, as it is and with every word changed in turn.

fn main() {
    print!("{}", second::report_lengths());
    print!("{}", second::report_tables(&second::read_tables(second::TABLES)));
}
